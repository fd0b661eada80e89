//! Mirrors crates/risinglight/specs/Run.antt: what each call does. There a call is a relation of two engines; here it
//! is a function from the one to the other. `drop_operations` and `compact_operations` are those of
//! crates/table/specs/Made.antt, on what the engine shows.
use std::rc::Rc;

use super::agreement::{pairs_of, vectors_of};
use super::keyed::{any_of, joined, keep};
use super::manifest::Operation::{self, *};
use super::manifest::{Value, frame};
use super::maps::*;
use super::numbers::{wrapping, wrapping32};
use super::snapshot::Snapshot;
use super::storage::*;
use super::version_manager::{self as version, Inner, Pair, commit_changes, find_vacuum};

/// The storage, the manifest that a start finds if it is the next call, and how many starts there were.
#[derive(Clone, Debug, PartialEq)]
pub struct Engine {
    pub running: Storage,
    pub torn: Vec<Value>,
    pub starts: u64,
}

pub fn engine(s: Storage, t: Vec<Value>, n: u64) -> Engine {
    Engine { running: s, torn: t, starts: n }
}

/// Nothing yet. The original begins by a start on an empty folder, which is a commit: that one is left out.
pub fn started() -> Engine {
    engine(storage(vec![], version::fresh(), next_id(0, 0), vec![]), vec![], 0)
}

/// How many of the n values of a commit's append land where a start is the next call: all, or fewer.
pub fn landing(missing: usize, cut: usize, n: usize) -> usize {
    match missing {
        0 => n,
        _ => cut.min(n - 1),
    }
}

/// The file that a start finds after a commit; a part of `Commits` there.
pub fn torn_by(os: &[Operation], missing: usize, cut: usize, file: Vec<Value>) -> Vec<Value> {
    let frame = frame(os);
    let landed = landing(missing, cut, frame.len());
    joined(file, frame.into_iter().take(landed).collect())
}

/// Any other call finds that everything had landed.
pub fn landed(m: Inner, n: NextId, g: Engine) -> Engine {
    let file = g.running.manifest;
    engine(storage(g.running.catalog, m, n, file.clone()), file, g.starts)
}

/// A draw or a grouping, which leaves these next ids. There it is also said how its id compares with the port's.
pub fn draws(left: NextId, g: Engine) -> Engine {
    landed(g.running.version.clone(), left, g)
}

/// What is left by a draw of `next.rowset`. From the source: `fetch_add` wraps at the largest number, where the definition
/// counts on, since no draw that the port accepts comes there.
pub fn draw_rowset(ids: NextId) -> NextId {
    next_id(wrapping32(ids.rowset + 1), ids.dv)
}

/// What is left by a draw of `next.dv`. From the source: it wraps too.
pub fn draw_vector(ids: NextId) -> NextId {
    next_id(ids.rowset, wrapping(u128::from(ids.dv) + 1))
}

/// What is left by a grouping into so many vectors, the first of which has `next.dv`. From the source: it wraps too.
pub fn group(count: u64, ids: NextId) -> NextId {
    next_id(ids.rowset, wrapping(u128::from(ids.dv) + u128::from(count)))
}

/// The original is not called: locks are not the version manager's, and it has no checkpoint.
pub fn rests(g: Engine) -> Engine {
    landed(g.running.version.clone(), g.running.next, g)
}

/// Commits the operations; whoever commits creates and drops makes the catalog follow.
pub fn commits(os: &[Operation], missing: usize, cut: usize, g: Engine) -> Outcome<Engine> {
    let Storage { catalog, version, next: ids, manifest: file } = g.running;
    and_then(commit_changes(os, version), |version| {
        and_then(apply_tables(os, catalog), |catalog| {
            let torn = torn_by(os, missing, cut, file.clone());
            Ok(engine(storage(catalog, version, ids, joined(file, frame(os))), torn, g.starts))
        })
    })
}

/// The answer with the snapshot, and the engine after it.
pub fn pins(g: Engine) -> Outcome<(u64, Rc<Snapshot>, Engine)> {
    and_then(version::pin(g.running.version.clone()), |result| {
        Ok((result.epoch, result.snapshot, landed(result.left, g.running.next, g)))
    })
}

/// The notice is the answer.
pub fn unpins(d: u64, g: Engine) -> Outcome<(bool, Engine)> {
    and_then(version::drop(d, g.running.version.clone()), |result| {
        Ok((result.notice, landed(result.left, g.running.next, g)))
    })
}

pub fn vacuums(g: Engine) -> (Vec<Pair>, Engine) {
    let result = find_vacuum(g.running.version.clone());
    (result.deletions, landed(result.left, g.running.next, g))
}

pub fn starts(stale: bool, g: Engine) -> Outcome<Engine> {
    and_then(bootstrap(&g.torn), |result| {
        let torn = if stale { g.torn } else { result.manifest.clone() };
        Ok(engine(result, torn, g.starts + 1))
    })
}

pub fn create_operations(next: u64, shape: u64, name: &str) -> Vec<Operation> {
    vec![CreateTable(next, shape, name.into())]
}

pub fn drop_operations(t: u64, s: &Snapshot) -> Vec<Operation> {
    let vectors = keep(|k| k[0] == t, vectors_of(s)).into_iter().map(|k| DeleteVector(k[0], k[1], k[2]));
    let pairs = keep(|k| k[0] == t, pairs_of(s)).into_iter().map(|k| DeleteRowset(k[0], k[1]));
    [DropTable(t)].into_iter().chain(vectors).chain(pairs).collect()
}

pub fn compact_operations(t: u64, new: Option<u64>, taken: &[u64], s: &Snapshot) -> Vec<Operation> {
    let is_over = |k: &[u64; 3]| k[0] == t && any_of(|r| *r == k[1], taken);
    let vectors = keep(is_over, vectors_of(s)).into_iter().map(|k| DeleteVector(k[0], k[1], k[2]));
    let new = new.into_iter().map(|r| AddRowset(t, r));
    new.chain(vectors).chain(taken.iter().map(|r| DeleteRowset(t, *r))).collect()
}
