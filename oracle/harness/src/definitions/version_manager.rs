//! Mirrors crates/risinglight/specs/VersionManager.antt: `VersionManagerInner` and the methods of `VersionManager` and
//! `Version`, of version_manager.rs.
use std::rc::Rc;

use super::keyed::{cons, itself, joined, keep, without};
use super::manifest::Operation::{self, *};
use super::maps::*;
use super::snapshot::{self, Snapshot, snapshot_add_dv, snapshot_add_rowset, snapshot_delete_dv, snapshot_delete_rowset};

pub type Pair = [u64; 2];

#[derive(Clone, Debug, PartialEq)]
pub struct Inner {
    /// Behind a counter as in the original, so that a copy is cheap.
    pub status: Vec<Binding<Rc<Snapshot>>>,
    /// The pools of rowsets, by (table, rowset), and of vectors, by (table, vector): what has an object.
    pub rowsets: Vec<Pair>,
    pub dvs: Vec<Pair>,
    pub ref_cnt: Vec<Binding<u64>>,
    /// By epoch: pairs (table, rowset).
    pub rowset_deletion_to_apply: Vec<Binding<Vec<Pair>>>,
    pub epoch: u64,
}

pub fn inner(
    s: Vec<Binding<Rc<Snapshot>>>,
    r: Vec<Pair>,
    v: Vec<Pair>,
    c: Vec<Binding<u64>>,
    d: Vec<Binding<Vec<Pair>>>,
    e: u64,
) -> Inner {
    Inner { status: s, rowsets: r, dvs: v, ref_cnt: c, rowset_deletion_to_apply: d, epoch: e }
}

/// `VersionManagerInner::default`
pub fn fresh() -> Inner {
    inner(vec![], vec![], vec![], vec![], vec![], 0)
}

/// An object in the place of what has its key.
pub fn pooled(k: Pair, l: Vec<Pair>) -> Vec<Pair> {
    cons(k, without(itself, k, l))
}

/// `commit_changes`: the snapshot, the pools and the deletions, operation by operation.
#[derive(Clone, Debug, PartialEq)]
pub struct Changing {
    pub snapshot: Snapshot,
    pub rowsets: Vec<Pair>,
    pub dvs: Vec<Pair>,
    pub deletions: Vec<Pair>,
}

pub fn changing(s: Snapshot, r: Vec<Pair>, v: Vec<Pair>, d: Vec<Pair>) -> Changing {
    Changing { snapshot: s, rowsets: r, dvs: v, deletions: d }
}

pub fn change(o: &Operation, c: Changing) -> Outcome<Changing> {
    match *o {
        CreateTable(..) => Ok(c),
        DropTable(_) => Ok(c),
        AddRowset(t, r) => {
            Ok(changing(snapshot_add_rowset(t, r, c.snapshot), pooled([t, r], c.rowsets), c.dvs, c.deletions))
        }
        DeleteRowset(t, r) => and_then(snapshot_delete_rowset(t, r, c.snapshot), |s| {
            Ok(changing(s, c.rowsets, c.dvs, joined(c.deletions, vec![[t, r]])))
        }),
        AddVector(t, r, v) => {
            Ok(changing(snapshot_add_dv(t, r, v, c.snapshot), c.rowsets, pooled([t, v], c.dvs), c.deletions))
        }
        DeleteVector(t, r, v) => {
            and_then(snapshot_delete_dv(t, r, v, c.snapshot), |s| Ok(changing(s, c.rowsets, c.dvs, c.deletions)))
        }
    }
}

pub fn changes(os: &[Operation], c: Changing) -> Outcome<Changing> {
    os.iter().fold(Ok(c), |c, o| and_then(c, |c| change(o, c)))
}

pub fn latest(m: &Inner) -> Snapshot {
    unwrap_or(snapshot::default(), get(m.epoch, &m.status).map(Rc::unwrap_or_clone))
}

pub fn committed(m: Inner, c: Changing) -> Inner {
    let e = m.epoch + 1;
    inner(
        insert(e, Rc::new(c.snapshot), m.status),
        c.rowsets,
        c.dvs,
        m.ref_cnt,
        insert(e, c.deletions, m.rowset_deletion_to_apply),
        e,
    )
}

/// The new epoch is the answer.
pub fn commit_changes(ops: &[Operation], m: Inner) -> Outcome<Inner> {
    let begun = changing(latest(&m), m.rowsets.clone(), m.dvs.clone(), vec![]);
    and_then(changes(ops, begun), |c| Ok(committed(m, c)))
}

/// `pin`: the `Version`, and what is left.
pub struct Pinned {
    pub epoch: u64,
    pub snapshot: Rc<Snapshot>,
    pub left: Inner,
}

pub fn with_counts(c: Vec<Binding<u64>>, m: Inner) -> Inner {
    inner(m.status, m.rowsets, m.dvs, c, m.rowset_deletion_to_apply, m.epoch)
}

pub fn pin(m: Inner) -> Outcome<Pinned> {
    let n = unwrap_or(0, get(m.epoch, &m.ref_cnt));
    and_then(unwrap(get(m.epoch, &m.status)), |s| {
        Ok(Pinned {
            epoch: m.epoch,
            snapshot: s,
            left: with_counts(insert(m.epoch, n + 1, m.ref_cnt.clone()), m),
        })
    })
}

/// `Drop` of a `Version` of epoch e: whether a notice is sent, and what is left.
pub struct Dropped {
    pub notice: bool,
    pub left: Inner,
}

pub fn dropped(b: bool, m: Inner) -> Dropped {
    Dropped { notice: b, left: m }
}

pub fn drop(e: u64, m: Inner) -> Outcome<Dropped> {
    and_then(unwrap(get(e, &m.ref_cnt)), |n| {
        Ok(if n - 1 == 0 {
            dropped(e != m.epoch, with_counts(remove(e, m.ref_cnt.clone()), m))
        } else {
            dropped(false, with_counts(insert(e, n - 1, m.ref_cnt.clone()), m))
        })
    })
}

// `find_vacuum`

pub fn smallest(x: u64, l: &[u64]) -> u64 {
    l.iter().fold(x, |x, y| x.min(*y))
}

pub fn minimum(l: &[u64]) -> Option<u64> {
    match l {
        [] => None,
        [x, l @ ..] => Some(smallest(*x, l)),
    }
}

pub fn vacuum_epoch(m: &Inner) -> u64 {
    unwrap_or(m.epoch, minimum(&keys(&m.ref_cnt)))
}

pub fn can_apply(m: &Inner, b: &Binding<Vec<Pair>>) -> bool {
    b.key <= vacuum_epoch(m)
}

pub fn extended(l: Vec<Binding<Vec<Pair>>>) -> Vec<Pair> {
    l.into_iter().flat_map(|b| b.value).collect()
}

/// The deletions, and what is left.
pub struct Vacuumed {
    pub deletions: Vec<Pair>,
    pub left: Inner,
}

/// What is listed leaves the pool.
pub fn released(l: &[Pair], pool: Vec<Pair>) -> Vec<Pair> {
    l.iter().fold(pool, |pool, k| without(itself, *k, pool))
}

pub fn find_vacuum(m: Inner) -> Vacuumed {
    let d = m.rowset_deletion_to_apply.clone();
    let l = extended(keep(|b| can_apply(&m, b), d.clone()));
    let waiting = keep(|b| !can_apply(&m, b), d);
    let left = inner(m.status, released(&l, m.rowsets), m.dvs, m.ref_cnt, waiting, m.epoch);
    Vacuumed { deletions: l, left }
}
