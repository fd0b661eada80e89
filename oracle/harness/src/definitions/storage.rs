//! Mirrors crates/risinglight/specs/Storage.antt: `SecondaryStorage`, the catalog, and `bootstrap` of storage.rs.
//! `Table` is that of crates/manifest/specs/Edits.antt.
use super::keyed::{all_of, any_of, cons, has, joined, keep, without};
use super::manifest::Operation::{self, *};
use super::manifest::{Value, frame, replay};
use super::maps::*;
use super::numbers::{wrapping, wrapping32};
use super::version_manager::{Inner, commit_changes, fresh};

#[derive(Clone, Debug, PartialEq)]
pub struct Table {
    pub id: u64,
    pub shape: u64,
    pub name: String,
}

pub fn table(t: u64, h: u64, n: &str) -> Table {
    Table { id: t, shape: h, name: n.into() }
}

pub fn by_id(t: &Table) -> [u64; 1] {
    [t.id]
}

/// `apply_create_table` refuses a name that is there, `apply_drop_table` a table that is not.
pub fn apply_table(o: &Operation, l: Vec<Table>) -> Outcome<Vec<Table>> {
    match o {
        CreateTable(t, h, n) if !any_of(|x: &Table| x.name == *n, &l) => Ok(cons(table(*t, *h, n), l)),
        CreateTable(..) => Fails,
        DropTable(t) if has(by_id, [*t], &l) => Ok(without(by_id, [*t], l)),
        DropTable(_) => Fails,
        _ => Ok(l),
    }
}

pub fn apply_tables(os: &[Operation], l: Vec<Table>) -> Outcome<Vec<Table>> {
    os.iter().fold(Ok(l), |l, o| and_then(l, |l| apply_table(o, l)))
}

/// The loop of `bootstrap` over what `replay` gave, for each thing that it fills.
pub fn through<A>(f: impl Fn(&Operation, A) -> A, os: &[Operation], x: A) -> A {
    os.iter().fold(x, |x, o| f(o, x))
}

#[derive(Clone, Debug, PartialEq)]
pub struct Rowset {
    pub table: u64,
    pub rowset: u64,
}

pub fn rowset(t: u64, r: u64) -> Rowset {
    Rowset { table: t, rowset: r }
}

pub fn pair_of(x: &Rowset) -> [u64; 2] {
    [x.table, x.rowset]
}

pub fn open_rowset(o: &Operation, l: Vec<Rowset>) -> Vec<Rowset> {
    match *o {
        AddRowset(t, r) => cons(rowset(t, r), without(pair_of, [t, r], l)),
        DeleteRowset(t, r) => without(pair_of, [t, r], l),
        _ => l,
    }
}

pub fn rowsets_to_open(os: &[Operation], l: Vec<Rowset>) -> Vec<Rowset> {
    through(open_rowset, os, l)
}

#[derive(Clone, Debug, PartialEq)]
pub struct Dv {
    pub table: u64,
    pub rowset: u64,
    pub dv: u64,
}

pub fn dv(t: u64, r: u64, v: u64) -> Dv {
    Dv { table: t, rowset: r, dv: v }
}

pub fn triple_of(x: &Dv) -> [u64; 3] {
    [x.table, x.rowset, x.dv]
}

pub fn open_dv(o: &Operation, l: Vec<Dv>) -> Vec<Dv> {
    match *o {
        AddVector(t, r, v) => cons(dv(t, r, v), without(triple_of, [t, r, v], l)),
        DeleteVector(t, r, v) => without(triple_of, [t, r, v], l),
        _ => l,
    }
}

pub fn dvs_to_open(os: &[Operation], l: Vec<Dv>) -> Vec<Dv> {
    through(open_dv, os, l)
}

/// Every create and drop there ever was.
pub fn is_of_table(o: &Operation) -> bool {
    matches!(o, CreateTable(..) | DropTable(_))
}

pub fn table_changeset(os: Vec<Operation>) -> Vec<Operation> {
    keep(is_of_table, os)
}

/// What is opened is committed, and written anew; a rowset or vector whose table is not there panics.
pub fn changeset(rs: &[Rowset], vs: &[Dv], ts: Vec<Operation>) -> Vec<Operation> {
    let rowsets = rs.iter().map(|x| AddRowset(x.table, x.rowset)).collect();
    let dvs = vs.iter().map(|x| AddVector(x.table, x.rowset, x.dv)).collect();
    joined(rowsets, joined(dvs, ts))
}

pub fn openable(l: &[Table], rs: &[Rowset], vs: &[Dv]) -> bool {
    all_of(|x: &Rowset| has(by_id, [x.table], l), rs) && all_of(|x: &Dv| has(by_id, [x.table], l), vs)
}

/// `next_id` of rowsets and of vectors.
#[derive(Clone, Copy, Debug, PartialEq)]
pub struct NextId {
    pub rowset: u64,
    pub dv: u64,
}

pub fn next_id(r: u64, v: u64) -> NextId {
    NextId { rowset: r, dv: v }
}

/// `fetch_max`: past every id that the manifest still adds.
pub fn raise(o: &Operation, x: NextId) -> NextId {
    match *o {
        AddRowset(_, r) => next_id(x.rowset.max(wrapping32(r + 1)), x.dv),
        AddVector(_, _, v) => next_id(x.rowset, x.dv.max(wrapping(u128::from(v) + 1))),
        _ => x,
    }
}

pub fn raised(os: &[Operation], x: NextId) -> NextId {
    through(raise, os, x)
}

/// The catalog, the version manager, the next ids and the manifest.
#[derive(Clone, Debug, PartialEq)]
pub struct Storage {
    pub catalog: Vec<Table>,
    pub version: Inner,
    pub next: NextId,
    pub manifest: Vec<Value>,
}

pub fn storage(c: Vec<Table>, v: Inner, n: NextId, m: Vec<Value>) -> Storage {
    Storage { catalog: c, version: v, next: n, manifest: m }
}

/// `rewrite_changes`: committed by a manager that has nothing yet, into a new file.
pub fn rewritten(l: Vec<Table>, n: NextId, os: &[Operation]) -> Outcome<Storage> {
    and_then(commit_changes(os, fresh()), |m| Ok(storage(l, m, n, frame(os))))
}

pub fn opened(ops: Vec<Operation>, l: Vec<Table>) -> Outcome<Storage> {
    let rs = rowsets_to_open(&ops, vec![]);
    let vs = dvs_to_open(&ops, vec![]);
    match openable(&l, &rs, &vs) {
        true => rewritten(l, raised(&ops, next_id(0, 0)), &changeset(&rs, &vs, table_changeset(ops))),
        false => Fails,
    }
}

pub fn bootstrap(file: &[Value]) -> Outcome<Storage> {
    and_then(apply_tables(&replay(file), vec![]), |l| opened(replay(file), l))
}
