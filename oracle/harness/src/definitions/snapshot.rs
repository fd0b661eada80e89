//! Mirrors crates/risinglight/specs/Snapshot.antt: `Snapshot` of version_manager.rs, what an epoch has.
use super::maps::*;

#[derive(Clone, Debug, PartialEq)]
pub struct Snapshot {
    /// By table: rowsets.
    pub rowsets: Vec<Binding<Vec<u64>>>,
    /// By table and rowset: vectors.
    pub dvs: Vec<Binding<Vec<Binding<Vec<u64>>>>>,
}

pub fn snapshot(r: Vec<Binding<Vec<u64>>>, d: Vec<Binding<Vec<Binding<Vec<u64>>>>>) -> Snapshot {
    Snapshot { rowsets: r, dvs: d }
}

pub fn default() -> Snapshot {
    snapshot(vec![], vec![])
}

/// A set or map that holds nothing any more is removed.
pub fn settled<A>(k: u64, l: Vec<A>, m: Vec<Binding<Vec<A>>>) -> Vec<Binding<Vec<A>>> {
    if is_empty(&l) { remove(k, m) } else { insert(k, l, m) }
}

pub fn snapshot_add_rowset(t: u64, r: u64, s: Snapshot) -> Snapshot {
    let table = unwrap_or(vec![], get(t, &s.rowsets));
    snapshot(insert(t, with_number(r, table), s.rowsets), s.dvs)
}

pub fn snapshot_delete_rowset(t: u64, r: u64, s: Snapshot) -> Outcome<Snapshot> {
    and_then(unwrap(get(t, &s.rowsets)), |table| {
        Ok(snapshot(settled(t, without_number(r, table), s.rowsets), s.dvs))
    })
}

pub fn snapshot_add_dv(t: u64, r: u64, v: u64, s: Snapshot) -> Snapshot {
    let table = unwrap_or(vec![], get(t, &s.dvs));
    let dvs = unwrap_or(vec![], get(r, &table));
    snapshot(s.rowsets, insert(t, insert(r, with_number(v, dvs), table), s.dvs))
}

pub fn snapshot_delete_dv(t: u64, r: u64, v: u64, s: Snapshot) -> Outcome<Snapshot> {
    and_then(unwrap(get(t, &s.dvs)), |table| {
        and_then(unwrap(get(r, &table)), |dvs| {
            Ok(snapshot(s.rowsets, settled(t, settled(r, without_number(v, dvs), table), s.dvs)))
        })
    })
}

pub fn has_rowset(t: u64, r: u64, s: &Snapshot) -> bool {
    contains(r, &unwrap_or(vec![], get(t, &s.rowsets)))
}

pub fn has_dv(t: u64, r: u64, v: u64, s: &Snapshot) -> bool {
    contains(v, &unwrap_or(vec![], get(r, &unwrap_or(vec![], get(t, &s.dvs)))))
}
