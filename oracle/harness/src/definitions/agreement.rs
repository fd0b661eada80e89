//! Mirrors crates/risinglight/specs/Agreement.antt: what is read off an engine.
use std::rc::Rc;

use super::keyed::{arranged, itself};
use super::maps::*;
use super::snapshot::{self, Snapshot};
use super::version_manager::{Inner, Pair};

/// The snapshot of an epoch.
pub fn snapshot_at(d: u64, m: &Inner) -> Rc<Snapshot> {
    unwrap_or(Rc::new(snapshot::default()), get(d, &m.status))
}

/// The deletions to apply: (epoch, table, rowset).
pub fn deletions_in(m: &[Binding<Vec<Pair>>]) -> Vec<[u64; 3]> {
    m.iter().flat_map(|b| b.value.iter().map(|k| [b.key, k[0], k[1]])).collect()
}

/// Those (table, rowset) of which `has_rowset` is true, ascending.
pub fn pairs_of(s: &Snapshot) -> Vec<Pair> {
    arranged(itself, s.rowsets.iter().flat_map(|b| b.value.iter().map(|r| [b.key, *r])).collect())
}

/// Those (table, rowset, vector) of which `has_dv` is true, ascending.
pub fn vectors_of(s: &Snapshot) -> Vec<[u64; 3]> {
    let mut all = vec![];
    for table in &s.dvs {
        for rowset in &table.value {
            all.extend(rowset.value.iter().map(|v| [table.key, rowset.key, *v]));
        }
    }
    arranged(itself, all)
}
