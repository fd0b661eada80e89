//! Mirrors crates/risinglight/specs/Compactor.antt: the loop of `compact_table` of compactor.rs, which rowsets of a
//! table are compacted. `Sized` is that of crates/compactor/specs/Selection.antt.
use super::keyed::arranged;
use super::maps::{get, unwrap_or};
use super::numbers::wrapping;
use super::snapshot::Snapshot;

/// A rowset and its size.
#[derive(Clone, Copy, Debug, PartialEq)]
pub struct Sized {
    pub rowset: u64,
    pub size: u64,
}

pub fn sized_as(r: u64, n: u64) -> Sized {
    Sized { rowset: r, size: n }
}

/// `get_rowsets_of`: the set that is walked; where a table has none, nothing is.
pub fn get_rowsets_of(t: u64, s: &Snapshot) -> Vec<u64> {
    unwrap_or(vec![], get(t, &s.rowsets))
}

pub fn sized_rowset_id(x: &Sized) -> u64 {
    x.rowset
}

/// A rowset, by its id.
pub fn by_rowset(x: &Sized) -> [u64; 1] {
    [sized_rowset_id(x)]
}

/// The loop over the rowsets in the order in which they come, with sizes of the sum current_size selected.
pub fn selecting(target_rowset_size: u64, mut current_size: u64, rowsets: &[Sized]) -> Vec<Sized> {
    let mut selected = vec![];
    for x in rowsets {
        let sum = wrapping(u128::from(x.size) + u128::from(current_size));
        if sum <= target_rowset_size {
            current_size = sum;
            selected.push(*x);
        }
    }
    selected
}

/// At most one: nothing is compacted. Else they are sorted by their ids.
pub fn select(target_rowset_size: u64, rowsets: &[Sized]) -> Vec<u64> {
    let selected_rowsets = selecting(target_rowset_size, 0, rowsets);
    match selected_rowsets.len() <= 1 {
        true => vec![],
        false => arranged(by_rowset, selected_rowsets).iter().map(sized_rowset_id).collect(),
    }
}
