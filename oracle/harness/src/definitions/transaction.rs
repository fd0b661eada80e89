//! Mirrors crates/risinglight/specs/Transaction.antt: the deletes of `commit_inner` of transaction.rs. `Handle` is that
//! of crates/transaction/specs/Groups.antt.
use super::delete_vector as vector;
use super::keyed::joined;
use super::maps::*;
use super::numbers::wrapping;

/// A row handle: its rowset and its row.
#[derive(Clone, Copy, Debug, PartialEq)]
pub struct Handle {
    pub rowset: u64,
    pub row: u64,
}

/// `entry(k).or_insert_with(Vec::new).push(row)`
pub fn pushed(k: u64, row: u64, m: Vec<Binding<Vec<u64>>>) -> Vec<Binding<Vec<u64>>> {
    insert(k, joined(unwrap_or(vec![], get(k, &m)), vec![row]), m)
}

/// `delete_split_map`: by rowset, the rows in the order of the handles.
pub fn split_on(delete_buffer: &[Handle], m: Vec<Binding<Vec<u64>>>) -> Vec<Binding<Vec<u64>>> {
    delete_buffer.iter().fold(m, |m, h| pushed(h.rowset, h.row, m))
}

pub fn split(delete_buffer: &[Handle]) -> Vec<Binding<Vec<u64>>> {
    split_on(delete_buffer, vec![])
}

/// A vector with its file: the records that `write_all` is given, in their order.
#[derive(Clone, Debug, PartialEq)]
pub struct DeleteVector {
    pub dv_id: u64,
    pub rowset_id: u64,
    pub deletes: Vec<u64>,
    pub records: Vec<u64>,
}

/// `DeleteVector::new`
pub fn new(v: u64, r: u64, deletes: Vec<u64>) -> DeleteVector {
    DeleteVector { dv_id: v, rowset_id: r, deletes: vector::new(&deletes), records: deletes }
}

/// The loop over the map in the order in which its bindings come, the next id being v; `fetch_add` wraps.
pub fn dvs(mut v: u64, delete_split_map: Vec<Binding<Vec<u64>>>) -> Vec<DeleteVector> {
    let mut dvs = vec![];
    for b in delete_split_map {
        dvs.push(new(v, b.key, b.value));
        v = wrapping(u128::from(v) + 1);
    }
    dvs
}
