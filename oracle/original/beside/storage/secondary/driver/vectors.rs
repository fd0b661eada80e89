//! Delete vectors: `write_all`, `open` and `apply_to`.
use std::collections::BTreeSet;

use bitvec::prelude::BitVec;
use prost::Message;
use risinglight_proto::rowset::DeleteRecord;

use super::store::Store;
use crate::storage::secondary::*;

fn records(rows: &[u32]) -> Vec<DeleteRecord> {
    rows.iter().map(|row| DeleteRecord { row_id: *row }).collect()
}

pub async fn encoded(rows: &[u32]) -> StorageResult<Vec<u8>> {
    let mut bytes = vec![];
    DeleteVector::write_all(&mut bytes, &records(rows)).await?;
    Ok(bytes)
}

/// The rows in memory of a vector whose file has these bytes.
pub async fn opened(store: &Store, bytes: &[u8]) -> StorageResult<Vec<u32>> {
    let path = store.dir.join("decoded.dv");
    std::fs::write(&path, bytes)?;
    Ok(DeleteVector::open(0, 0, path).await?.rows().to_vec())
}

/// The rows in file order, by the decoder that `open` uses; `open` sorts them, and has to have the same ones.
pub async fn decoded(store: &Store, bytes: &[u8]) -> StorageResult<Vec<u32>> {
    let opened = opened(store, bytes).await?;
    let (mut left, mut rows) = (bytes, vec![]);
    while !left.is_empty() {
        rows.push(DeleteRecord::decode_length_delimited(&mut left)?.row_id);
    }
    let sorted: BTreeSet<u32> = rows.iter().copied().collect();
    assert!(sorted.iter().eq(&opened), "open has other rows than its decoder");
    Ok(rows)
}

fn mask_of(bits: &str) -> BitVec {
    BitVec(bits.bytes().filter(|b| *b != b'-').map(|b| b == b'1').collect())
}

fn text_of(mask: &BitVec) -> String {
    match mask.0.is_empty() {
        true => "-".into(),
        false => mask.0.iter().map(|bit| if *bit { '1' } else { '0' }).collect(),
    }
}

pub fn masked(offset: u32, bits: &str, rows: &[u32]) -> String {
    let mut mask = mask_of(bits);
    DeleteVector::new(0, 0, records(rows)).apply_to(&mut mask, offset);
    text_of(&mask)
}

/// The mask of a shown rowset's rows, as a scan makes it.
pub fn scanned(store: &Store, (table, rowset, epoch): (u32, u32, u64), offset: u32, bits: &str) -> String {
    let mut mask = mask_of(bits);
    let version = &store.engine.version;
    version.get_rowset(table, rowset);
    for vector in store.at(epoch).get_dvs_of(table, rowset).into_iter().flatten() {
        version.get_dv(table, *vector).apply_to(&mut mask, offset);
    }
    text_of(&mask)
}
