//! Engines without a disk, for calls that leave the store alone.
use std::sync::atomic::Ordering::SeqCst;

use super::{SCHEMA, hex, shape, store::Store, table_ref};
use crate::storage::secondary::*;
use crate::storage::{Table, Transaction};

const TOO_LARGE: u64 = u64::MAX / 2;

async fn engine(target_rowset_size: usize) -> StorageResult<Arc<SecondaryStorage>> {
    let options = StorageOptions { target_rowset_size, ..StorageOptions::default_for_test() };
    Ok(Arc::new(SecondaryStorage::open(options).await?))
}

/// One round of the original's compactor, over all tables.
pub async fn compactor_round(engine: &Arc<SecondaryStorage>, merged_is_empty: bool) -> StorageResult<()> {
    MERGED_IS_EMPTY.store(merged_is_empty, SeqCst);
    let (stop, stopped) = tokio::sync::oneshot::channel();
    stop.send(()).unwrap();
    Compactor::new(engine.clone(), stopped).run().await
}

/// An engine with one table of rowsets of these sizes.
async fn with_rowsets(
    target: usize,
    table: u32,
    sizes: impl Iterator<Item = (u32, u64)>,
) -> StorageResult<Arc<SecondaryStorage>> {
    let engine = engine(target).await?;
    engine.create_table_inner(SCHEMA, "t", &shape(0), &[table]).await?;
    let add = |(rowset_id, size)| {
        let entry = AddRowSetEntry { table_id: table_ref(table), rowset_id };
        EpochOp::AddRowSet((entry, DiskRowset::sized(rowset_id, size)))
    };
    engine.version.commit_changes(sizes.map(add).collect()).await?;
    Ok(engine)
}

/// Selection: what is gone after the compactor merged its choice into nothing.
pub async fn selected(table: u32, target: usize, sizes: &[(u32, u64)]) -> StorageResult<Vec<u32>> {
    let engine = with_rowsets(target, table, sizes.iter().copied()).await?;
    compactor_round(&engine, true).await?;
    let left = engine.version.pin().snapshot.pairs();
    Ok(sizes.iter().map(|s| s.0).filter(|r| !left.contains(&(table, *r))).collect())
}

/// What the specification takes, upwards and with exact sums, before it asks whether that is enough.
pub fn taken_upwards(sizes: &[(u32, u64)], target: u64) -> Vec<u32> {
    let mut left = target;
    let mut fits = |size: u64| left.checked_sub(size).map(|rest| left = rest).is_some();
    sizes.iter().filter(|s| fits(s.1)).map(|s| s.0).collect()
}

/// Whether some order of the rowsets gives this selection; said of sums within 64 bits alone.
pub fn may_be_selected(sizes: &[(u32, u64)], target: u64, taken: &[u32]) -> bool {
    let sum_of = |rowsets: &[u32]| -> u128 {
        sizes.iter().filter(|s| rowsets.contains(&s.0)).map(|s| s.1 as u128).sum()
    };
    let full = |rowsets: &[u32]| {
        let sum = sum_of(rowsets);
        let rest = sizes.iter().filter(|s| !rowsets.contains(&s.0));
        sum <= target as u128 && rest.into_iter().all(|s| sum + s.1 as u128 > target as u128)
    };
    let all: u128 = sizes.iter().map(|s| s.1 as u128).sum();
    if all > u64::MAX as u128 {
        return true;
    }
    match taken.is_empty() {
        true => full(&[]) || sizes.iter().any(|s| full(&[s.0])),
        false => taken.len() > 1 && full(taken),
    }
}

/// What the compactor leaves of a table when the sizes make it choose these rowsets.
pub async fn compacted(
    table: u32,
    rowsets: &[u32],
    vectors: &[(u32, u32, u64)],
    new: Option<u32>,
    taken: &[u32],
) -> StorageResult<Arc<Snapshot>> {
    let size = |r: &u32| (*r, if taken.contains(r) { 1 } else { TOO_LARGE });
    let engine = with_rowsets(taken.len(), table, rowsets.iter().map(size)).await?;
    let add = |(_, rowset_id, dv_id): &(u32, u32, u64)| {
        let entry = AddDVEntry { table_id: table_ref(table), rowset_id: *rowset_id, dv_id: *dv_id };
        EpochOp::AddDV((entry, DeleteVector::new(*dv_id, *rowset_id, vec![])))
    };
    engine.version.commit_changes(vectors.iter().map(add).collect()).await?;
    engine.next_id.0.store(new.unwrap_or_default(), SeqCst);
    compactor_round(&engine, new.is_none()).await?;
    Ok(engine.version.pin().snapshot.clone())
}

/// The compactor on the store itself, with sizes that make it choose these rowsets.
pub async fn compact_in_place(
    store: &Store,
    table: u32,
    merged_is_empty: bool,
    taken: &[u32],
) -> StorageResult<()> {
    for (t, r) in store.now().pairs() {
        let size = if t == table && taken.contains(&r) { 1 } else { TOO_LARGE };
        store.engine.version.get_rowset(t, r).size.store(size, SeqCst);
    }
    compactor_round(&store.engine, merged_is_empty).await
}

/// A transaction that deletes these rows.
pub async fn deleted(table: &SecondaryTable, handles: &[SecondaryRowHandler]) -> StorageResult<()> {
    let mut transaction = table.update().await?;
    for handle in handles {
        transaction.delete(handle).await?;
    }
    transaction.commit().await
}

/// Grouping: such a transaction in an engine of its own, with the ids drawn from the store.
pub async fn grouped(store: &mut Store, handles: &[SecondaryRowHandler]) -> StorageResult<Vec<String>> {
    let engine = engine(0).await?;
    let table = store.table(&engine, 0);
    deleted(&table, handles).await?;
    let mut vectors: Vec<_> = engine.version.pin().snapshot.vectors().into_iter().collect();
    vectors.sort_by_key(|v| v.2);
    let IOBackend::InMemory(files) = &engine.options.io_backend else { unreachable!() };
    let mut shown = vec![];
    for (t, r, v) in vectors {
        let bytes = files.lock()[&table.get_dv_path(r, v)].to_vec();
        let rows: Vec<_> = engine.version.get_dv(t, v).rows().iter().map(u32::to_string).collect();
        shown.push(format!("{v}:{r}:{}:{}", hex(&bytes), rows.join("+")));
        store.contents.insert(v, bytes);
    }
    Ok(shown)
}
