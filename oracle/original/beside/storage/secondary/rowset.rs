//! Rowsets without rows: an id and a size. Whether a compaction's merged rowset is empty is set from outside.
use std::path::{Path, PathBuf};
use std::sync::Arc;
use std::sync::atomic::{AtomicBool, AtomicU64, Ordering::SeqCst};

use moka::future::Cache;

use super::{
    Block, BlockCacheKey, Column, ColumnBuilderOptions, ColumnSeekPosition, DeleteVector, IOBackend,
};
use crate::array::DataChunk;
use crate::catalog::ColumnCatalog;
use crate::storage::{KeyRange, StorageChunk, StorageColumnRef, StorageResult};
use crate::types::DataValue;

pub static MERGED_IS_EMPTY: AtomicBool = AtomicBool::new(false);

pub struct DiskRowset {
    rowset_id: u32,
    pub size: AtomicU64,
}

impl DiskRowset {
    pub fn sized(rowset_id: u32, size: u64) -> Self {
        Self { rowset_id, size: AtomicU64::new(size) }
    }

    pub async fn open(
        _: PathBuf,
        _: Arc<[ColumnCatalog]>,
        _: Cache<BlockCacheKey, Block>,
        rowset_id: u32,
        _: IOBackend,
    ) -> StorageResult<Self> {
        Ok(Self::sized(rowset_id, 0))
    }

    pub fn rowset_id(&self) -> u32 {
        self.rowset_id
    }

    pub fn on_disk_size(&self) -> u64 {
        self.size.load(SeqCst)
    }

    pub fn get_columns(&self) -> &[Column] {
        &[]
    }

    pub fn column(&self, _: usize) -> Column {
        unimplemented!()
    }

    pub async fn start_rowid(&self, _: Option<&DataValue>) -> ColumnSeekPosition {
        ColumnSeekPosition::start()
    }

    pub async fn iter(
        self: &Arc<Self>,
        _: Arc<[StorageColumnRef]>,
        _: Vec<Arc<DeleteVector>>,
        _: ColumnSeekPosition,
        _: Option<KeyRange>,
    ) -> StorageResult<RowSetIterator> {
        Ok(RowSetIterator)
    }
}

pub struct RowSetIterator;

impl RowSetIterator {
    pub async fn next_batch(&mut self, _: Option<usize>) -> StorageResult<Option<StorageChunk>> {
        Ok(None)
    }
}

pub struct RowsetBuilder;

impl RowsetBuilder {
    pub fn new(_: Arc<[ColumnCatalog]>, _: ColumnBuilderOptions) -> Self {
        Self
    }

    pub fn append(&mut self, _: DataChunk) {}

    pub fn finish(self) -> EncodedRowset {
        EncodedRowset
    }
}

pub struct EncodedRowset;

impl EncodedRowset {
    pub fn is_empty(&self) -> bool {
        MERGED_IS_EMPTY.load(SeqCst)
    }
}

pub struct RowsetWriter;

impl RowsetWriter {
    pub fn new(_: impl AsRef<Path>, _: IOBackend) -> Self {
        Self
    }

    pub async fn create_dir(&self) -> StorageResult<()> {
        Ok(())
    }

    pub async fn flush(self, _: EncodedRowset) -> StorageResult<()> {
        Ok(())
    }
}

pub struct SecondaryMemRowsetImpl(u32);

impl SecondaryMemRowsetImpl {
    pub fn new(_: Arc<[ColumnCatalog]>, _: ColumnBuilderOptions, rowset_id: u32) -> Self {
        Self(rowset_id)
    }

    pub async fn append(&mut self, _: DataChunk) -> StorageResult<()> {
        Ok(())
    }

    pub async fn flush(self, _: IOBackend, _: impl AsRef<Path>) -> StorageResult<()> {
        Ok(())
    }

    pub fn get_rowset_id(&self) -> u32 {
        self.0
    }
}
