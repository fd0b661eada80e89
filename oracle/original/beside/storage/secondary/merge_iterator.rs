//! Merging of rows is left out. Here too are the conversions that enum_dispatch would make.
use super::{ConcatIterator, RowSetIterator, SecondaryIterator, SecondaryIteratorImpl};
use crate::storage::{StorageChunk, StorageResult};

pub struct MergeIterator;

impl MergeIterator {
    pub fn new(_: Vec<SecondaryIterator>, _: Vec<usize>) -> Self {
        Self
    }

    pub async fn next_batch(&mut self, _: Option<usize>) -> StorageResult<Option<StorageChunk>> {
        Ok(None)
    }
}

impl SecondaryIteratorImpl for MergeIterator {}

impl From<MergeIterator> for SecondaryIterator {
    fn from(iter: MergeIterator) -> Self {
        Self::Merge(iter)
    }
}

impl From<ConcatIterator> for SecondaryIterator {
    fn from(iter: ConcatIterator) -> Self {
        Self::Concat(iter)
    }
}

impl From<RowSetIterator> for SecondaryIterator {
    fn from(iter: RowSetIterator) -> Self {
        Self::RowSet(iter)
    }
}
