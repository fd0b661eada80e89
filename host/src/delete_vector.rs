//! Delete vectors: which rows of a rowset are deleted.
use crate::error::{StorageError, StorageResult};
use crate::ids::{RowId, RowsetId, VectorId};
use crate::manager::accepted;
use crate::sys;
use std::fs;
use std::io::Write;
use std::path::Path;

pub(crate) const MOST_RECORDS: usize = 4096;
pub(crate) const LONGEST_RECORD: usize = 7;

/// The deleted rows of a rowset, ascending, each once.
#[derive(Clone, Debug, PartialEq, Eq)]
pub struct DeleteVector {
    dv_id: VectorId,
    rowset_id: RowsetId,
    deletes: Vec<u32>,
}

impl DeleteVector {
    /// Reads a vector's file.
    pub fn open(dv_id: VectorId, rowset_id: RowsetId, path: impl AsRef<Path>) -> StorageResult<Self> {
        let path = path.as_ref();
        let bytes = fs::read(path).map_err(StorageError::io("read", path))?;
        Self::read(dv_id, rowset_id, &bytes)
    }

    /// Reads a vector from its file's bytes.
    pub fn read(dv_id: VectorId, rowset_id: RowsetId, bytes: &[u8]) -> StorageResult<Self> {
        let mut rows = vec![0; bytes.len().min(MOST_RECORDS)];
        let count = accepted(sys::read_all(bytes, &mut rows))?[0] as usize;
        rows.truncate(count);
        Self::of_rows(dv_id, rowset_id, &rows)
    }

    /// Writes rows as a vector's file has them, in their order and with repeats.
    pub fn write_all(mut file: impl Write, deletes: &[RowId]) -> StorageResult<()> {
        let rows = numbers(deletes);
        let mut bytes = vec![0; rows.len().min(MOST_RECORDS) * LONGEST_RECORD];
        let length = accepted(sys::write_all(&rows, &mut bytes))?[0] as usize;
        file.write_all(&bytes[..length]).map_err(StorageError::io("write", Path::new("a delete vector")))
    }

    pub fn new(dv_id: VectorId, rowset_id: RowsetId, deletes: &[RowId]) -> StorageResult<Self> {
        Self::of_rows(dv_id, rowset_id, &numbers(deletes))
    }

    fn of_rows(dv_id: VectorId, rowset_id: RowsetId, rows: &[u32]) -> StorageResult<Self> {
        let mut deletes = vec![0; rows.len().min(MOST_RECORDS)];
        let count = accepted(sys::in_memory(rows, &mut deletes))?[0] as usize;
        deletes.truncate(count);
        Ok(Self { dv_id, rowset_id, deletes })
    }

    // Rows that the library has put in order.
    pub(crate) fn of_ordered(dv_id: VectorId, rowset_id: RowsetId, deletes: &[u32]) -> Self {
        Self { dv_id, rowset_id, deletes: deletes.to_vec() }
    }

    pub fn dv_id(&self) -> VectorId {
        self.dv_id
    }

    pub fn rowset_id(&self) -> RowsetId {
        self.rowset_id
    }

    pub fn deletes(&self) -> impl ExactSizeIterator<Item = RowId> + '_ {
        self.deletes.iter().copied().map(RowId)
    }

    /// Clears the bits of deleted rows: the i-th bit stands for the row `offset_row_id` + i.
    pub fn apply_to(&self, data: &mut [bool], offset_row_id: RowId) -> StorageResult<()> {
        // A `bool` is a byte, and the library writes no byte but 0.
        let bytes = unsafe { std::slice::from_raw_parts_mut(data.as_mut_ptr().cast::<u8>(), data.len()) };
        self.apply_to_bytes(bytes, offset_row_id)
    }

    /// The same for a mask of one byte a bit. Bytes that are not cleared stay as they are.
    pub fn apply_to_bytes(&self, data: &mut [u8], offset_row_id: RowId) -> StorageResult<()> {
        accepted(sys::apply_to(&self.deletes, data, offset_row_id.0)).map(|_| ())
    }
}

/// The deletes of one rowset in a transaction: the vector, and the bytes of its file.
#[derive(Clone, Debug, PartialEq, Eq)]
pub struct GroupedDeletes {
    pub vector: DeleteVector,
    pub file: Vec<u8>,
}

fn numbers(rows: &[RowId]) -> Vec<u32> {
    rows.iter().map(|r| r.0).collect()
}
