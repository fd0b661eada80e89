//! What one epoch shows.
use crate::error::StorageResult;
use crate::ids::{RowsetId, TableId, VectorId};
use crate::manager::accepted;
use crate::sys;
use std::ops::Range;

/// A live table.
#[derive(Clone, Debug, PartialEq, Eq)]
pub struct Table {
    pub table_id: TableId,
    pub shape: u32,
    pub table_name: String,
}

/// The tables, rowsets and delete vectors of one epoch, each ascending by its ids.
#[derive(Clone, Debug, Default, PartialEq, Eq)]
pub struct Snapshot {
    tables: Vec<Table>,
    // Columns: the i-th rowset is (rowset_tables[i], rowsets[i]).
    rowset_tables: Vec<TableId>,
    rowsets: Vec<RowsetId>,
    dv_pairs: Vec<(TableId, RowsetId)>,
    dvs: Vec<VectorId>,
}

impl Snapshot {
    pub fn tables(&self) -> &[Table] {
        &self.tables
    }

    pub fn get_table_by_name(&self, table_name: &str) -> Option<&Table> {
        self.tables.iter().find(|t| t.table_name == table_name)
    }

    /// The table's rowsets, ascending, if it has any.
    pub fn get_rowsets_of(&self, table_id: TableId) -> Option<&[RowsetId]> {
        some(&self.rowsets, run(&self.rowset_tables, table_id))
    }

    /// The rowset's delete vectors, ascending, if it has any.
    pub fn get_dvs_of(&self, table_id: TableId, rowset_id: RowsetId) -> Option<&[VectorId]> {
        some(&self.dvs, run(&self.dv_pairs, (table_id, rowset_id)))
    }

    pub fn has_rowset(&self, table_id: TableId, rowset_id: RowsetId) -> bool {
        self.get_rowsets_of(table_id).is_some_and(|rowsets| rowsets.binary_search(&rowset_id).is_ok())
    }

    pub fn has_dv(&self, table_id: TableId, rowset_id: RowsetId, dv_id: VectorId) -> bool {
        self.get_dvs_of(table_id, rowset_id).is_some_and(|dvs| dvs.binary_search(&dv_id).is_ok())
    }

    pub fn rowsets(&self) -> impl Iterator<Item = (TableId, RowsetId)> + '_ {
        self.rowset_tables.iter().copied().zip(self.rowsets.iter().copied())
    }

    pub fn dvs(&self) -> impl Iterator<Item = (TableId, RowsetId, VectorId)> + '_ {
        self.dv_pairs.iter().zip(&self.dvs).map(|(&(t, r), &v)| (t, r, v))
    }

    /// What the current epoch shows.
    pub(crate) fn of(manager: &sys::Manager, book: &sys::PinBook) -> StorageResult<Snapshot> {
        let (mut t, mut r, mut v) = ([0; sys::MOST_HELD], [0; sys::MOST_HELD], [0; sys::MOST_HELD]);
        let pairs = accepted(sys::show_pairs(manager, book, manager.inner.epoch, &mut t, &mut r))?[0] as usize;
        let rowset_tables = t[..pairs].iter().copied().map(TableId).collect();
        let rowsets = r[..pairs].iter().copied().map(RowsetId).collect();
        let shown = sys::show_vectors(manager, book, manager.inner.epoch, &mut t, &mut r, &mut v);
        let vectors = accepted(shown)?[0] as usize;
        Ok(Snapshot {
            tables: tables_of(manager, book)?,
            rowset_tables,
            rowsets,
            dv_pairs: (0..vectors).map(|i| (TableId(t[i]), RowsetId(r[i]))).collect(),
            dvs: v[..vectors].iter().copied().map(VectorId).collect(),
        })
    }
}

fn tables_of(manager: &sys::Manager, book: &sys::PinBook) -> StorageResult<Vec<Table>> {
    let mut s = sys::ShownTables {
        ids: [0; sys::MOST_TABLES],
        shapes: [0; sys::MOST_TABLES],
        lengths: [0; sys::MOST_TABLES],
        names: [0; sys::MOST_TABLES * sys::LONGEST_NAME],
    };
    let count = accepted(sys::show_tables(manager, book, manager.inner.epoch, &mut s))?[0] as usize;
    // Each name has room for the longest.
    let named = s.names.chunks(sys::LONGEST_NAME).zip(s.lengths);
    let tables = named.take(count).enumerate().map(|(i, (name, length))| Table {
        table_id: TableId(s.ids[i]),
        shape: s.shapes[i],
        table_name: String::from_utf8_lossy(&name[..name.len().min(length as usize)]).into_owned(),
    });
    Ok(tables.collect())
}

// The run of an ascending column that has the key.
fn run<K: Ord + Copy>(column: &[K], key: K) -> Range<usize> {
    column.partition_point(|k| *k < key)..column.partition_point(|k| *k <= key)
}

fn some<T>(column: &[T], run: Range<usize>) -> Option<&[T]> {
    column.get(run).filter(|part| !part.is_empty())
}
