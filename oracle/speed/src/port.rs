//! The port's calls as the benchmark makes them, through the crate `seqapti` and its files.
use seqapti::{
    DeleteVector, EpochOp, RowId, RowsetId, SecondaryRowHandler, TableId, VectorId, VersionManager,
};
use std::fs;
use std::path::{Path, PathBuf};

use crate::histories;
use crate::storage::drive::Shown;

pub struct Port {
    dir: PathBuf,
}

fn operation(line: &str) -> EpochOp {
    let fields: Vec<&str> = line.split(',').collect();
    let number = |i: usize| fields[i].parse::<u64>().unwrap();
    let table = TableId(number(1) as u32);
    let rowset = || RowsetId(number(2) as u32);
    let vector = || VectorId(number(3));
    match fields[0] {
        "T" => EpochOp::create_table(table, number(2) as u32, fields[3]),
        "X" => EpochOp::drop_table(table),
        "A" => EpochOp::add_rowset(table, rowset()),
        "D" => EpochOp::delete_rowset(table, rowset()),
        "V" => EpochOp::add_dv(table, rowset(), vector()),
        "W" => EpochOp::delete_dv(table, rowset(), vector()),
        _ => panic!("no operation: {line}"),
    }
}

pub fn operations(lines: &[String]) -> Vec<EpochOp> {
    lines.iter().map(|line| operation(line)).collect()
}

pub fn shown(manager: &VersionManager) -> Shown {
    let snapshot = manager.snapshot().unwrap();
    let pairs = snapshot.rowsets().map(|(t, r)| (t.0, r.0)).collect();
    let vectors = snapshot.dvs().map(|(t, r, v)| (t.0, r.0, v.0)).collect();
    (manager.epoch().into(), pairs, vectors)
}

pub fn pin_and_unpin(manager: &VersionManager) -> u32 {
    manager.pin().unwrap().epoch()
}

pub fn find_vacuum(manager: &VersionManager) -> Vec<(TableId, RowsetId)> {
    manager.find_vacuum().unwrap()
}

pub fn row_ids(rows: &[u32]) -> Vec<RowId> {
    rows.iter().copied().map(RowId).collect()
}

/// Records into memory.
pub fn encoded(rows: &[RowId]) -> Vec<u8> {
    let mut bytes = vec![];
    DeleteVector::write_all(&mut bytes, rows).unwrap();
    bytes
}

pub fn vector(rows: &[u32]) -> DeleteVector {
    DeleteVector::new(VectorId(0), RowsetId(0), &row_ids(rows)).unwrap()
}

pub fn apply_to(vector: &DeleteVector, mask: &mut [bool]) {
    vector.apply_to(mask, RowId(0)).unwrap();
}

pub fn handlers(handles: &[(u32, u32)]) -> Vec<SecondaryRowHandler> {
    handles.iter().map(|(rowset, row)| SecondaryRowHandler(RowsetId(*rowset), RowId(*row))).collect()
}

/// A vector's file, on disk when it returns.
pub fn write_records(path: &Path, rows: &[RowId]) {
    let file = fs::File::create_new(path).unwrap();
    DeleteVector::write_all(&file, rows).unwrap();
    file.sync_data().unwrap();
}

pub fn read_records(path: &Path) -> DeleteVector {
    DeleteVector::open(VectorId(0), RowsetId(0), path).unwrap()
}

/// Deletes these rows of table 0: grouped, written to their files, and committed.
pub fn delete(manager: &VersionManager, handles: &[SecondaryRowHandler]) {
    let grouped = manager.group_deletes(handles).unwrap();
    manager.write_dvs(TableId(0), &grouped).unwrap();
    let add = |g: &seqapti::GroupedDeletes| EpochOp::add_dv(TableId(0), g.vector.rowset_id(), g.vector.dv_id());
    let operations: Vec<EpochOp> = grouped.iter().map(add).collect();
    manager.commit_changes(operations).unwrap();
}

/// A manager without files, with table 0 and so many rowsets.
pub fn in_memory(rowsets: usize) -> VersionManager {
    let manager = VersionManager::new_mock().unwrap();
    let table = manager.create_table("bookings", 7).unwrap();
    let add = |_| EpochOp::add_rowset(table, manager.draw_rowset_id().unwrap());
    let operations: Vec<EpochOp> = (0..rowsets).map(add).collect();
    manager.commit_changes(operations).unwrap();
    manager
}

impl Port {
    pub fn new(dir: &Path) -> Self {
        Self { dir: dir.into() }
    }

    fn manifest(&self) -> PathBuf {
        self.dir.join(seqapti::MANIFEST_FILE_NAME)
    }

    pub fn manifest_lines(&self) -> Vec<String> {
        fs::read_to_string(self.manifest()).unwrap().lines().map(String::from).collect()
    }

    pub fn put_manifest(&self, bytes: &[u8]) {
        fs::write(self.manifest(), bytes).unwrap();
    }

    pub fn open(&self) -> VersionManager {
        VersionManager::open(&self.dir).unwrap().manager
    }

    /// A manager at epoch 1 that shows what these operations add.
    pub fn manager(&self, base: &[String]) -> VersionManager {
        self.put_manifest(histories::text(&histories::framed(base)).as_bytes());
        self.open()
    }

    /// Opens the store and reads all its vectors, as the original's opening does.
    pub fn open_with_vectors(&self) -> (VersionManager, Vec<DeleteVector>) {
        let manager = self.open();
        let snapshot = manager.snapshot().unwrap();
        let vectors = snapshot.dvs().map(|(t, r, v)| manager.read_dv(t, r, v).unwrap()).collect();
        (manager, vectors)
    }
}
