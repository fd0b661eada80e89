//! The original's calls as the benchmark makes them. It stands inside `secondary` to reach what is private there.
use std::future::Future;
use std::path::{Path, PathBuf};

use bitvec::prelude::BitVec;
use futures::FutureExt;
use risinglight_proto::rowset::DeleteRecord;
use tokio::runtime::{Builder, Runtime};

use super::lines::{json_of, line_of, value_of, values_of};
use super::{SCHEMA, shape, table_ref};
pub use crate::storage::secondary::delete_vector::DeleteVector;
pub use crate::storage::secondary::version_manager::{EpochOp, VersionManager};
use crate::storage::secondary::*;
use crate::storage::{Table, Transaction};

/// What a manager shows: its epoch, its rowsets and its vectors.
pub type Shown = (u64, Vec<(u32, u32)>, Vec<(u32, u32, u64)>);

/// A folder for the original's files, and the runtime that its calls wait on.
pub struct Original {
    runtime: Runtime,
    dir: PathBuf,
}

fn operation(line: &str) -> EpochOp {
    match value_of(line).unwrap() {
        ManifestOperation::CreateTable(e) => EpochOp::CreateTable(e),
        ManifestOperation::DropTable(e) => EpochOp::DropTable(e),
        ManifestOperation::AddRowSet(e) => {
            let rowset = DiskRowset::sized(e.rowset_id, 0);
            EpochOp::AddRowSet((e, rowset))
        }
        ManifestOperation::DeleteRowSet(e) => EpochOp::DeleteRowSet(e),
        ManifestOperation::AddDV(e) => {
            let vector = DeleteVector::new(e.dv_id, e.rowset_id, vec![]);
            EpochOp::AddDV((e, vector))
        }
        ManifestOperation::DeleteDV(e) => EpochOp::DeleteDV(e),
        ManifestOperation::Begin | ManifestOperation::End => panic!("no operation"),
    }
}

/// A manifest of these lines, in the original's form.
pub fn manifest_of(lines: &[String]) -> Vec<u8> {
    json_of(lines)
}

pub fn operations(lines: &[String]) -> Vec<EpochOp> {
    lines.iter().map(|line| operation(line)).collect()
}

/// A future that has nothing to wait for.
fn at_once<T>(future: impl Future<Output = T>) -> T {
    future.now_or_never().expect("it waits for nothing")
}

pub fn shown(version: &VersionManager) -> Shown {
    let pin = version.pin();
    (pin.epoch, pin.snapshot.pairs().into_iter().collect(), pin.snapshot.vectors().into_iter().collect())
}

pub fn pin_and_unpin(version: &VersionManager) -> u64 {
    version.pin().epoch
}

pub fn find_vacuum(version: &Arc<VersionManager>) -> Vec<(u32, u32)> {
    at_once(version.find_vacuum()).unwrap()
}

pub fn records(rows: &[u32]) -> Vec<DeleteRecord> {
    rows.iter().map(|row| DeleteRecord { row_id: *row }).collect()
}

/// Records into memory.
pub fn encoded(records: &[DeleteRecord]) -> Vec<u8> {
    let mut bytes = vec![];
    at_once(DeleteVector::write_all(&mut bytes, records)).unwrap();
    bytes
}

pub fn vector(rows: &[u32]) -> DeleteVector {
    DeleteVector::new(0, 0, records(rows))
}

/// One bool a bit, all set.
pub fn mask(bits: usize) -> BitVec {
    BitVec(vec![true; bits])
}

pub fn apply_to(vector: &DeleteVector, mask: &mut BitVec) {
    vector.apply_to(mask, 0);
}

pub fn handlers(handles: &[(u32, u32)]) -> Vec<SecondaryRowHandler> {
    handles.iter().map(|(rowset, row)| SecondaryRowHandler(*rowset, *row)).collect()
}

impl Original {
    pub fn new(dir: &Path) -> Self {
        let runtime = Builder::new_current_thread().enable_all().build().unwrap();
        Self { runtime, dir: dir.into() }
    }

    fn options(&self) -> StorageOptions {
        StorageOptions {
            path: self.dir.clone(),
            // Not in memory: then a commit syncs its append.
            io_backend: IOBackend::NormalRead,
            disable_all_disk_operation: false,
            ..StorageOptions::default_for_test()
        }
    }

    fn manifest(&self) -> PathBuf {
        self.dir.join(MANIFEST_FILE_NAME)
    }

    /// The manifest's values, as the port's lines.
    pub fn manifest_lines(&self) -> Vec<String> {
        values_of(&std::fs::read(self.manifest()).unwrap()).iter().map(line_of).collect()
    }

    pub fn put_manifest(&self, bytes: &[u8]) {
        std::fs::write(self.manifest(), bytes).unwrap();
    }

    /// A manager at epoch 1 that shows what these operations add, over a manifest that holds them: what an opening
    /// ends with, made without one.
    pub fn manager(&self, base: &[String]) -> Arc<VersionManager> {
        std::fs::write(self.manifest(), "").unwrap();
        self.runtime.block_on(async {
            let manifest = Manifest::open(self.manifest(), true).await.unwrap();
            let version = Arc::new(VersionManager::new(manifest, Arc::new(self.options())));
            version.commit_changes(operations(base)).await.unwrap();
            version
        })
    }

    pub fn commit(&self, version: &VersionManager, operations: Vec<EpochOp>) -> u64 {
        self.runtime.block_on(version.commit_changes(operations)).unwrap()
    }

    pub fn open(&self) -> Arc<SecondaryStorage> {
        self.runtime.block_on(SecondaryStorage::open(self.options())).map(Arc::new).unwrap()
    }

    /// An engine without files, with table 0 and these rowsets.
    pub fn in_memory(&self, rowsets: &[String]) -> Arc<SecondaryStorage> {
        self.runtime.block_on(async {
            let engine = SecondaryStorage::open(StorageOptions::default_for_test()).await.unwrap();
            engine.create_table_inner(SCHEMA, "bookings", &shape(7), &[0]).await.unwrap();
            engine.version.commit_changes(operations(rowsets)).await.unwrap();
            Arc::new(engine)
        })
    }

    pub fn shown(&self, engine: &SecondaryStorage) -> Shown {
        shown(&engine.version)
    }

    /// A vector's file as a transaction writes it.
    pub fn write_records(&self, path: &Path, records: &[DeleteRecord]) {
        let written = async {
            let mut file =
                tokio::fs::OpenOptions::default().write(true).create_new(true).open(path).await.unwrap();
            DeleteVector::write_all(&mut file, records).await.unwrap();
            file.sync_data().await.unwrap();
        };
        self.runtime.block_on(written);
    }

    pub fn read_records(&self, path: &Path) -> DeleteVector {
        self.runtime.block_on(DeleteVector::open(0, 0, path)).unwrap()
    }

    /// A transaction on table 0 that deletes these rows: grouped, written to their files, and committed.
    pub fn delete(&self, engine: &SecondaryStorage, handles: &[SecondaryRowHandler]) {
        let table = engine.get_table_inner(table_ref(0)).unwrap();
        let deleted = async {
            let mut transaction = table.update().await?;
            for handle in handles {
                transaction.delete(handle).await?;
            }
            transaction.commit().await
        };
        self.runtime.block_on(deleted).unwrap();
    }
}
