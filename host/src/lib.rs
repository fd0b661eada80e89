//! Which rowsets, delete vectors and tables a column store has at which epoch: RisingLight's version manager with its
//! manifest, ported to Rattle and proved, on files.
//!
//! The rules are the library's; this crate keeps its manager and its manifest file together.

mod delete_vector;
mod error;
mod files;
mod ids;
mod manager;
mod not_live;
mod ops;
mod reading;
mod snapshot;
mod sys;
mod table_lock;
mod version;

#[cfg(feature = "faults")]
pub mod faults;
#[cfg(not(feature = "faults"))]
#[path = "no_faults.rs"]
mod faults;

pub use delete_vector::{DeleteVector, GroupedDeletes};
pub use error::{Refusal, StorageError, StorageResult};
pub use files::{LOCK_FILE_NAME, MANIFEST_FILE_NAME};
pub use ids::{RowId, RowsetId, SecondaryRowHandler, TableId, VectorId};
pub use manager::{NextIds, Notice, Opened, Vacuumed, VersionManager};
pub use not_live::NotLive;
pub use ops::{
    AddDVEntry, AddRowSetEntry, CreateTableEntry, DeleteDVEntry, DeleteRowsetEntry, DropTableEntry, EpochOp,
};
pub use reading::Reading;
pub use snapshot::{Snapshot, Table};
pub use table_lock::TableLock;
pub use version::Version;
