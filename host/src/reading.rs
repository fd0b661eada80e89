//! A manifest's bytes, judged as an opening would judge them. Nothing is written and no lock is taken.
use crate::error::StorageResult;
use crate::ids::{RowsetId, TableId, VectorId};
use crate::manager::{accepted, NextIds, LONGEST_REWRITTEN};
use crate::snapshot::Snapshot;
use crate::sys;

/// What a store would show if it were opened with a manifest.
#[derive(Clone, Debug, PartialEq, Eq)]
pub struct Reading {
    pub snapshot: Snapshot,
    pub next: NextIds,
    /// The manifest that the opening would put in place of this one.
    pub rewritten: Vec<u8>,
}

impl Reading {
    /// Refused just where an opening would be.
    pub fn of(manifest: &[u8]) -> StorageResult<Reading> {
        sys::check()?;
        let mut rewritten = vec![0; LONGEST_REWRITTEN];
        let begun = sys::bootstrap(manifest, &mut rewritten);
        rewritten.truncate(accepted(begun.answer)?[0] as usize);
        let next = begun.manager.inner.next;
        Ok(Reading {
            snapshot: Snapshot::of(&begun.manager, &begun.book)?,
            next: NextIds { table: TableId(next.table), rowset: RowsetId(next.rowset), dv: VectorId(next.vector) },
            rewritten,
        })
    }
}
