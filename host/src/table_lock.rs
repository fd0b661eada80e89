//! A table's lock, for deletion or compaction.
use crate::ids::TableId;
use crate::manager::Shared;
use std::sync::Arc;

/// Gives the lock back when it is dropped.
pub struct TableLock {
    table_id: TableId,
    // A reopen frees every lock: one taken before it is nobody's any more.
    generation: u64,
    shared: Arc<Shared>,
}

impl TableLock {
    pub(crate) fn new(table_id: TableId, generation: u64, shared: Arc<Shared>) -> TableLock {
        TableLock { table_id, generation, shared }
    }

    pub fn table_id(&self) -> TableId {
        self.table_id
    }

    pub(crate) fn is_of(&self, shared: &Arc<Shared>, generation: u64) -> bool {
        Arc::ptr_eq(&self.shared, shared) && self.generation == generation
    }
}

impl Drop for TableLock {
    fn drop(&mut self) {
        self.shared.unlock(self.table_id, self.generation);
    }
}

impl std::fmt::Debug for TableLock {
    fn fmt(&self, f: &mut std::fmt::Formatter<'_>) -> std::fmt::Result {
        f.debug_struct("TableLock").field("table_id", &self.table_id).finish_non_exhaustive()
    }
}
