//! A pinned epoch.
use crate::manager::Shared;
use crate::snapshot::Snapshot;
use std::sync::Arc;

/// A pin: what its epoch shows stays on disk until it is dropped. It may live on any thread and outlive its manager;
/// the store stays locked to other openers as long.
pub struct Version {
    epoch: u32,
    snapshot: Arc<Snapshot>,
    shared: Arc<Shared>,
}

impl Version {
    pub(crate) fn new(epoch: u32, snapshot: Arc<Snapshot>, shared: Arc<Shared>) -> Version {
        Version { epoch, snapshot, shared }
    }

    pub fn epoch(&self) -> u32 {
        self.epoch
    }

    pub fn snapshot(&self) -> &Arc<Snapshot> {
        &self.snapshot
    }
}

impl Drop for Version {
    /// Unpins. Where that was the epoch's last pin and the epoch is not the current one, a notice is sent.
    fn drop(&mut self) {
        self.shared.unpin(self.epoch);
    }
}

impl std::fmt::Debug for Version {
    fn fmt(&self, f: &mut std::fmt::Formatter<'_>) -> std::fmt::Result {
        f.debug_struct("Version").field("epoch", &self.epoch).finish_non_exhaustive()
    }
}
