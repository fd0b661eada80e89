include!("version_manager.original.rs");

use std::collections::{BTreeMap, BTreeSet};

// What the driver reads of private fields.

impl Snapshot {
    pub fn pairs(&self) -> BTreeSet<(u32, u32)> {
        let of_table = |(table, rowsets): (&u32, &HashSet<u32>)| {
            let table = *table;
            rowsets.iter().map(move |rowset| (table, *rowset)).collect::<Vec<_>>()
        };
        self.rowsets.iter().flat_map(of_table).collect()
    }

    pub fn vectors(&self) -> BTreeSet<(u32, u32, u64)> {
        let mut all = BTreeSet::new();
        for (table, rowsets) in &self.dvs {
            for (rowset, vectors) in rowsets {
                all.extend(vectors.iter().map(|vector| (*table, *rowset, *vector)));
            }
        }
        all
    }
}

impl VersionManager {
    pub fn epoch(&self) -> u64 {
        self.inner.lock().epoch
    }

    /// Pinned epochs and their counts.
    pub fn pins(&self) -> BTreeMap<u64, usize> {
        self.inner.lock().ref_cnt.iter().map(|(epoch, count)| (*epoch, *count)).collect()
    }

    /// Deletions that wait, as (epoch, table, rowset), ascending.
    pub fn waiting(&self) -> Vec<(u64, u32, u32)> {
        let inner = self.inner.lock();
        let mut all = vec![];
        for (epoch, pairs) in &inner.rowset_deletion_to_apply {
            all.extend(pairs.iter().map(|pair| (*epoch, pair.0, pair.1)));
        }
        all.sort_unstable();
        all
    }

    /// What is in the pools: (table, rowset) of rowsets, (table, vector) of vectors.
    pub fn pools(&self) -> (BTreeSet<(u32, u32)>, BTreeSet<(u32, u64)>) {
        let inner = self.inner.lock();
        (inner.rowsets.keys().copied().collect(), inner.dvs.keys().copied().collect())
    }

    /// How many notices stand in the vacuum's channel; they are taken out.
    pub fn notices(&self) -> usize {
        let mut rx = self.rx.lock();
        let Some(rx) = rx.as_mut() else { return 0 };
        std::iter::from_fn(|| rx.try_recv().ok()).count()
    }
}
