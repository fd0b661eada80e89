//! What the tries share: folders, chance, child processes, and what a store shows.
#![allow(dead_code)]
use seqapti::*;
use std::collections::{BTreeMap, BTreeSet};
use std::path::{Path, PathBuf};
use std::process::{Command, Stdio};
use std::sync::atomic::{AtomicUsize, Ordering};

/// A folder of its own, removed in the end.
pub struct Folder(PathBuf);

impl Folder {
    /// Below the system's folder for temporary files.
    pub fn on_disk(name: &str) -> Folder {
        Folder::below(std::env::temp_dir(), name)
    }

    /// In memory where the system has such a place: for tries of thousands of stores, which syncs would make long.
    pub fn in_memory(name: &str) -> Folder {
        let shared = Path::new("/dev/shm");
        match shared.is_dir() {
            true => Folder::below(shared.to_path_buf(), name),
            false => Folder::on_disk(name),
        }
    }

    fn below(base: PathBuf, name: &str) -> Folder {
        static COUNT: AtomicUsize = AtomicUsize::new(0);
        let n = COUNT.fetch_add(1, Ordering::Relaxed);
        let path = base.join(format!("seqapti_{name}_{}_{n}", std::process::id()));
        std::fs::create_dir_all(&path).expect("a temporary folder");
        Folder(path)
    }

    pub fn store(&self) -> PathBuf {
        self.0.join("store")
    }

    pub fn path(&self) -> &Path {
        &self.0
    }

    pub fn manifest(&self) -> PathBuf {
        self.store().join(MANIFEST_FILE_NAME)
    }

    /// The store with these bytes as its manifest.
    pub fn write_manifest(&self, bytes: &[u8]) {
        std::fs::create_dir_all(self.store()).expect("a folder");
        std::fs::write(self.manifest(), bytes).expect("a manifest");
    }

    pub fn open(&self) -> VersionManager {
        VersionManager::open(self.store()).expect("an opening").manager
    }
}

impl Drop for Folder {
    fn drop(&mut self) {
        let _ = std::fs::remove_dir_all(&self.0);
    }
}

pub struct Random(pub u64);

impl Random {
    pub fn below(&mut self, n: u64) -> u64 {
        self.0 ^= self.0 << 13;
        self.0 ^= self.0 >> 7;
        self.0 ^= self.0 << 17;
        (self.0 >> 11) % n
    }

    pub fn one_in(&mut self, n: u64) -> bool {
        self.below(n) == 0
    }

    pub fn of<T: Copy>(&mut self, all: &[T]) -> Option<T> {
        match all.len() {
            0 => None,
            n => Some(all[self.below(n as u64) as usize]),
        }
    }
}

/// The sets that an epoch shows.
#[derive(Clone, Debug, Default, PartialEq, Eq)]
pub struct Sets {
    pub tables: BTreeMap<u32, (u32, String)>,
    pub pairs: BTreeSet<(u32, u32)>,
    pub vectors: BTreeSet<(u32, u32, u64)>,
}

impl Sets {
    pub fn of(snapshot: &Snapshot) -> Sets {
        Sets {
            tables: snapshot.tables().iter().map(|t| (t.table_id.0, (t.shape, t.table_name.clone()))).collect(),
            pairs: snapshot.rowsets().map(|(t, r)| (t.0, r.0)).collect(),
            vectors: snapshot.dvs().map(|(t, r, v)| (t.0, r.0, v.0)).collect(),
        }
    }

    pub fn now(manager: &VersionManager) -> Sets {
        Sets::of(&manager.snapshot().expect("a snapshot"))
    }
}

pub fn add(t: u32, r: RowsetId) -> EpochOp {
    EpochOp::add_rowset(TableId(t), r)
}

pub fn delete(t: u32, r: u32) -> EpochOp {
    EpochOp::delete_rowset(TableId(t), RowsetId(r))
}

/// A test of this file that is run in a process of its own, with these variables.
pub fn child(test: &str, variables: &[(&str, String)]) -> Command {
    let mut command = Command::new(std::env::current_exe().expect("this test's own path"));
    command.args(["--exact", test, "--ignored", "--nocapture", "--test-threads=1"]);
    command.envs(variables.iter().map(|(name, value)| (*name, value.as_str())));
    command.stdin(Stdio::null()).stdout(Stdio::piped()).stderr(Stdio::piped());
    command
}

pub fn variable(name: &str) -> String {
    std::env::var(name).expect("a variable for a child process")
}
