//! A store's folder: its lock, its manifest, and the order of writes and syncs that keeps what was committed.
use crate::error::{StorageError, StorageResult};
use crate::faults;
use crate::ids::{RowsetId, TableId, VectorId};
use std::fs::{self, File, TryLockError};
use std::io::{self, Read, Seek, SeekFrom};
use std::path::{Path, PathBuf};

pub const MANIFEST_FILE_NAME: &str = "manifest";
pub const LOCK_FILE_NAME: &str = "manifest.lock";
const TEMPORARY_FILE_NAME: &str = "manifest.tmp";
const JSON_MANIFEST_FILE_NAME: &str = "manifest.json";
const DV_FOLDER_NAME: &str = "dv";

/// One byte more than the longest manifest: enough for the library to refuse a longer one.
const MOST_READ: u64 = 65_537;

pub struct Folder {
    path: PathBuf,
    // Held until the folder is let go. The system gives it back if the process ends.
    lock: File,
}

impl Drop for Folder {
    // Closing the file is not enough: a process that another thread has just forked has it open until it runs its program.
    fn drop(&mut self) {
        let _ = self.lock.unlock();
    }
}

impl Folder {
    /// Makes the folder where there is none, and takes its lock.
    pub fn open(path: &Path) -> StorageResult<Folder> {
        make_folder(path)?;
        // The same folder, wherever the process goes.
        let path = fs::canonicalize(path).map_err(StorageError::io("find", path))?;
        let lock_path = path.join(LOCK_FILE_NAME);
        let lock = File::options()
            .create(true)
            .truncate(false)
            .write(true)
            .open(&lock_path)
            .map_err(StorageError::io("open", &lock_path))?;
        match lock.try_lock() {
            Ok(()) => {}
            Err(TryLockError::WouldBlock) => return Err(StorageError::InUse { path: lock_path }),
            Err(TryLockError::Error(e)) => return Err(StorageError::io("lock", &lock_path)(e)),
        }
        make_folder(&path.join(DV_FOLDER_NAME))?;
        Ok(Folder { path, lock })
    }

    pub fn path(&self) -> &Path {
        &self.path
    }

    pub fn dv_folder(&self) -> PathBuf {
        self.path.join(DV_FOLDER_NAME)
    }

    pub fn has_json_manifest(&self) -> bool {
        self.path.join(JSON_MANIFEST_FILE_NAME).exists()
    }

    /// The manifest's bytes, if there is a manifest.
    pub fn read(&self) -> StorageResult<Option<Vec<u8>>> {
        let path = self.path.join(MANIFEST_FILE_NAME);
        let file = match File::open(&path) {
            Err(e) if e.kind() == io::ErrorKind::NotFound => return Ok(None),
            opened => opened.map_err(StorageError::io("open", &path))?,
        };
        let mut bytes = Vec::new();
        file.take(MOST_READ).read_to_end(&mut bytes).map_err(StorageError::io("read", &path))?;
        Ok(Some(bytes))
    }

    /// Makes the folder itself last, where it is new.
    pub fn sync_parent(&self) -> StorageResult<()> {
        match self.path.parent() {
            Some(parent) => sync_folder(parent).map_err(StorageError::io("sync", parent)),
            None => Ok(()),
        }
    }

    /// Writes a manifest of these bytes beside the one that stands, which stays as it is whatever fails.
    pub fn write_beside(&self, bytes: &[u8]) -> StorageResult<Beside> {
        let path = self.path.join(TEMPORARY_FILE_NAME);
        let written = || -> io::Result<File> {
            faults::step("create temporary")?;
            let mut file = File::create(&path)?;
            faults::write("write temporary", &mut file, bytes)?;
            faults::step("sync temporary")?;
            file.sync_all()?;
            Ok(file)
        };
        match written() {
            Ok(file) => Ok(Beside { path, file }),
            Err(e) => {
                // One that stays is written over by the next.
                let _ = fs::remove_file(&path);
                Err(StorageError::io("write", &path)(e))
            }
        }
    }

    /// Puts it in the place of the one that stands: whoever opens the store finds one of the two, whole. After an error
    /// it may be either.
    pub fn put_in_place(&self, beside: Beside) -> StorageResult<Manifest> {
        let path = self.path.join(MANIFEST_FILE_NAME);
        let renamed = || -> io::Result<()> {
            faults::step("rename")?;
            fs::rename(&beside.path, &path)?;
            faults::step("sync folder")?;
            sync_folder(&self.path)
        };
        renamed().map_err(StorageError::io("replace", &path))?;
        Ok(Manifest::File { path, file: beside.file })
    }

    /// Writes files of the folder `dv` that no commit has named yet, and makes them last.
    pub fn write_dvs<'a>(&self, files: impl Iterator<Item = (PathBuf, &'a [u8])>) -> StorageResult<()> {
        for (path, bytes) in files {
            let written = || -> io::Result<()> {
                let mut file = File::create(&path)?;
                faults::write("write vector", &mut file, bytes)?;
                file.sync_all()
            };
            written().map_err(StorageError::io("write", &path))?;
        }
        let folder = self.dv_folder();
        sync_folder(&folder).map_err(StorageError::io("sync", &folder))
    }
}

/// A manifest that is on disk whole and has not taken its place yet.
pub struct Beside {
    path: PathBuf,
    file: File,
}

/// Where appends go. A mock's stay in memory.
pub enum Manifest {
    File { path: PathBuf, file: File },
    Memory(Vec<u8>),
}

/// An append that failed.
pub struct Failed {
    /// How many of its bytes are on disk, fewer than all. None where that is not known.
    pub landed: Option<usize>,
    pub path: PathBuf,
    pub source: io::Error,
}

impl Manifest {
    /// Appends to a manifest of this length. On disk when it returns.
    pub fn append(&mut self, length: usize, bytes: &[u8]) -> Result<(), Failed> {
        match self {
            Manifest::Memory(all) => all.extend_from_slice(bytes),
            Manifest::File { path, file } => {
                if let Err(source) = faults::write("append", file, bytes) {
                    let landed = landed(file, length, bytes.len()).ok().flatten();
                    return Err(Failed { landed, path: path.clone(), source });
                }
                // All bytes are written: where the sync fails, nobody knows which of them are on disk.
                let synced = faults::step("sync append").and_then(|()| file.sync_data());
                synced.map_err(|source| Failed { landed: None, path: path.clone(), source })?;
            }
        }
        Ok(())
    }
}

// After a write that failed: by how much the file has grown, if by less than all. The next append goes to its end. What is
// reported is what is on disk, so it is synced before.
fn landed(file: &mut File, length: usize, all: usize) -> io::Result<Option<usize>> {
    faults::step("find end")?;
    let end = file.seek(SeekFrom::End(0))?;
    let landed = end.checked_sub(length as u64).filter(|n| *n < all as u64);
    faults::step("sync landed")?;
    file.sync_data()?;
    Ok(landed.map(|n| n as usize))
}

pub fn rowset_name(table: TableId, rowset: RowsetId) -> String {
    format!("{table}_{rowset}")
}

pub fn dv_name(table: TableId, rowset: RowsetId, dv: VectorId) -> String {
    format!("{DV_FOLDER_NAME}/{table}_{rowset}_{dv}.dv")
}

fn make_folder(path: &Path) -> StorageResult<()> {
    match fs::create_dir(path) {
        Err(e) if e.kind() == io::ErrorKind::AlreadyExists => Ok(()),
        made => made.map_err(StorageError::io("make the folder", path)),
    }
}

fn sync_folder(path: &Path) -> io::Result<()> {
    File::open(path)?.sync_all()
}
