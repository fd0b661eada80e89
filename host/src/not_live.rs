//! Rowset folders and delete vector files that stand in the store's folder and that nothing committed names.
use crate::error::{StorageError, StorageResult};
use crate::files::Folder;
use crate::ids::{RowsetId, TableId, VectorId};
use crate::snapshot::Snapshot;
use std::fs;
use std::io;
use std::path::{Path, PathBuf};

/// Told by an opening, when nobody writes yet. Ids that were drawn and never committed may be drawn again after a
/// reopen, so whoever keeps these has to move them out of the way.
#[derive(Clone, Debug, Default, PartialEq, Eq)]
pub struct NotLive {
    pub rowsets: Vec<(TableId, RowsetId, PathBuf)>,
    pub dvs: Vec<(TableId, RowsetId, VectorId, PathBuf)>,
}

impl NotLive {
    pub fn is_empty(&self) -> bool {
        self.rowsets.is_empty() && self.dvs.is_empty()
    }

    /// Removes them from the disk. What is gone already is passed over.
    pub fn remove(&self) -> StorageResult<()> {
        for (_, _, path) in &self.rowsets {
            gone(path, fs::remove_dir_all(path))?;
        }
        for (_, _, _, path) in &self.dvs {
            gone(path, fs::remove_file(path))?;
        }
        Ok(())
    }

    pub(crate) fn find(folder: &Folder, live: &Snapshot) -> StorageResult<NotLive> {
        let mut found = NotLive::all(folder)?;
        found.rowsets.retain(|(t, r, _)| !live.has_rowset(*t, *r));
        found.dvs.retain(|(t, r, v, _)| !live.has_dv(*t, *r, *v));
        Ok(found)
    }

    /// As if nothing were live.
    pub(crate) fn all(folder: &Folder) -> StorageResult<NotLive> {
        let mut found = NotLive::default();
        for path in entries(folder.path())? {
            if let Some((t, r)) = rowset(&path).filter(|_| path.is_dir()) {
                found.rowsets.push((t, r, path));
            }
        }
        for path in entries(&folder.dv_folder())? {
            if let Some((t, r, v)) = dv(&path) {
                found.dvs.push((t, r, v, path));
            }
        }
        found.rowsets.sort();
        found.dvs.sort();
        Ok(found)
    }
}

fn gone(path: &Path, removed: io::Result<()>) -> StorageResult<()> {
    match removed {
        Err(e) if e.kind() == io::ErrorKind::NotFound => Ok(()),
        other => other.map_err(StorageError::io("remove", path)),
    }
}

fn entries(folder: &Path) -> StorageResult<Vec<PathBuf>> {
    let listed = || -> io::Result<Vec<PathBuf>> { fs::read_dir(folder)?.map(|e| Ok(e?.path())).collect() };
    listed().map_err(StorageError::io("list", folder))
}

// Names that the store gives, and no others: `007_1` is nobody's rowset.

fn number<N: std::str::FromStr + ToString>(text: &str) -> Option<N> {
    text.parse().ok().filter(|n: &N| n.to_string() == text)
}

fn rowset(path: &Path) -> Option<(TableId, RowsetId)> {
    let (t, r) = path.file_name()?.to_str()?.split_once('_')?;
    Some((TableId(number(t)?), RowsetId(number(r)?)))
}

fn dv(path: &Path) -> Option<(TableId, RowsetId, VectorId)> {
    let (t, rest) = path.file_name()?.to_str()?.strip_suffix(".dv")?.split_once('_')?;
    let (r, v) = rest.split_once('_')?;
    Some((TableId(number(t)?), RowsetId(number(r)?), VectorId(number(v)?)))
}
