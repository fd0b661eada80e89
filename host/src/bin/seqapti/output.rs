//! Writes files: each is whole or not there.
use crate::source::failed;
use crate::{beside, Failed};
use std::fs::{self, File};
use std::io::{self, Write};
use std::path::{Path, PathBuf};

/// Puts a file in place of the one that may be there.
pub fn replace(path: &Path, bytes: &[u8]) -> Result<(), Failed> {
    let temporary = write(path, bytes)?;
    fs::rename(&temporary, path).map_err(|e| discard(&temporary, failed("write", path, e)))
}

/// Writes new files, the last one as the sign that all are there. If one cannot be written none is left.
pub fn create_all(files: &[(PathBuf, Vec<u8>)]) -> Result<(), Failed> {
    let mut written = Vec::new();
    for (path, bytes) in files {
        match create(path, bytes) {
            Ok(()) => written.push(path),
            Err(why) => {
                for path in written {
                    let _ = fs::remove_file(path);
                }
                return Err(why);
            }
        }
    }
    Ok(())
}

fn create(path: &Path, bytes: &[u8]) -> Result<(), Failed> {
    let temporary = write(path, bytes)?;
    let placed = place(&temporary, path).and_then(|()| sync_folder_of(path));
    placed.map_err(|e| discard(&temporary, failed("write", path, e)))
}

// A rename would put the file over another that came meanwhile; a link does not. Some file systems have no links.
fn place(temporary: &Path, path: &Path) -> io::Result<()> {
    match fs::hard_link(temporary, path) {
        Ok(()) => fs::remove_file(temporary),
        Err(e) if e.kind() == io::ErrorKind::AlreadyExists => Err(e),
        Err(_) if fs::symlink_metadata(path).is_ok() => Err(io::ErrorKind::AlreadyExists.into()),
        Err(_) => fs::rename(temporary, path),
    }
}

// On disk when it returns.
fn write(path: &Path, bytes: &[u8]) -> Result<PathBuf, Failed> {
    let temporary = beside(path, &format!(".{}.tmp", std::process::id()));
    let written = || -> io::Result<()> {
        let mut file = File::create_new(&temporary)?;
        file.write_all(bytes)?;
        file.sync_all()
    };
    match written() {
        Ok(()) => Ok(temporary),
        Err(e) if e.kind() == io::ErrorKind::AlreadyExists => Err(failed("write", &temporary, e)),
        Err(e) => Err(discard(&temporary, failed("write", path, e))),
    }
}

fn discard(temporary: &Path, why: Failed) -> Failed {
    let _ = fs::remove_file(temporary);
    why
}

fn sync_folder_of(path: &Path) -> io::Result<()> {
    let folder = match path.parent() {
        Some(folder) if !folder.as_os_str().is_empty() => folder,
        _ => Path::new("."),
    };
    File::open(folder)?.sync_all()
}
