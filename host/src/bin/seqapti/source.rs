//! Finds and reads the file that a command is about.
use crate::Failed;
use seqapti::MANIFEST_FILE_NAME;
use std::fs::{self, File};
use std::io::{self, Read};
use std::path::{Path, PathBuf};

/// One byte more than the longest manifest: enough to be refused for its length.
const MOST_READ: u64 = 65_537;
pub const JSON_MANIFEST_FILE_NAME: &str = "manifest.json";

pub struct Source {
    pub path: PathBuf,
    /// The store's folder, if that was asked for.
    pub folder: Option<PathBuf>,
    /// The first 65,537 bytes at most.
    pub bytes: Vec<u8>,
    /// The file's length, as far as it is known.
    pub length: u64,
}

impl Source {
    /// The manifest at a path: the file itself, or the one in a store's folder.
    pub fn manifest(path: &Path) -> Result<Source, Failed> {
        let (path, folder) = match path.is_dir() {
            true => (in_folder(path)?, Some(path.to_path_buf())),
            false => (path.to_path_buf(), None),
        };
        let (bytes, length) = read(&path, MOST_READ).map_err(|e| failed("read", &path, e))?;
        Ok(Source { path, folder, bytes, length })
    }

    /// Whether it begins as the original's manifest does.
    pub fn looks_like_json(&self) -> bool {
        let text = self.bytes.trim_ascii_start();
        text.starts_with(b"\"Begin\"") || text.starts_with(b"{\"")
    }
}

/// The whole of a file that has at most so many bytes.
pub fn whole(path: &Path, most: u64) -> Result<Vec<u8>, Failed> {
    let (bytes, _) = read(path, most + 1).map_err(|e| failed("read", path, e))?;
    match bytes.len() as u64 > most {
        true => Err(Failed(format!("{} has more than {most} bytes, which this tool does not read", path.display()))),
        false => Ok(bytes),
    }
}

pub fn failed(what: &str, path: &Path, e: io::Error) -> Failed {
    Failed(format!("cannot {what} {}: {e}", path.display()))
}

fn in_folder(folder: &Path) -> Result<PathBuf, Failed> {
    let path = folder.join(MANIFEST_FILE_NAME);
    if fs::symlink_metadata(&path).is_ok() {
        return Ok(path);
    }
    let json = folder.join(JSON_MANIFEST_FILE_NAME);
    let hint = match json.exists() {
        true => format!("; `seqapti import {} {}` makes one of its JSON manifest", json.display(), folder.display()),
        false => String::new(),
    };
    Err(Failed(format!("{} holds no file `{MANIFEST_FILE_NAME}`{hint}", folder.display())))
}

fn read(path: &Path, most: u64) -> io::Result<(Vec<u8>, u64)> {
    let file = File::open(path)?;
    let length = file.metadata()?.len();
    let mut bytes = Vec::new();
    file.take(most).read_to_end(&mut bytes)?;
    // A device or a pipe says 0, and a file may have grown since.
    let length = length.max(bytes.len() as u64);
    Ok((bytes, length))
}
