//! Runs the tool, and gives it files.
#![allow(dead_code)]
use std::ffi::OsStr;
use std::path::{Path, PathBuf};
use std::process::{Command, Output, Stdio};
use std::sync::atomic::{AtomicUsize, Ordering};

/// A folder of its own, removed in the end.
pub struct Place(PathBuf);

impl Place {
    pub fn new(name: &str) -> Place {
        static COUNT: AtomicUsize = AtomicUsize::new(0);
        let memory = Path::new("/dev/shm");
        let base = if memory.is_dir() { memory.to_path_buf() } else { std::env::temp_dir() };
        let n = COUNT.fetch_add(1, Ordering::Relaxed);
        let path = base.join(format!("seqapti_tool_{name}_{}_{n}", std::process::id()));
        std::fs::create_dir_all(&path).expect("a temporary folder");
        Place(path)
    }

    pub fn path(&self) -> &Path {
        &self.0
    }

    pub fn at(&self, name: &str) -> PathBuf {
        self.0.join(name)
    }

    pub fn file(&self, name: &str, bytes: impl AsRef<[u8]>) -> PathBuf {
        std::fs::write(self.at(name), bytes).expect("a file");
        self.at(name)
    }

    pub fn folder(&self, name: &str) -> PathBuf {
        std::fs::create_dir_all(self.at(name)).expect("a folder");
        self.at(name)
    }

    /// The names of all that stands in it.
    pub fn names(&self) -> Vec<String> {
        names(&self.0)
    }
}

pub fn names(folder: &Path) -> Vec<String> {
    let entries = std::fs::read_dir(folder).expect("a folder");
    let mut names: Vec<String> =
        entries.map(|e| e.expect("an entry").file_name().to_string_lossy().into_owned()).collect();
    names.sort();
    names
}

impl Drop for Place {
    fn drop(&mut self) {
        let _ = std::fs::remove_dir_all(&self.0);
    }
}

#[derive(Debug)]
pub struct Ran {
    pub code: i32,
    pub out: String,
    pub err: String,
}

pub fn command() -> Command {
    let mut command = Command::new(env!("CARGO_BIN_EXE_seqapti"));
    command.stdin(Stdio::null());
    command
}

pub fn ran(output: Output) -> Ran {
    Ran {
        // A tool that a signal ended has no code.
        code: output.status.code().unwrap_or(-1),
        out: String::from_utf8(output.stdout).expect("text"),
        err: String::from_utf8(output.stderr).expect("text"),
    }
}

pub fn seqapti<A: AsRef<OsStr>>(arguments: &[A]) -> Ran {
    let ran = ran(command().args(arguments).output().expect("the tool runs"));
    assert!(!ran.err.contains("panicked"), "{ran:?}");
    ran
}

pub fn on(command: &str, path: &Path, options: &[&str]) -> Ran {
    let mut arguments: Vec<&OsStr> = vec![command.as_ref(), path.as_ref()];
    arguments.extend(options.iter().map(OsStr::new));
    seqapti(&arguments)
}

/// The text between two others, for a look into an answer.
pub fn between<'a>(text: &'a str, before: &str, after: &str) -> &'a str {
    let from = text.find(before).unwrap_or_else(|| panic!("no {before} in {text}")) + before.len();
    let to = text[from..].find(after).unwrap_or_else(|| panic!("no {after} in {text}"));
    &text[from..from + to]
}
