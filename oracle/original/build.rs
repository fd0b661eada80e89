//! Lays out a tree of modules in OUT_DIR: the original's files from the folder ORIGINAL, under their own names, and
//! beside them what stands in `beside/`. Nothing of the original is kept in this repository.
use std::path::{Path, PathBuf};
use std::{env, fs};

/// Taken byte for byte.
const WHOLE: &[&str] = &[
    "catalog/column",
    "catalog/mod",
    "catalog/root",
    "storage/index/mod",
    "storage/mod",
    "storage/secondary/compactor",
    "storage/secondary/concat_iterator",
    "storage/secondary/manifest",
    "storage/secondary/mod",
    "storage/secondary/options",
    "storage/secondary/row_handler",
    "storage/secondary/statistics",
    "storage/secondary/storage",
    "storage/secondary/table",
    "storage/secondary/transaction",
    "storage/secondary/transaction_manager",
    "storage/secondary/txn_iterator",
];

/// Taken byte for byte as NAME.original.rs. A file NAME.rs in `beside/` includes it and adds functions that read
/// private fields.
const INCLUDED: &[&str] = &["storage/secondary/delete_vector", "storage/secondary/version_manager"];

/// Taken with edits: what thiserror makes of a backtrace needs a nightly compiler. Each text stands there once.
const ERROR: &str = "storage/error";
const ERROR_EDITS: &[(&str, &str)] = &[
    ("        #[backtrace]\n", ""),
    ("#[derive(Error)]\n#[error(\"{source:?}\\n{backtrace}\")]\n", ""),
    ("    #[from]\n    source", "    source"),
];

/// What the two derived traits would have been, without the backtrace.
const ERROR_TAIL: &str = "
impl std::fmt::Display for TracedStorageError {
    fn fmt(&self, f: &mut std::fmt::Formatter<'_>) -> std::fmt::Result {
        write!(f, \"{:?}\", self.source)
    }
}

impl std::error::Error for TracedStorageError {}

impl From<StorageError> for TracedStorageError {
    fn from(source: StorageError) -> Self {
        Self { source, backtrace: Backtrace::disabled() }
    }
}
";

struct Layout {
    original: PathBuf,
    tree: PathBuf,
}

impl Layout {
    fn read(&self, name: &str) -> Vec<u8> {
        let path = self.original.join(format!("{name}.rs"));
        println!("cargo:rerun-if-changed={}", path.display());
        fs::read(&path).unwrap_or_else(|e| panic!("{}: {e}", path.display()))
    }

    fn put(&self, name: &str, bytes: &[u8]) {
        let path = self.tree.join(name);
        fs::create_dir_all(path.parent().unwrap()).unwrap();
        fs::write(path, bytes).unwrap();
    }

    fn put_error(&self) {
        let mut text = String::from_utf8(self.read(ERROR)).unwrap();
        for (old, new) in ERROR_EDITS {
            assert_eq!(text.matches(old).count(), 1, "{ERROR}: {old:?}");
            text = text.replace(old, new);
        }
        self.put(&format!("{ERROR}.rs"), (text + ERROR_TAIL).as_bytes());
    }

    fn put_beside(&self, from: &Path, under: &Path) {
        for entry in fs::read_dir(from).unwrap().map(Result::unwrap) {
            let name = under.join(entry.file_name());
            if entry.path().is_dir() {
                self.put_beside(&entry.path(), &name);
            } else {
                assert!(!self.tree.join(&name).exists(), "{name:?} hides a file of the original");
                self.put(name.to_str().unwrap(), &fs::read(entry.path()).unwrap());
            }
        }
    }
}

pub fn main() {
    println!("cargo:rerun-if-env-changed=ORIGINAL");
    println!("cargo:rerun-if-changed=beside");
    println!("cargo:rerun-if-changed=build.rs");
    let original = env::var("ORIGINAL").expect("ORIGINAL: the folder of the original's files");
    let tree = PathBuf::from(env::var("OUT_DIR").unwrap()).join("tree");
    let _ = fs::remove_dir_all(&tree);
    let layout = Layout { original: original.into(), tree };
    for name in WHOLE {
        layout.put(&format!("{name}.rs"), &layout.read(name));
    }
    for name in INCLUDED {
        layout.put(&format!("{name}.original.rs"), &layout.read(name));
    }
    layout.put_error();
    layout.put_beside(Path::new("beside"), Path::new(""));
}
