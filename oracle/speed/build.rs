//! Lays out the original's tree as ../original does, and puts the files of `beside/` in place of its driver.
use std::path::{Path, PathBuf};
use std::{env, fs};

#[path = "../original/build.rs"]
mod original;

const DRIVER: &str = "storage/secondary/driver";

fn main() {
    println!("cargo:rerun-if-changed=../original/build.rs");
    println!("cargo:rerun-if-changed=../original/beside");
    let here = env::current_dir().unwrap();
    env::set_current_dir("../original").unwrap();
    original::main();
    env::set_current_dir(&here).unwrap();
    let tree = PathBuf::from(env::var("OUT_DIR").unwrap()).join("tree");
    put_driver(&here.join("beside").join(DRIVER), &tree.join(DRIVER));
}

fn put_driver(from: &Path, to: &Path) {
    for entry in fs::read_dir(from).unwrap().map(Result::unwrap) {
        fs::copy(entry.path(), to.join(entry.file_name())).unwrap();
    }
}
