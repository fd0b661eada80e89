//! Finds the archive that the crate links: the one named by SEQAPTI_ARCHIVE, or one that `rt` proves and builds.
use std::env;
use std::path::{Path, PathBuf};
use std::process::{exit, Command};

const VARIABLE: &str = "SEQAPTI_ARCHIVE";

fn main() {
    println!("cargo:rerun-if-env-changed={VARIABLE}");
    let archive = match env::var_os(VARIABLE) {
        Some(path) => PathBuf::from(path),
        None => prove(),
    };
    println!("cargo:rerun-if-changed={}", archive.display());

    // Linked under a name of its own, whatever the file is called.
    let out = PathBuf::from(env::var_os("OUT_DIR").unwrap_or_default());
    if let Err(e) = std::fs::copy(&archive, out.join("libseqapti_host.a")) {
        fail(&format!("the archive {} cannot be read: {e}", archive.display()));
    }
    println!("cargo:rustc-link-search=native={}", out.display());
}

fn prove() -> PathBuf {
    let here = PathBuf::from(env::var_os("CARGO_MANIFEST_DIR").unwrap_or_default());
    let root = here.parent().unwrap_or(Path::new("."));
    println!("cargo:rerun-if-changed={}", root.join("crates.txt").display());
    for source in sources(&root.join("crates")) {
        println!("cargo:rerun-if-changed={}", source.display());
    }
    let host = root.join("crates/host");
    match Command::new("rt").arg("lib").current_dir(&host).status() {
        Ok(status) if status.success() => host.join("out/libhost.a"),
        Ok(status) => fail(&format!("`rt lib` in {} ended with {status}", host.display())),
        Err(_) => fail(&format!(
            "`rt` is not on the path: put the Rattle toolchain there, or set {VARIABLE} to a libhost.a that `rt lib` in crates/host has made"
        )),
    }
}

/// The code and the proofs of each crate. What `rt` makes lies beside them, in `out`.
fn sources(crates: &Path) -> Vec<PathBuf> {
    let folders = std::fs::read_dir(crates).into_iter().flatten().flatten();
    folders
        .flat_map(|folder| ["src", "specs", "proofs"].map(|part| folder.path().join(part)))
        .filter(|part| part.is_dir())
        .collect()
}

fn fail(why: &str) -> ! {
    eprintln!("seqapti: {why}");
    exit(1)
}
