//! Many stores in one process: what each takes to open, in memory and in files held open.
//!   stores STORES HELD, in a folder under SPEED_DIR
use seqapti::{EpochOp, TableId, Version, VersionManager};
use std::path::{Path, PathBuf};
use std::time::Instant;
use std::{env, fs, process};

fn folder() -> PathBuf {
    let under = env::var_os("SPEED_DIR").map_or(env::temp_dir(), PathBuf::from);
    under.join(format!("seqapti-stores-{}", process::id()))
}

/// A manifest of one table, so many rowsets, and a vector over each.
fn manifest(held: usize) -> String {
    let rowsets = (0..held).map(|i| format!("A,0,{i}\n"));
    let vectors = (0..held).map(|i| format!("V,0,{i},{i}\n"));
    let lines: String = rowsets.chain(vectors).collect();
    format!("B\nN,1,1000,1000\nT,0,7,bookings\n{lines}E\n")
}

fn put_stores(dir: &Path, stores: usize, held: usize) -> Vec<PathBuf> {
    let text = manifest(held);
    let put = |i: usize| {
        let store = dir.join(format!("{held}-{i}"));
        fs::create_dir_all(&store).unwrap();
        fs::write(store.join(seqapti::MANIFEST_FILE_NAME), &text).unwrap();
        store
    };
    (0..stores).map(put).collect()
}

/// Bytes that the process has in memory.
fn resident() -> f64 {
    let status = fs::read_to_string("/proc/self/status").unwrap();
    let line = status.lines().find_map(|line| line.strip_prefix("VmRSS:")).unwrap();
    line.trim().trim_end_matches(" kB").parse::<f64>().unwrap() * 1024.0
}

fn files_open() -> usize {
    fs::read_dir("/proc/self/fd").unwrap().count()
}

/// What a step took: microseconds a store, and kilobytes a store.
fn step<T>(stores: usize, work: impl FnOnce() -> T) -> (T, f64, f64) {
    let (before, from) = (resident(), Instant::now());
    let made = work();
    let micros = from.elapsed().as_secs_f64() * 1e6 / stores as f64;
    (made, micros, (resident() - before) / 1024.0 / stores as f64)
}

fn commit(manager: &VersionManager) -> u32 {
    let rowset = manager.draw_rowset_id().unwrap();
    manager.commit_changes([EpochOp::add_rowset(TableId(0), rowset)]).unwrap()
}

fn measure(dir: &Path, stores: usize, held: usize) {
    let paths = put_stores(dir, stores, held);
    let files = files_open();
    let open = || -> Vec<VersionManager> {
        paths.iter().map(|path| VersionManager::open(path).unwrap().manager).collect()
    };
    let (managers, opening, memory) = step(stores, open);
    let files = (files_open() - files) as f64 / stores as f64;
    let pin = || -> Vec<Version> { managers.iter().map(|manager| manager.pin().unwrap()).collect() };
    let (_pins, pinning, _) = step(stores, pin);
    let (_, committing, _) = step(stores, || managers.iter().map(commit).max());
    let all = opening * stores as f64 / 1000.0;
    println!(
        "| {stores} | {held} | {all:.0} | {opening:.0} | {memory:.1} | {files} | {pinning:.1} | {committing:.0} |"
    );
}

/// One number of held rowsets a process, so that memory is that of these stores.
fn main() {
    let number = |i: usize| env::args().nth(i).map(|n| n.parse::<usize>().expect("a number"));
    let dir = folder();
    match (number(1), number(2)) {
        (Some(stores), Some(held)) => measure(&dir, stores, held),
        _ => panic!("stores STORES HELD"),
    }
    fs::remove_dir_all(dir).unwrap();
}
