//! Readers that open a copy of the manifest while a writer commits: each has to find what some commit left.
//!   readers COMMITS, in a folder under SPEED_DIR
use seqapti::{EpochOp, RowsetId, TableId, VersionManager};
use std::collections::BTreeSet;
use std::path::{Path, PathBuf};
use std::sync::Mutex;
use std::sync::atomic::{AtomicBool, Ordering::SeqCst};
use std::time::Instant;
use std::{env, fs, process, thread};

type Pairs = Vec<(TableId, RowsetId)>;

#[derive(Default)]
struct Seen {
    copies: usize,
    torn: usize,
    micros: f64,
}

fn folder() -> PathBuf {
    let under = env::var_os("SPEED_DIR").map_or(env::temp_dir(), PathBuf::from);
    under.join(format!("seqapti-readers-{}", process::id()))
}

fn pairs(manager: &VersionManager) -> Pairs {
    manager.snapshot().unwrap().rowsets().collect()
}

/// Adds a rowset, and deletes the oldest once 50 are live.
fn commit(manager: &VersionManager, left: &Mutex<BTreeSet<Pairs>>) {
    let table = TableId(0);
    let mut ops = vec![EpochOp::add_rowset(table, manager.draw_rowset_id().unwrap())];
    let live = pairs(manager);
    if live.len() >= 50 {
        ops.push(EpochOp::delete_rowset(table, live[0].1));
    }
    // A reader may copy the commit before it has returned, so what it will leave is noted first.
    let mut after = live;
    after.drain(..ops.len() - 1);
    if let EpochOp::AddRowSet(add) = &ops[0] {
        after.push((table, add.rowset_id));
    }
    left.lock().unwrap().insert(after.clone());
    manager.commit_changes(ops).unwrap();
    assert_eq!(pairs(manager), after);
    manager.find_vacuum().unwrap();
}

/// Copies the manifest, cuts the copy by some bytes, and opens it.
fn read(from: &Path, to: &Path, left: &Mutex<BTreeSet<Pairs>>, seen: &mut Seen) {
    let mut copy = fs::read(from.join(seqapti::MANIFEST_FILE_NAME)).unwrap();
    let cut = seen.copies % 40;
    copy.truncate(copy.len().saturating_sub(cut));
    seen.torn += usize::from(!copy.ends_with(b"E\n"));
    fs::write(to.join(seqapti::MANIFEST_FILE_NAME), &copy).unwrap();
    let from = Instant::now();
    let manager = VersionManager::open(to).unwrap().manager;
    seen.micros += from.elapsed().as_secs_f64() * 1e6;
    seen.copies += 1;
    let found = pairs(&manager);
    assert!(left.lock().unwrap().contains(&found), "no commit left {found:?}");
}

fn main() {
    let commits = env::args().nth(1).map_or(20_000, |n| n.parse::<usize>().expect("a number of commits"));
    let dir = folder();
    let (from, to) = (dir.join("writer"), dir.join("reader"));
    [&from, &to].into_iter().for_each(|folder| fs::create_dir_all(folder).unwrap());
    let manager = VersionManager::open(&from).unwrap().manager;
    let left = Mutex::new(BTreeSet::from([vec![]]));
    manager.create_table("bookings", 7).unwrap();
    let done = AtomicBool::new(false);
    let seen = thread::scope(|scope| {
        let reader = scope.spawn(|| {
            let mut seen = Seen::default();
            while !done.load(SeqCst) {
                read(&from, &to, &left, &mut seen);
            }
            seen
        });
        for _ in 0..commits {
            // Before the manifest is full it is rewritten.
            if manager.manifest_len() > 60_000 {
                manager.reopen().unwrap();
            }
            commit(&manager, &left);
        }
        done.store(true, SeqCst);
        reader.join().unwrap()
    });
    let Seen { copies, torn, micros } = seen;
    println!("{commits} commits; {copies} copies opened, {torn} of them torn; each found what a commit left");
    println!("{:.0} microseconds an opening", micros / copies as f64);
    fs::remove_dir_all(dir).unwrap();
}
