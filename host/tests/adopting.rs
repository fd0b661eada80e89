//! A small engine of booking rows, written as docs/ADOPTING.md says: no booking is ever shown twice or lost, and no file goes
//! while a pin shows it, also where the disk is full at times.
mod common;
use common::*;
use seqapti::faults::{self, Fault, Plan};
use seqapti::*;
use std::collections::{BTreeSet, HashMap};
use std::fs;
use std::io::Write;
use std::path::Path;
use std::sync::atomic::{AtomicBool, AtomicUsize, Ordering};
use std::sync::{Arc, Mutex, Weak};

type Rows = Arc<Vec<u32>>;

#[derive(Default)]
struct Pool {
    rowsets: Mutex<HashMap<(TableId, RowsetId), Rows>>,
    dvs: Mutex<HashMap<(TableId, VectorId), Arc<DeleteVector>>>,
}

impl Pool {
    fn rowset(&self, t: TableId, r: RowsetId) -> Rows {
        self.rowsets.lock().expect("no panic")[&(t, r)].clone()
    }

    fn dv(&self, t: TableId, v: VectorId) -> Arc<DeleteVector> {
        self.dvs.lock().expect("no panic")[&(t, v)].clone()
    }
}

// Of the 65,536 bytes that a manifest has room for: few, so that there are many checkpoints.
const LONG: usize = 1_000;

struct Engine {
    version: Arc<VersionManager>,
    pool: Arc<Pool>,
    table: TableId,
    vacuumed: Arc<AtomicUsize>,
}

// A rowset is a folder with one file of numbers.
fn write_rowset(path: &Path, rows: &[u32]) {
    fs::create_dir(path).expect("a folder that is not there yet");
    let mut file = fs::File::create(path.join("rows")).expect("a file");
    let bytes: Vec<u8> = rows.iter().flat_map(|r| r.to_le_bytes()).collect();
    file.write_all(&bytes).and_then(|()| file.sync_all()).expect("rows");
}

fn read_rowset(path: &Path) -> Rows {
    let bytes = fs::read(path.join("rows")).expect("a live rowset's file");
    Arc::new(bytes.chunks(4).map(|b| u32::from_le_bytes([b[0], b[1], b[2], b[3]])).collect())
}

impl Engine {
    fn open(path: &Path) -> Engine {
        let Opened { manager, not_live } = VersionManager::open(path).expect("an opening");
        not_live.remove().expect("a removal");
        let version = Arc::new(manager);
        let pool = Arc::new(Pool::default());
        let snapshot = version.snapshot().expect("a snapshot");
        for (t, r) in snapshot.rowsets() {
            pool.rowsets.lock().expect("no panic").insert((t, r), read_rowset(&version.rowset_path(t, r)));
        }
        for (t, r, v) in snapshot.dvs() {
            let dv = version.read_dv(t, r, v).expect("a live vector's file");
            pool.dvs.lock().expect("no panic").insert((t, v), Arc::new(dv));
        }
        let table = match snapshot.get_table_by_name("bookings") {
            Some(table) => table.table_id,
            None => version.create_table("bookings", 1).expect("a table"),
        };
        let engine = Engine { version, pool, table, vacuumed: Arc::default() };
        engine.listen();
        engine
    }

    fn listen(&self) {
        let notices = self.version.take_notices().expect("taken once");
        let (version, pool, vacuumed) = (Arc::downgrade(&self.version), self.pool.clone(), self.vacuumed.clone());
        std::thread::spawn(move || {
            for _ in notices.iter().filter(|n| n.ready > 0) {
                let Some(version) = Weak::upgrade(&version) else { return };
                vacuum(&version, &pool, &vacuumed);
            }
        });
    }

    // Before the commit that adds it: a reader may pin the new epoch at once.
    fn put(&self, rows: &[u32]) -> StorageResult<RowsetId> {
        let r = self.version.draw_rowset_id()?;
        write_rowset(&self.version.rowset_path(self.table, r), rows);
        self.pool.rowsets.lock().expect("no panic").insert((self.table, r), Arc::new(rows.to_vec()));
        Ok(r)
    }

    // Where that commit was not made for certain.
    fn take_out(&self, r: RowsetId) {
        if self.version.is_poisoned() {
            return;
        }
        self.pool.rowsets.lock().expect("no panic").remove(&(self.table, r));
        fs::remove_dir_all(self.version.rowset_path(self.table, r)).expect("a folder to remove");
    }

    fn insert(&self, rows: &[u32]) -> StorageResult<()> {
        let r = self.put(rows)?;
        let told = self.version.commit_changes([EpochOp::add_rowset(self.table, r)]);
        told.map(|_| ()).inspect_err(|_| self.take_out(r))
    }

    // The rows that a pin shows, with their handlers.
    fn scan(&self, pin: &Version) -> Vec<(u32, SecondaryRowHandler)> {
        let mut shown = Vec::new();
        for r in pin.snapshot().get_rowsets_of(self.table).unwrap_or_default() {
            assert!(self.version.rowset_path(self.table, *r).is_dir(), "a pinned rowset's folder is gone");
            let rows = self.pool.rowset(self.table, *r);
            let mut mask = vec![true; rows.len()];
            for v in pin.snapshot().get_dvs_of(self.table, *r).unwrap_or_default() {
                assert!(self.version.dv_path(self.table, *r, *v).is_file(), "a pinned vector's file is gone");
                self.pool.dv(self.table, *v).apply_to(&mut mask, RowId(0)).expect("a mask");
            }
            let live = rows.iter().zip(&mask).enumerate().filter(|(_, (_, live))| **live);
            shown.extend(live.map(|(i, (row, _))| (*row, SecondaryRowHandler(*r, RowId(i as u32)))));
        }
        shown
    }

    fn delete(&self, gone: impl Fn(u32) -> bool) -> StorageResult<()> {
        let _lock = self.version.lock_table_blocking(self.table)?;
        let pin = self.version.pin()?;
        let handles: Vec<_> = self.scan(&pin).into_iter().filter(|(row, _)| gone(*row)).map(|(_, h)| h).collect();
        let mut ops = Vec::new();
        let vectors = self.version.group_deletes(&handles)?;
        self.version.write_dvs(self.table, &vectors)?;
        for grouped in vectors {
            let (r, v) = (grouped.vector.rowset_id(), grouped.vector.dv_id());
            ops.push(EpochOp::add_dv(self.table, r, v));
            self.pool.dvs.lock().expect("no panic").insert((self.table, v), Arc::new(grouped.vector));
        }
        self.version.commit_changes(ops)?;
        Ok(())
    }

    fn compact(&self, target: u64) -> StorageResult<bool> {
        let lock = self.version.lock_table_blocking(self.table)?;
        let pin = self.version.pin()?;
        let rowsets = pin.snapshot().get_rowsets_of(self.table).unwrap_or_default();
        let sizes: Vec<_> = rowsets.iter().map(|r| (*r, self.pool.rowset(self.table, *r).len() as u64)).collect();
        let selected = self.version.select(self.table, target, &sizes)?;
        if selected.is_empty() {
            return Ok(false);
        }
        let merged: Vec<u32> = self
            .scan(&pin)
            .into_iter()
            .filter(|(_, h)| selected.contains(&h.rowset_id()))
            .map(|(row, _)| row)
            .collect();
        let new = match merged.is_empty() {
            true => None,
            false => Some(self.put(&merged)?),
        };
        let told = self.version.compact(&lock, new, &selected);
        told.map(|_| true).inspect_err(|_| new.into_iter().for_each(|r| self.take_out(r)))
    }

    // Before the manifest is full. Nothing is closed for it, and readers keep their pins.
    fn shorten(&self) -> StorageResult<bool> {
        let long = self.version.manifest_len() > LONG;
        if long {
            self.version.checkpoint()?;
        }
        Ok(long)
    }
}

fn vacuum(version: &VersionManager, pool: &Pool, count: &AtomicUsize) {
    let Ok(done) = version.vacuum() else { return };
    for (t, r) in done.rowsets {
        pool.rowsets.lock().expect("no panic").remove(&(t, r));
        fs::remove_dir_all(version.rowset_path(t, r)).expect("a folder to remove");
        count.fetch_add(1, Ordering::Relaxed);
    }
    for (t, r, v) in done.dvs {
        pool.dvs.lock().expect("no panic").remove(&(t, v));
        fs::remove_file(version.dv_path(t, r, v)).expect("a file to remove");
    }
}

// Bookings rise by one, and only the lowest are deleted: so a board that counts any twice or loses one shows it.
fn check(rows: Vec<(u32, SecondaryRowHandler)>) -> BTreeSet<u32> {
    let set: BTreeSet<u32> = rows.iter().map(|(row, _)| *row).collect();
    assert_eq!(set.len(), rows.len(), "a booking is shown twice");
    if let (Some(first), Some(last)) = (set.first(), set.last()) {
        assert_eq!(set.len() as u32, last - first + 1, "a booking is lost");
    }
    set
}

// Set when it is dropped, by a panic too, so that nobody waits for good.
struct Set<'a>(&'a AtomicBool);

impl Drop for Set<'_> {
    fn drop(&mut self) {
        self.0.store(true, Ordering::Relaxed);
    }
}

#[test]
fn bookings_are_counted_once() {
    let folder = Folder::in_memory("bookings");
    let mut random = Random(3);
    let (mut lowest, mut next) = (0, 0);
    let (boards, mut compactions, mut vacuumed, mut full) = (AtomicUsize::new(0), 0, 0, 0);
    let (mut checkpoints, mut short) = (0, 0);
    for _ in 0..12 {
        let engine = Engine::open(&folder.store());
        let pin = engine.version.pin().expect("a pin");
        assert_eq!(check(engine.scan(&pin)), (lowest..next).collect(), "after a reopen");
        drop(pin);
        let done = AtomicBool::new(false);
        std::thread::scope(|scope| {
            let _at_the_end = Set(&done);
            for _ in 0..2 {
                scope.spawn(|| {
                    while !done.load(Ordering::Relaxed) {
                        let Ok(pin) = engine.version.pin() else { continue };
                        check(engine.scan(&pin));
                        boards.fetch_add(1, Ordering::Relaxed);
                    }
                });
            }
            for _ in 0..150 {
                // The first step of an insert or a compaction that the disk sees is its append.
                let call = random.below(10);
                let landed = random.below(12) as usize;
                let full_disk = !(5..8).contains(&call) && random.one_in(5);
                faults::plan(full_disk.then_some(Plan { at: 0, fault: Fault::Error, landed }));
                let told = match call {
                    0..5 => {
                        let rows: Vec<u32> = (next..next + 1 + random.below(30) as u32).collect();
                        engine.insert(&rows).map(|()| next += rows.len() as u32)
                    }
                    5..8 => {
                        let bound = (lowest + random.below(60) as u32).min(next);
                        engine.delete(|row| row < bound).map(|()| lowest = bound)
                    }
                    _ => engine.compact(1000).map(|done| compactions += usize::from(done)),
                };
                faults::plan(None);
                match told {
                    Err(e) if e.refusal() == Some(Refusal::HeldFull) => full += 1,
                    Err(StorageError::NotCommitted { .. }) => short += 1,
                    told => told.expect("a change"),
                }
                // What waits is held, pins or none.
                vacuum(&engine.version, &engine.pool, &engine.vacuumed);
                checkpoints += usize::from(engine.shorten().expect("a checkpoint"));
            }
        });
        vacuumed += engine.vacuumed.load(Ordering::Relaxed);
        // The listening thread may hold the manager for the moment of a vacuum.
        let Engine { version, .. } = engine;
        while Arc::strong_count(&version) > 1 {
            std::thread::yield_now();
        }
    }
    let boards = boards.load(Ordering::Relaxed);
    println!(
        "bookings: {next} booked, {boards} boards read, {compactions} compactions, {vacuumed} rowsets vacuumed, {full} times full, {short} short writes, {checkpoints} checkpoints, 12 openings"
    );
}
