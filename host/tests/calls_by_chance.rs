//! Calls by chance against a small model: alone, and with threads that pin and read while one writes. Some appends come short.
mod common;
#[path = "common/model.rs"]
mod model;
use common::*;
use model::Model;
use seqapti::faults::{self, Fault, Plan};
use seqapti::*;
use std::collections::{BTreeMap, HashMap};
use std::sync::atomic::{AtomicBool, AtomicU64, AtomicUsize, Ordering};
use std::sync::mpsc::Receiver;
use std::sync::{Arc, Mutex, RwLock};

// Stands for an append that came short.
const SHORT: u32 = 1000;

struct Writer {
    manager: Arc<VersionManager>,
    model: Model,
    random: Random,
    // At times nothing is deleted, so that the store fills up.
    growing: bool,
    // A call was refused by 23, and no checkpoint has come since.
    full: bool,
    // How many bytes landed of the append that came short, if the last change did.
    short: Option<usize>,
    // How often each call answered each number.
    numbers: BTreeMap<(&'static str, u32), usize>,
}

impl Writer {
    fn new(manager: Arc<VersionManager>, seed: u64) -> Writer {
        let mut model = Model::default();
        model.reopen(manager.manifest_len());
        Writer {
            manager,
            model,
            random: Random(seed),
            growing: false,
            full: false,
            short: None,
            numbers: BTreeMap::new(),
        }
    }

    fn said<T>(&mut self, call: &'static str, told: StorageResult<T>, expected: Result<(), u32>) -> Option<T> {
        let number = match &told {
            Ok(_) => 0,
            // Only where it would have been accepted.
            Err(StorageError::NotCommitted { landed, .. }) => {
                self.short = Some(*landed);
                SHORT
            }
            Err(e) => e.number().unwrap_or_else(|| panic!("{call}: {e}")),
        };
        let judged = if number == SHORT { 0 } else { number };
        assert_eq!(judged, expected.err().unwrap_or(0), "{call}");
        *self.numbers.entry((call, number)).or_default() += 1;
        self.full |= number == 23;
        told.ok()
    }

    fn pair(&mut self) -> Option<(u32, u32)> {
        let all: Vec<_> = self.model.sets.pairs.iter().copied().collect();
        self.random.of(&all)
    }

    fn table(&mut self) -> u32 {
        let all: Vec<_> = self.model.sets.tables.keys().copied().collect();
        match self.random.one_in(40) {
            true => self.random.below(1000) as u32,
            false => self.random.of(&all).unwrap_or(0),
        }
    }

    fn operations(&mut self) -> Vec<EpochOp> {
        let mut ops = Vec::new();
        self.growing ^= self.random.one_in(400);
        let most = if self.random.one_in(50) { 40 } else { 4 };
        for _ in 0..self.random.below(most) {
            match self.random.below(100) {
                0..3 => {
                    let name = ["slots", "rides", "a", "Bad", "two\nlines", ""][self.random.below(6) as usize];
                    ops.push(EpochOp::create_table(TableId(self.model.next.0), 9, name));
                }
                3 => ops.push(EpochOp::drop_table(TableId(self.table()))),
                4..45 => {
                    let below = self.model.next.1 + u32::from(self.random.one_in(30));
                    // Mostly the newest id.
                    let id = if self.random.one_in(9) { self.random.below(below as u64 + 1) as u32 } else { below };
                    ops.push(add(self.table(), RowsetId(id.saturating_sub(1))));
                }
                45..65 => {
                    let id = self.model.next.2 + self.random.below(2);
                    if let Some((t, r)) = self.pair() {
                        ops.push(EpochOp::add_dv(TableId(t), RowsetId(r), VectorId(id.saturating_sub(1))));
                    }
                }
                65..75 => {
                    let all: Vec<_> = self.model.sets.vectors.iter().copied().collect();
                    let chosen = self.random.of(&all);
                    ops.extend(chosen.map(|(t, r, v)| EpochOp::delete_dv(TableId(t), RowsetId(r), VectorId(v))));
                }
                75..78 => ops.push(delete(0, self.random.below(300) as u32)),
                _ if self.growing => {}
                _ => {
                    if let Some((t, r)) = self.pair() {
                        let over: Vec<u64> =
                            self.model.sets.vectors.iter().filter(|v| (v.0, v.1) == (t, r)).map(|v| v.2).collect();
                        ops.extend(over.into_iter().map(|v| EpochOp::delete_dv(TableId(t), RowsetId(r), VectorId(v))));
                        ops.push(delete(t, r));
                    }
                }
            }
        }
        ops
    }

    fn draw(&mut self) {
        if self.random.one_in(2) {
            assert_eq!(self.manager.draw_rowset_id().expect("an id").0, self.model.next.1);
            self.model.next.1 += 1;
        } else {
            assert_eq!(self.manager.draw_dv_id().expect("an id").0, self.model.next.2);
            self.model.next.2 += 1;
        }
        *self.numbers.entry(("draw", 0)).or_default() += 1;
    }

    // The append of the next change, which is its first step, comes short now and then.
    fn plan(&mut self, after: &Model) {
        let append = (after.length - self.model.length) as u64;
        let short = append > 0 && self.random.one_in(9);
        let landed = if short { self.random.below(append) as usize } else { 0 };
        faults::plan(short.then_some(Plan { at: 0, fault: Fault::Error, landed }));
    }

    // One of the calls that commit, announced to the readers before it is made.
    fn change(&mut self, announce: &dyn Fn(&Model)) {
        let mut after = self.model.clone();
        let (before, length) = (self.model.epoch, self.model.length);
        self.short = None;
        match self.random.below(40) {
            0 => {
                let name = format!("t{}", self.random.below(30));
                let expected = after.create(&name, 5);
                announce(&after);
                self.plan(&after);
                let told = self.manager.create_table(&name, 5);
                if let Some(id) = self.said("create", told, expected) {
                    assert_eq!(id.0, self.model.next.0);
                }
            }
            1 if self.random.one_in(3) => {
                let table = self.table();
                let expected = after.drop_table(table);
                announce(&after);
                self.plan(&after);
                let told = self.manager.drop_table(TableId(table));
                self.said("drop", told, expected);
            }
            2..10 if !self.growing => self.compact(&mut after, announce),
            _ => {
                let ops = self.operations();
                let expected = after.commit(&ops);
                announce(&after);
                self.plan(&after);
                let told = self.manager.commit_changes(&ops);
                self.said("commit", told, expected);
            }
        }
        faults::plan(None);
        if self.manager.epoch() == after.epoch {
            self.model = after;
        }
        if let Some(landed) = self.short {
            // As before it, but for the bytes that landed.
            assert_eq!(self.manager.epoch(), before);
            self.model.length = length + landed;
        }
        assert!(!self.manager.is_poisoned());
        assert_eq!(self.manager.epoch(), self.model.epoch);
        assert_eq!(self.manager.manifest_len(), self.model.length);
    }

    fn compact(&mut self, after: &mut Model, announce: &dyn Fn(&Model)) {
        let table = self.table();
        let Ok(lock) = self.manager.lock_table(TableId(table)) else {
            assert!(!self.model.sets.tables.contains_key(&table));
            return;
        };
        let again = self.manager.lock_table(TableId(table));
        self.said("lock", again, Err(25));
        let sizes: Vec<(RowsetId, u64)> = self
            .model
            .sets
            .pairs
            .iter()
            .filter(|p| p.0 == table)
            .map(|p| (RowsetId(p.1), u64::from(p.1 % 7)))
            .collect();
        let taken = self.manager.select(TableId(table), 20, &sizes).expect("a selection");
        let mut sum = 0;
        let by_hand: Vec<RowsetId> = sizes
            .iter()
            .filter(|(_, size)| {
                let fits = sum + size <= 20;
                sum += if fits { *size } else { 0 };
                fits
            })
            .map(|(r, _)| *r)
            .collect();
        let covered = |r: &RowsetId| self.model.sets.vectors.iter().any(|v| (v.0, v.1) == (table, r.0));
        let enough = by_hand.len() > 1 || by_hand.iter().any(covered);
        assert_eq!(taken, if enough { by_hand } else { vec![] });
        let new = match self.random.one_in(4) {
            true => None,
            false => {
                after.next.1 += 1;
                self.model.next.1 += 1;
                Some(self.manager.draw_rowset_id().expect("an id"))
            }
        };
        let numbers: Vec<u32> = taken.iter().map(|r| r.0).collect();
        let expected = after.compact(table, new.map(|r| r.0), &numbers);
        announce(after);
        self.plan(after);
        let told = self.manager.compact(&lock, new, &taken);
        self.said("compact", told, expected);
    }

    fn vacuum(&mut self) -> Vacuumed {
        let done = self.manager.vacuum().expect("a vacuum");
        let pairs: Vec<(u32, u32)> = done.rowsets.iter().map(|(t, r)| (t.0, r.0)).collect();
        let vectors = done.dvs.iter().map(|(t, r, v)| (t.0, r.0, v.0)).collect();
        self.model.let_go(&pairs, &vectors);
        *self.numbers.entry(("vacuum", 0)).or_default() += 1;
        done
    }

    fn checkpoint(&mut self) {
        let length = self.manager.checkpoint().expect("a checkpoint");
        let rewritten = self.model.checkpoint();
        let bytes = std::fs::read(self.manager.path().join(MANIFEST_FILE_NAME)).expect("the manifest");
        assert_eq!(bytes, rewritten.as_bytes());
        assert_eq!((length, self.manager.manifest_len()), (bytes.len(), bytes.len()));
        assert_eq!((self.manager.epoch(), Sets::now(&self.manager)), (self.model.epoch, self.model.sets.clone()));
        *self.numbers.entry(("checkpoint", 0)).or_default() += 1;
        self.full = false;
    }

    fn reopen(&mut self) {
        self.manager.reopen().expect("a reopen");
        self.model.reopen(self.manager.manifest_len());
        assert_eq!(Sets::now(&self.manager), self.model.sets);
        *self.numbers.entry(("reopen", 0)).or_default() += 1;
    }
}

#[test]
fn alone() {
    let folder = Folder::in_memory("alone");
    let manager = Arc::new(folder.open());
    let notices = manager.take_notices().expect("the notices");
    let mut w = Writer::new(manager, 11);
    let mut versions: Vec<(Version, Sets)> = Vec::new();
    for turn in 0..100_000 {
        match w.random.below(100) {
            0..25 => w.draw(),
            25..60 => w.change(&|_| {}),
            60..75 => pin(&mut w, &mut versions),
            75..92 => unpin(&mut w, &mut versions, &notices),
            _ => vacuum(&mut w),
        }
        // At first by chance, and then only where the manifest is full.
        let by_chance = |random: &mut Random| turn < 60_000 && random.one_in(4000);
        if w.full || by_chance(&mut w.random) {
            w.checkpoint();
        }
        if by_chance(&mut w.random) {
            while !versions.is_empty() {
                unpin(&mut w, &mut versions, &notices);
            }
            w.reopen();
        }
    }
    println!("alone: {} calls; {:?}", w.numbers.values().sum::<usize>(), w.numbers);
    for number in [SHORT, 0, 2, 11, 12, 14, 15, 16, 17, 22, 23] {
        assert!(w.numbers.contains_key(&("commit", number)), "{number} was not met");
    }
}

fn pin(w: &mut Writer, versions: &mut Vec<(Version, Sets)>) {
    let expected = w.model.pin();
    let told = w.manager.pin();
    if let Some(version) = w.said("pin", told, expected.map(|_| ())) {
        assert_eq!(version.epoch(), w.model.epoch);
        versions.push((version, w.model.sets.clone()));
    }
}

fn unpin(w: &mut Writer, versions: &mut Vec<(Version, Sets)>, notices: &Receiver<Notice>) {
    if versions.is_empty() {
        return;
    }
    let (version, sets) = versions.swap_remove(w.random.below(versions.len() as u64) as usize);
    let epoch = version.epoch();
    assert_eq!(Sets::of(version.snapshot()), sets);
    let due = w.model.unpin(epoch).map(|ready| Notice { epoch, ready });
    drop(version);
    assert_eq!(notices.try_recv().ok(), due);
    *w.numbers.entry(("unpin", u32::from(due.is_some()))).or_default() += 1;
}

fn vacuum(w: &mut Writer) {
    let (pairs, vectors) = (w.model.ready(), w.model.ready_vectors());
    let done = w.vacuum();
    assert!(done.rowsets.iter().map(|(t, r)| (t.0, r.0)).eq(pairs));
    assert!(done.dvs.iter().map(|(t, r, v)| (t.0, r.0, v.0)).eq(vectors));
}

// What the readers may find: the sets of each epoch since the last reopen.
#[derive(Default)]
struct Board {
    epochs: Mutex<HashMap<u32, Arc<Sets>>>,
    // Pins that are surely there, each under a number of its own.
    pins: Mutex<BTreeMap<u64, u32>>,
    number: AtomicU64,
    // A reopen waits until nobody has a pin.
    reopening: RwLock<()>,
    done: AtomicBool,
    pinned: AtomicUsize,
    read: AtomicUsize,
}

fn reader(manager: &VersionManager, board: &Board, seed: u64) {
    let mut random = Random(seed);
    while !board.done.load(Ordering::Relaxed) {
        let _open = board.reopening.read().expect("no reader panics");
        let mut held = Vec::new();
        for _ in 0..1 + random.below(6) {
            let Ok(version) = manager.pin() else { continue };
            let number = board.number.fetch_add(1, Ordering::Relaxed);
            board.pins.lock().expect("no panic").insert(number, version.epoch());
            board.pinned.fetch_add(1, Ordering::Relaxed);
            held.push((number, version));
            if random.one_in(3) {
                std::thread::yield_now();
            }
        }
        for (number, version) in held {
            let expected = board.epochs.lock().expect("no panic").get(&version.epoch()).cloned();
            assert_eq!(Some(Sets::of(version.snapshot())).as_ref(), expected.as_deref(), "epoch {}", version.epoch());
            board.read.fetch_add(1, Ordering::Relaxed);
            board.pins.lock().expect("no panic").remove(&number);
        }
    }
}

#[test]
fn with_readers() {
    write_beside_readers(&Folder::in_memory("readers"), 60_000, 20_000);
}

#[test]
fn with_readers_on_disk() {
    write_beside_readers(&Folder::on_disk("readers"), 1_000, 1_000);
}

fn write_beside_readers(folder: &Folder, least_turns: usize, least_pins: usize) {
    let manager = Arc::new(folder.open());
    let board = Arc::new(Board::default());
    let mut w = Writer::new(manager.clone(), 5);
    board.epochs.lock().expect("no panic").insert(1, Arc::default());
    let readers: Vec<_> = (1..=3)
        .map(|seed| {
            let (manager, board) = (manager.clone(), board.clone());
            std::thread::spawn(move || reader(&manager, &board, seed * 77))
        })
        .collect();

    let (mut turns, seldom) = (0, least_turns as u64 / 10);
    let announce = |after: &Model| {
        board.epochs.lock().expect("no panic").insert(after.epoch, Arc::new(after.sets.clone()));
    };
    while turns < least_turns || board.pinned.load(Ordering::Relaxed) < least_pins {
        turns += 1;
        match w.random.below(10) {
            0..3 => w.draw(),
            3..8 => {
                let before = w.model.clone();
                w.change(&announce);
                // A refused change shows nothing anew: the epoch is the old one.
                announce(if w.model.epoch == before.epoch { &before } else { &w.model });
            }
            _ => vacuum_beside_pins(&mut w, &board),
        }
        if w.full || w.random.one_in(seldom) {
            // Beside the readers and their pins.
            w.checkpoint();
        }
        if w.random.one_in(seldom) {
            let _alone = board.reopening.write().expect("no reader panics");
            w.reopen();
            let mut epochs = board.epochs.lock().expect("no panic");
            epochs.clear();
            epochs.insert(1, Arc::new(w.model.sets.clone()));
        }
    }
    board.done.store(true, Ordering::Relaxed);
    for reader in readers {
        reader.join().expect("a reader");
    }
    assert_eq!(manager.pinned(), []);
    let all: Vec<(u32, u32)> = w.model.waiting.iter().map(|(_, t, r)| (*t, *r)).collect();
    let listed: Vec<(u32, u32)> = w.vacuum().rowsets.iter().map(|(t, r)| (t.0, r.0)).collect();
    assert_eq!(listed, all);
    let (pinned, read) = (board.pinned.load(Ordering::Relaxed), board.read.load(Ordering::Relaxed));
    let calls = w.numbers.values().sum::<usize>() + 2 * pinned;
    println!("with readers: {calls} calls, {pinned} pins of 3 readers, {read} compared; {:?}", w.numbers);
}

// Whatever a pin that was there all the while shows is not listed.
fn vacuum_beside_pins(w: &mut Writer, board: &Board) {
    let before = board.pins.lock().expect("no panic").clone();
    let waiting = w.model.waiting.clone();
    let done = w.vacuum();
    let after = board.pins.lock().expect("no panic").clone();
    let lowest = before.iter().filter(|(n, _)| after.contains_key(n)).map(|(_, epoch)| *epoch).min();
    let mut listed = Vec::new();
    for (t, r) in &done.rowsets {
        let deletion = waiting.iter().find(|w| (w.1, w.2) == (t.0, r.0)).expect("a deletion that waits");
        assert!(lowest.is_none_or(|pin| deletion.0 <= pin), "listed beside a pin that shows it");
        listed.push(*deletion);
    }
    assert!(listed.is_sorted());
}
