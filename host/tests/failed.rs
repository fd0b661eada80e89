//! Steps of an append or a rewrite that fail. An append that comes short is taken back and the store goes on; where it is not known
//! what landed, or which manifest stands, nothing follows before a reopen.
mod common;
use common::*;
use seqapti::faults::{self, Fault, Plan};
use seqapti::*;

fn fault(at: usize, landed: usize) -> Plan {
    Plan { at, fault: Fault::Error, landed }
}

fn fail(at: usize, landed: usize) {
    faults::plan([fault(at, landed)]);
}

fn with_a_table(folder: &Folder) -> VersionManager {
    let manager = folder.open();
    manager.create_table("slots", 7).expect("a table");
    let id = manager.draw_rowset_id().expect("an id");
    manager.commit_changes([add(0, id)]).expect("a commit");
    manager
}

fn is_io<T>(told: StorageResult<T>) -> bool {
    matches!(told, Err(StorageError::Io { .. }))
}

fn is_poisoned<T>(told: StorageResult<T>) -> bool {
    matches!(told, Err(StorageError::Poisoned))
}

fn bytes(folder: &Folder) -> Vec<u8> {
    std::fs::read(folder.manifest()).expect("the manifest")
}

// What a call that committed was told where the disk did not take all of it: how much it took, of how much.
fn short<T: std::fmt::Debug>(told: StorageResult<T>) -> (usize, usize) {
    match told {
        Err(StorageError::NotCommitted { landed, length, .. }) => (landed, length),
        other => panic!("not short: {other:?}"),
    }
}

const SHORT: [&str; 3] = ["append", "find end", "sync landed"];
const WHOLE: [&str; 2] = ["append", "sync append"];

// A store with two tables, the lock of the first held, two epochs pinned and a deletion that waits for one of them. The calls that
// commit are made of it.
struct Day {
    folder: Folder,
    manager: VersionManager,
    lock: TableLock,
    versions: Vec<Version>,
    drawn: RowsetId,
    dv: VectorId,
}

impl Day {
    fn begin() -> Day {
        let folder = Folder::in_memory("day");
        let manager = with_a_table(&folder);
        manager.create_table("rides", 9).expect("a table");
        let ids: Vec<RowsetId> = (0..4).map(|_| manager.draw_rowset_id().expect("an id")).collect();
        manager.commit_changes(ids[..3].iter().map(|r| add(0, *r)).collect::<Vec<_>>()).expect("a commit");
        let dvs = manager.group_deletes(&[SecondaryRowHandler(ids[0], RowId(5))]).expect("a vector");
        let dv = dvs[0].vector.dv_id();
        manager.commit_changes([EpochOp::add_dv(TableId(0), ids[0], dv)]).expect("a commit");
        let mut versions = vec![manager.pin().expect("a pin")];
        manager.commit_changes([delete(0, 0)]).expect("a commit");
        versions.push(manager.pin().expect("a pin"));
        let lock = manager.lock_table(TableId(0)).expect("a lock");
        Day { folder, manager, lock, versions, drawn: ids[3], dv }
    }

    const CALLS: usize = 5;

    // The n-th of the calls that commit; the epoch, or a table's id.
    fn call(&self, n: usize) -> StorageResult<u32> {
        let slots = TableId(0);
        match n {
            0 => self.manager.commit_changes([]),
            1 => self.manager.commit_changes([
                EpochOp::delete_dv(slots, RowsetId(1), self.dv),
                delete(0, 1),
                add(0, self.drawn),
                add(1, self.drawn),
            ]),
            2 => self.manager.create_table("staff_of_the_park", 3).map(|t| t.0),
            3 => self.manager.drop_table(slots),
            _ => self.manager.compact(&self.lock, Some(self.drawn), &[RowsetId(1), RowsetId(2)]),
        }
    }

    // All that can be asked without a change.
    fn state(&self) -> (u32, NextIds, Vec<(u32, u16)>, Sets) {
        let m = &self.manager;
        (m.epoch(), m.next_ids(), m.pinned(), Sets::now(m))
    }

    fn pinned_sets(&self) -> Vec<Sets> {
        self.versions.iter().map(|v| Sets::of(v.snapshot())).collect()
    }
}

// What each call appends and leaves, where nothing fails.
fn whole(n: usize) -> (Vec<u8>, Sets) {
    let day = Day::begin();
    let before = bytes(&day.folder).len();
    day.call(n).expect("a change");
    (bytes(&day.folder)[before..].to_vec(), Sets::now(&day.manager))
}

// The disk takes so many bytes of it, and the error says so. All else is as it was before the call.
fn comes_short(day: &Day, n: usize, append: &[u8], landed: usize) {
    let (state, pinned, file) = (day.state(), day.pinned_sets(), bytes(&day.folder));
    fail(0, landed);
    assert_eq!(short(day.call(n)), (landed, append.len()));
    assert_eq!(faults::passed(), SHORT);
    faults::plan(None);
    assert!(!day.manager.is_poisoned());
    assert_eq!((day.state(), day.pinned_sets()), (state, pinned));
    assert_eq!(bytes(&day.folder), [&file[..], &append[..landed]].concat());
    assert_eq!(day.manager.manifest_len(), file.len() + landed);
    // A lock that the call would have freed is held.
    assert_eq!(day.manager.lock_table(TableId(0)).err().and_then(|e| e.number()), Some(25));
}

fn opens_to(folder: &Folder, sets: &Sets) {
    let copy = Folder::in_memory("copy");
    copy.write_manifest(&bytes(folder));
    assert_eq!(Sets::now(&copy.open()), *sets);
}

#[test]
fn an_append_that_comes_short_at_every_byte() {
    let mut tries = 0;
    for n in 0..Day::CALLS {
        let (append, after) = whole(n);
        for landed in 0..append.len() {
            let mut day = Day::begin();
            let before = Sets::now(&day.manager);
            let notices = day.manager.take_notices().expect("the notices");
            comes_short(&day, n, &append, landed);
            opens_to(&day.folder, &before);
            // Nothing waits but what waited before.
            let waiting = day.versions.remove(0);
            let epoch = waiting.epoch();
            drop(waiting);
            assert_eq!(notices.try_recv(), Ok(Notice { epoch, ready: 1 }));
            assert_eq!(day.manager.find_vacuum().expect("a vacuum"), [(TableId(0), RowsetId(0))]);

            // The same call again, with the same ids.
            let file = bytes(&day.folder);
            faults::plan(None);
            day.call(n).expect("a change");
            assert_eq!(faults::passed(), WHOLE);
            assert_eq!(bytes(&day.folder), [&file[..], &append].concat());
            assert_eq!(Sets::now(&day.manager), after);
            opens_to(&day.folder, &after);

            // Then another, and the store opened again.
            day.manager.create_table("evening", 1).expect("a table");
            let evening = Sets::now(&day.manager);
            let Day { folder, manager, lock, versions, .. } = day;
            drop((manager, lock, versions));
            let manager = folder.open();
            assert_eq!(Sets::now(&manager), evening);
            assert_eq!(bytes(&folder).iter().filter(|b| **b == b'!').count(), 0, "an opening leaves no short append");
            tries += 1;
        }
    }
    println!("short appends: {tries}, each followed by the same change and an opening");
}

#[test]
fn appends_that_come_short_one_after_another() {
    let (append, after) = whole(1);
    let (other, _) = whole(0);
    let mut tries = 0;
    for first in 0..append.len() {
        for second in 0..other.len() {
            let day = Day::begin();
            let before = Sets::now(&day.manager);
            comes_short(&day, 1, &append, first);
            comes_short(&day, 0, &other, second);
            opens_to(&day.folder, &before);
            // The disk is still full, and then it is not.
            comes_short(&day, 1, &append, 0);
            day.call(1).expect("a change");
            assert_eq!(Sets::now(&day.manager), after);
            opens_to(&day.folder, &after);
            tries += 1;
        }
    }
    println!("short appends: {tries} times three in a row");
}

#[test]
fn any_call_may_follow_a_short_append() {
    let (append, _) = whole(4);
    for landed in 0..append.len() {
        let day = Day::begin();
        let before = Sets::now(&day.manager);
        comes_short(&day, 4, &append, landed);
        let m = &day.manager;
        let version = m.pin().expect("a pin");
        assert_eq!(Sets::of(version.snapshot()), before);
        assert_eq!(m.draw_rowset_id().expect("an id").0, day.drawn.0 + 1);
        m.group_deletes(&[SecondaryRowHandler(RowsetId(1), RowId(1))]).expect("a vector");
        drop(m.lock_table(TableId(1)).expect("a lock"));
        drop(version);
        assert_eq!(m.find_vacuum().expect("a vacuum"), []);
        match landed % 3 {
            // What landed is not in the new manifest.
            0 => {
                let rewritten = m.checkpoint().expect("a checkpoint");
                assert_eq!((m.manifest_len(), bytes(&day.folder).len()), (rewritten, rewritten));
                assert!(!bytes(&day.folder).contains(&b'!'));
                day.call(4).expect("a compaction by the same lock");
            }
            1 => {
                m.drop_table(TableId(1)).expect("a drop");
            }
            _ => {
                assert!(matches!(m.reopen(), Err(StorageError::Pinned { epochs: 2 })));
                let Day { folder, manager, versions, .. } = day;
                drop(versions);
                manager.reopen().expect("a reopen");
                assert_eq!(Sets::now(&manager), before);
                manager.commit_changes([]).expect("a commit");
                assert_eq!(Sets::now(&manager), before);
                opens_to(&folder, &before);
                continue;
            }
        }
        opens_to(&day.folder, &Sets::now(m));
    }
}

// The length that a manifest keeps counts what landed, so a disk that stays full can fill it; a checkpoint makes it short.
#[test]
fn short_appends_fill_the_manifest() {
    let folder = Folder::in_memory("fill");
    let manager = with_a_table(&folder);
    let sets = Sets::now(&manager);
    let told = loop {
        fail(0, 5);
        match manager.commit_changes([]) {
            Err(StorageError::NotCommitted { landed: 5, length: 6, .. }) => {}
            other => break other,
        }
    };
    faults::plan(None);
    assert_eq!(told.err().and_then(|e| e.refusal()), Some(Refusal::ManifestFull));
    assert_eq!((bytes(&folder).len(), Sets::now(&manager)), (manager.manifest_len(), sets.clone()));
    opens_to(&folder, &sets);
    manager.checkpoint().expect("a checkpoint");
    manager.commit_changes([]).expect("a commit");
    opens_to(&folder, &sets);
}

// Every way in which it is not known what is on disk: the sync of a whole append, the length or the sync of a part, a write
// that fails after all bytes, and a file that has not the length it had.
#[test]
fn an_append_that_may_have_landed_is_followed_by_none() {
    let folder = Folder::in_memory("failed");
    let mut manager = with_a_table(&folder);
    let mut tries = 0;
    let whole_frame = |id: RowsetId| format!("!\nB\nA,0,{id}\nE\n").len();
    let mut plans: Vec<Vec<Plan>> = vec![vec![fault(1, 0)], vec![fault(0, 1000)]];
    plans.extend((0..=12).map(|landed| vec![fault(0, landed), fault(1, 0)]));
    plans.extend((0..=12).map(|landed| vec![fault(0, landed), fault(2, 0)]));
    // The last of these is a file that somebody cut.
    plans.push(vec![fault(0, 0)]);
    let last = plans.len() - 1;
    for (n, plans) in plans.into_iter().enumerate() {
        let before = Sets::now(&manager);
        let lock = manager.lock_table(TableId(0)).expect("a lock");
        let id = manager.draw_rowset_id().expect("an id");
        let epoch = manager.epoch();
        let landed = plans.first().filter(|p| p.at == 0).map_or(1000, |p| p.landed);
        if n == last {
            let file = std::fs::File::options().write(true).open(folder.manifest()).expect("the manifest");
            file.set_len(manager.manifest_len() as u64 - 1).expect("a cut");
        }
        faults::plan(plans);
        assert!(is_io(manager.commit_changes([add(0, id)])), "{n}");
        faults::plan(None);

        assert!(manager.is_poisoned());
        assert!(is_poisoned(manager.commit_changes([])));
        assert!(is_poisoned(manager.create_table("rides", 1)));
        assert!(is_poisoned(manager.drop_table(TableId(0))));
        assert!(is_poisoned(manager.compact(&lock, None, &[])));
        assert!(is_poisoned(manager.checkpoint()));
        assert!(is_poisoned(manager.vacuum()));
        assert!(is_poisoned(manager.draw_rowset_id()));
        assert!(is_poisoned(manager.draw_dv_id()));
        assert!(is_poisoned(manager.group_deletes(&[])));
        assert!(is_poisoned(manager.lock_table(TableId(0))));
        assert_eq!(faults::passed(), [] as [&str; 0], "no step was tried");
        // What was committed before can still be pinned and read.
        let version = manager.pin().expect("a pin");
        assert_eq!((version.epoch(), Sets::of(version.snapshot())), (epoch, before.clone()));
        assert!(matches!(manager.reopen(), Err(StorageError::Pinned { epochs: 1 })));
        drop(version);

        // After a reopen the commit has happened whole or not at all: as many bytes as landed say which.
        if tries % 2 == 0 {
            manager.reopen().expect("a reopen");
            drop(lock);
        } else {
            drop((lock, manager));
            manager = folder.open();
        }
        let mut expected = before;
        if n == last {
            // The cut took the end of the last frame.
            expected = Sets::now(&manager);
        } else if landed >= whole_frame(id) {
            expected.pairs.insert((0, id.0));
        }
        assert_eq!(Sets::now(&manager), expected, "{n}: {landed} landed");
        let id = manager.draw_rowset_id().expect("an id");
        manager.commit_changes([add(0, id)]).expect("a commit");
        manager.commit_changes([delete(0, id.0)]).expect("a commit");
        tries += 1;
    }
    println!("appends that may have landed: {tries}, each followed by a reopen");
}

const REWRITE: [&str; 5] = ["create temporary", "write temporary", "sync temporary", "rename", "sync folder"];
const RENAME: usize = 3;

#[test]
fn a_rewrite_that_fails_leaves_the_store() {
    let folder = Folder::in_memory("rewrite");
    let manager = with_a_table(&folder);
    let sets = Sets::now(&manager);
    faults::plan(None);
    drop(manager);
    drop(folder.open());
    assert_eq!(faults::passed(), REWRITE);
    let steps = REWRITE.len();
    for at in 0..steps {
        fail(at, 5);
        assert!(is_io(VersionManager::open(folder.store())));
        faults::plan(None);
        let manager = folder.open();
        assert_eq!(Sets::now(&manager), sets);

        // In place: poisoned until one succeeds.
        fail(at, 5);
        assert!(is_io(manager.reopen()));
        faults::plan(None);
        assert!(is_poisoned(manager.commit_changes([])));
        manager.reopen().expect("a reopen");
        assert_eq!(Sets::now(&manager), sets);
        manager.commit_changes([]).expect("a commit");
    }
    println!("failed rewrites: {steps} steps, opening and reopening");
}

// Before the rename the old manifest stands, and the store goes on with it.
#[test]
fn a_checkpoint_that_cannot_be_written_changes_nothing() {
    let folder = Folder::in_memory("written");
    let manager = with_a_table(&folder);
    let mut tries = 0;
    for (at, landed) in [(0, 0), (1, 0), (1, 5), (1, 1000), (2, 0)] {
        let id = manager.draw_rowset_id().expect("an id");
        manager.commit_changes([add(0, id)]).expect("a commit");
        let version = manager.pin().expect("a pin");
        manager.commit_changes([delete(0, id.0)]).expect("a commit");
        let held = || (manager.epoch(), manager.next_ids(), manager.pinned(), manager.manifest_len());
        let (before, sets, file) = (held(), Sets::now(&manager), bytes(&folder));
        fail(at, landed);
        assert!(is_io(manager.checkpoint()));
        assert_eq!(faults::passed(), REWRITE[..=at]);
        faults::plan(None);

        assert!(!manager.is_poisoned());
        assert_eq!((held(), Sets::now(&manager)), (before, sets));
        assert_eq!(bytes(&folder), file);
        assert!(!folder.store().join("manifest.tmp").exists());
        manager.commit_changes([]).expect("a commit");
        assert_eq!(bytes(&folder), [&file[..], b"!\nB\nE\n"].concat());
        drop(version);
        assert_eq!(manager.find_vacuum().expect("a vacuum"), [(TableId(0), id)]);
        if tries % 2 == 0 {
            assert_eq!(manager.checkpoint().expect("a checkpoint"), manager.manifest_len());
        }
        tries += 1;
    }
    let sets = Sets::now(&manager);
    drop(manager);
    assert_eq!(Sets::now(&folder.open()), sets);
    println!("failed checkpoints: {tries} before the rename");
}

// From the rename on the old manifest may stand or the new one.
#[test]
fn a_checkpoint_that_may_have_landed_is_followed_by_a_reopen() {
    let folder = Folder::in_memory("landed");
    let mut manager = with_a_table(&folder);
    let mut tries = 0;
    for (at, again) in [(RENAME, false), (RENAME, true), (RENAME + 1, false), (RENAME + 1, true)] {
        let version = manager.pin().expect("a pin");
        let id = manager.draw_rowset_id().expect("an id");
        manager.commit_changes([add(0, id)]).expect("a commit");
        manager.draw_rowset_id().expect("an id that is never committed");
        let (epoch, sets, length) = (manager.epoch(), Sets::now(&manager), manager.manifest_len());
        fail(at, 0);
        assert!(is_io(manager.checkpoint()));
        assert_eq!(faults::passed(), REWRITE[..=at]);
        faults::plan(None);

        assert!(manager.is_poisoned());
        assert!(is_poisoned(manager.checkpoint()) && is_poisoned(manager.commit_changes([])));
        assert!(is_poisoned(manager.vacuum()) && is_poisoned(manager.draw_rowset_id()));
        assert_eq!(faults::passed(), [] as [&str; 0], "no step was tried");
        assert_eq!((manager.epoch(), Sets::now(&manager), manager.manifest_len()), (epoch, sets.clone(), length));
        drop((manager.pin().expect("a pin"), version));

        // The next ids of the new manifest are those drawn, of the old one those committed.
        if again {
            manager.reopen().expect("a reopen");
        } else {
            drop(manager);
            manager = folder.open();
        }
        assert_eq!(Sets::now(&manager), sets);
        assert_eq!(manager.next_ids().rowset.0, id.0 + if at == RENAME { 1 } else { 2 });
        manager.commit_changes([]).expect("a commit");
        manager.checkpoint().expect("a checkpoint");
        tries += 1;
    }
    println!("failed checkpoints: {tries} from the rename on, each followed by a reopen");
}

#[test]
fn a_vector_file_that_fails_changes_nothing() {
    let folder = Folder::in_memory("vector");
    let manager = with_a_table(&folder);
    let grouped = manager.group_deletes(&[SecondaryRowHandler(RowsetId(0), RowId(300))]).expect("a vector");
    fail(0, 2);
    assert!(is_io(manager.write_dvs(TableId(0), &grouped)));
    faults::plan(None);
    assert!(!manager.is_poisoned());
    // The part that landed is written over.
    manager.write_dvs(TableId(0), &grouped).expect("a file");
    let vector = &grouped[0].vector;
    assert_eq!(manager.read_dv(TableId(0), RowsetId(0), vector.dv_id()).expect("a vector"), *vector);
}
