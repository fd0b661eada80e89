//! Each call once or more, on a store in memory, with its refusals.
mod common;
use common::*;
use seqapti::*;
use std::sync::Arc;
use std::time::Duration;

fn number<T: std::fmt::Debug>(told: StorageResult<T>) -> (u32, usize) {
    match told {
        Err(StorageError::Refused { refusal, place }) => (refusal.number(), place),
        other => panic!("no refusal: {other:?}"),
    }
}

// A table and rowsets 0, 1, .. in it.
fn store(rowsets: usize) -> VersionManager {
    let manager = VersionManager::new_mock().expect("a mock");
    fill(&manager, rowsets);
    manager
}

fn fill(manager: &VersionManager, rowsets: usize) {
    manager.create_table("slots", 7).expect("a table");
    let ops: Vec<EpochOp> = (0..rowsets).map(|_| add(0, manager.draw_rowset_id().expect("an id"))).collect();
    manager.commit_changes(ops).expect("a commit");
}

const SLOTS: TableId = TableId(0);

#[test]
fn refusals_have_numbers_and_sentences() {
    assert!(Refusal::ALL.iter().map(|r| r.number()).eq((1..30).chain([31])));
    for refusal in Refusal::ALL {
        assert_eq!(Refusal::from_number(refusal.number()), Some(refusal));
        assert!(refusal.sentence().ends_with('.'));
    }
    assert_eq!((Refusal::from_number(0), Refusal::from_number(30)), (None, None));
    let told = store(0).drop_table(TableId(4)).expect_err("a refusal");
    assert_eq!(told.to_string(), "refused (11, place 0): The table is not live.");
}

#[test]
fn lines() {
    let (t, r, v) = (TableId(1), RowsetId(20), VectorId(u64::MAX));
    let ops = [
        (EpochOp::create_table(t, 7, "slots"), "T,1,7,slots"),
        (EpochOp::drop_table(t), "X,1"),
        (EpochOp::add_rowset(t, r), "A,1,20"),
        (EpochOp::delete_rowset(t, r), "D,1,20"),
        (EpochOp::add_dv(t, r, v), "V,1,20,18446744073709551615"),
        (EpochOp::delete_dv(t, RowsetId(0), VectorId(0)), "W,1,0,0"),
    ];
    for (op, line) in ops {
        assert_eq!(op.line(), line);
    }
}

#[test]
fn no_name_becomes_an_operation() {
    let manager = store(1);
    for name in ["a\nX,0", "a\nX,0\n", "\n", "", "a,b", "A", "a b", "ü", &"a".repeat(33), "a\r"] {
        let op = EpochOp::create_table(TableId(1), 0, name);
        assert_eq!(number(manager.commit_changes([add(0, RowsetId(9)), op.clone()])), (14, 0));
        assert_eq!(
            number(manager.commit_changes([EpochOp::create_table(TableId(1), 0, "fine"), op])),
            (2, 1),
            "{name:?}"
        );
        assert_eq!(number(manager.create_table(name, 0)), (2, 0), "{name:?}");
    }
    assert_eq!(manager.tables().expect("the tables").len(), 1);
    manager.create_table(&"a".repeat(32), u32::MAX).expect("a name of 32 bytes");
    assert_eq!(manager.tables().expect("the tables")[1].table_name, "a".repeat(32));
    assert_eq!(manager.tables().expect("the tables")[1].shape, u32::MAX);
}

#[test]
fn commits_are_refused_with_their_place() {
    let manager = store(2);
    let none = VectorId(0);
    assert_eq!(number(manager.commit_changes([add(0, RowsetId(u32::MAX))])), (2, 0));
    assert_eq!(number(manager.commit_changes([delete(0, 0), add(5, RowsetId(0))])), (11, 1));
    assert_eq!(number(manager.commit_changes([delete(0, 0), delete(0, 0)])), (12, 1));
    assert_eq!(number(manager.commit_changes([EpochOp::delete_dv(SLOTS, RowsetId(0), none)])), (13, 0));
    assert_eq!(number(manager.commit_changes([EpochOp::add_dv(SLOTS, RowsetId(0), none)])), (14, 0));
    assert_eq!(number(manager.commit_changes([EpochOp::create_table(TableId(1), 0, "slots")])), (15, 0));
    assert_eq!(number(manager.commit_changes([delete(0, 0), add(0, RowsetId(0))])), (16, 1));
    assert_eq!(number(manager.commit_changes([EpochOp::drop_table(SLOTS)])), (17, 0));
    assert_eq!(number(manager.commit_changes(vec![delete(0, 9); 601])), (6, 0));
    assert_eq!(number(manager.commit_changes(vec![delete(0, 9); 100_000])), (6, 0));
    assert_eq!((manager.epoch(), Sets::now(&manager).pairs.len()), (3, 2));

    let many: Vec<EpochOp> = (0..254).map(|_| add(0, manager.draw_rowset_id().expect("an id"))).collect();
    assert_eq!(manager.commit_changes(&many).expect("256 rowsets"), 4);
    let one_more = manager.draw_rowset_id().expect("an id");
    assert_eq!(number(manager.commit_changes([add(0, one_more)])), (22, 0));
}

#[test]
fn versions_keep_what_they_show() {
    let manager = store(2);
    let notices = manager.take_notices().expect("the notices");
    assert!(manager.take_notices().is_none());
    let version = manager.pin().expect("a pin");
    let again = manager.pin().expect("a second pin");
    assert!(Arc::ptr_eq(version.snapshot(), again.snapshot()), "one snapshot an epoch");
    assert_eq!(manager.pinned(), [(version.epoch(), 2)]);
    manager.commit_changes([delete(0, 0)]).expect("a commit");
    assert_eq!(manager.find_vacuum().expect("a vacuum"), []);
    assert_eq!(version.snapshot().get_rowsets_of(SLOTS), Some(&[RowsetId(0), RowsetId(1)][..]));
    assert_eq!(manager.snapshot().expect("now").get_rowsets_of(SLOTS), Some(&[RowsetId(1)][..]));
    assert_eq!(version.snapshot().get_rowsets_of(TableId(1)), None);
    assert_eq!(version.snapshot().get_dvs_of(SLOTS, RowsetId(0)), None);
    drop(again);
    assert!(notices.try_recv().is_err());
    let epoch = version.epoch();
    drop(version);
    assert_eq!(notices.try_recv(), Ok(Notice { epoch, ready: 1 }));
    assert_eq!(manager.find_vacuum().expect("a vacuum"), [(SLOTS, RowsetId(0))]);
    assert_eq!(manager.find_vacuum().expect("a vacuum"), []);
}

#[test]
fn versions_outlive_their_manager_on_any_thread() {
    let manager = store(3);
    let notices = manager.take_notices().expect("the notices");
    let versions: Vec<Version> = (0..10).map(|_| manager.pin().expect("a pin")).collect();
    let lock = manager.lock_table(SLOTS).expect("a lock");
    manager.commit_changes([delete(0, 2)]).expect("a commit");
    drop(manager);
    let readers = versions.into_iter().map(|v| std::thread::spawn(move || v.snapshot().rowsets().count()));
    for reader in readers.collect::<Vec<_>>() {
        assert_eq!(reader.join().expect("a reader"), 3);
    }
    drop(lock);
    assert_eq!(notices.iter().map(|n| n.ready).collect::<Vec<_>>(), [1], "the last pin's notice, and then no sender");
}

#[test]
fn pins_have_limits() {
    let manager = store(0);
    let mut versions = Vec::new();
    for _ in 0..64 {
        versions.push(manager.pin().expect("a pin"));
        manager.commit_changes([]).expect("a commit");
    }
    assert_eq!(number(manager.pin()), (19, 0));
    versions.pop();
    versions.extend((0..65_535).map(|_| manager.pin().expect("a pin")));
    assert_eq!(number(manager.pin()), (18, 0));
    drop(versions);
    assert_eq!(manager.pinned(), []);
}

#[test]
fn nobody_has_to_listen() {
    let manager = store(1);
    drop(manager.take_notices());
    let version = manager.pin().expect("a pin");
    manager.commit_changes([delete(0, 0)]).expect("a commit");
    drop(version);
    assert_eq!(manager.find_vacuum().expect("a vacuum").len(), 1);
}

#[test]
fn locks_give_themselves_back() {
    let manager = Arc::new(store(1));
    assert_eq!(number(manager.lock_table(TableId(1))), (11, 0));
    assert_eq!(number(manager.lock_table(TableId(u32::MAX))), (2, 0));
    let lock = manager.lock_table(SLOTS).expect("a lock");
    assert_eq!(number(manager.lock_table(SLOTS)), (25, 0));
    let waiting = {
        let manager = manager.clone();
        std::thread::spawn(move || manager.lock_table_blocking(SLOTS).map(|lock| lock.table_id()))
    };
    std::thread::sleep(Duration::from_millis(20));
    assert!(!waiting.is_finished());
    drop(lock);
    assert_eq!(waiting.join().expect("a thread").expect("the lock"), SLOTS);

    // A dropped table's lock is nobody's, and who waits for it is told.
    let lock = manager.lock_table(SLOTS).expect("a lock");
    let waiting = {
        let manager = manager.clone();
        std::thread::spawn(move || number(manager.lock_table_blocking(SLOTS)))
    };
    manager.drop_table(SLOTS).expect("a drop");
    assert_eq!(waiting.join().expect("a thread"), (11, 0));
    drop(lock);

    // A lock from before a reopen gives nothing back.
    let rides = manager.create_table("rides", 1).expect("a table");
    let old = manager.lock_table(rides).expect("a lock");
    manager.reopen().expect("a reopen");
    let new = manager.lock_table(rides).expect("a lock");
    assert_eq!(number(manager.compact(&old, None, &[])), (27, 0));
    drop(old);
    assert_eq!(number(manager.lock_table(rides)), (25, 0));
    drop(new);
    manager.lock_table(rides).expect("a lock");
}

#[test]
fn selection_and_compaction() {
    let manager = store(3);
    let sizes = [40, 70, 20];
    let sized: Vec<(RowsetId, u64)> = (0..3).map(|i| (RowsetId(i), sizes[i as usize])).collect();
    assert_eq!(manager.select(SLOTS, 60, &sized).expect("a selection"), [RowsetId(0), RowsetId(2)]);
    assert_eq!(manager.select(SLOTS, 59, &sized).expect("a selection"), []);
    assert_eq!(number(manager.select(SLOTS, 60, &sized[..2])), (8, 0));
    let others = [(RowsetId(0), 1), (RowsetId(1), 1), (RowsetId(9), 1)];
    assert_eq!(number(manager.select(SLOTS, 60, &others)), (8, 0), "sizes of other rowsets");
    assert_eq!(number(manager.select(TableId(3), 60, &[])), (11, 0));
    assert_eq!(
        manager
            .select(SLOTS, u64::MAX, &[(RowsetId(0), u64::MAX), (RowsetId(1), 1), (RowsetId(2), 0)])
            .expect("an exact sum")
            .len(),
        2
    );

    let dvs = manager.group_deletes(&[SecondaryRowHandler(RowsetId(0), RowId(1))]).expect("a vector");
    let dv_id = dvs[0].vector.dv_id();
    manager.commit_changes([EpochOp::add_dv(SLOTS, RowsetId(0), dv_id)]).expect("a commit");
    assert_eq!(manager.select(SLOTS, 59, &sized).expect("a selection"), [RowsetId(0)], "a vector lies over it");
    let lock = manager.lock_table(SLOTS).expect("a lock");
    let new = manager.draw_rowset_id().expect("an id");
    assert_eq!(number(manager.compact(&lock, Some(new), &[RowsetId(2), RowsetId(0)])), (2, 0), "they have to rise");
    assert_eq!(number(manager.compact(&lock, Some(RowsetId(99)), &[])), (14, 0));
    assert_eq!(number(manager.compact(&lock, Some(new), &[new])), (12, 0));
    manager.compact(&lock, Some(new), &[RowsetId(0), RowsetId(2)]).expect("a compaction");
    let shown = Sets::now(&manager);
    assert_eq!(shown.pairs, [(0, 1), (0, new.0)].into());
    assert!(shown.vectors.is_empty(), "the vectors go with their rowsets");
    let done = manager.vacuum().expect("a vacuum");
    assert_eq!(done.rowsets, [(SLOTS, RowsetId(0)), (SLOTS, RowsetId(2))]);
    assert_eq!(done.dvs, [(SLOTS, RowsetId(0), dv_id)]);

    let other = store(1);
    let alone = [(RowsetId(0), 9)];
    assert_eq!(other.select(SLOTS, 9, &alone).expect("a selection"), []);
    let over = other.group_deletes(&[SecondaryRowHandler(RowsetId(0), RowId(1))]).expect("a vector")[0].vector.dv_id();
    other.commit_changes([EpochOp::add_dv(SLOTS, RowsetId(0), over)]).expect("a commit");
    assert_eq!(other.select(SLOTS, 9, &alone).expect("a selection"), [RowsetId(0)]);
    assert_eq!(other.select(SLOTS, 8, &alone).expect("a selection"), [], "it does not fit");
    let pin = other.pin().expect("a pin");
    other.commit_changes([EpochOp::delete_dv(SLOTS, RowsetId(0), over)]).expect("a commit");
    assert_eq!(other.select(SLOTS, 9, &alone).expect("a selection"), [], "the vector waits");
    drop(pin);

    let foreign = other.lock_table(SLOTS).expect("a lock");
    assert_eq!(number(manager.compact(&foreign, None, &[])), (27, 0), "another store's lock");
}

// With an epoch pinned, a deletion that waits for it, a table's lock held and an id drawn.
fn goes_on_after_a_checkpoint(manager: &VersionManager) {
    fill(manager, 2);
    let notices = manager.take_notices().expect("the notices");
    let lock = manager.lock_table(SLOTS).expect("a lock");
    let version = manager.pin().expect("a pin");
    manager.commit_changes([delete(0, 0)]).expect("a commit");
    let drawn = manager.draw_rowset_id().expect("an id");
    while manager.commit_changes([]).is_ok() {}
    assert_eq!(number(manager.commit_changes([])), (23, 0));

    let held = || (manager.epoch(), manager.next_ids(), manager.pinned());
    let (before, snapshot) = (held(), manager.snapshot().expect("now"));
    let length = "B\nN,1,3,0\nT,0,7,slots\nA,0,1\nE\n".len();
    assert_eq!(manager.checkpoint().expect("a checkpoint"), length);
    assert_eq!((manager.manifest_len(), held()), (length, before));
    assert!(Arc::ptr_eq(&snapshot, &manager.snapshot().expect("now")));
    assert_eq!(number(manager.lock_table(SLOTS)), (25, 0));
    assert_eq!(manager.find_vacuum().expect("a vacuum"), [], "the pin shows what waits");

    let epoch = manager.epoch();
    assert_eq!(manager.commit_changes([add(0, drawn)]).expect("a commit"), epoch + 1);
    assert_eq!(version.snapshot().get_rowsets_of(SLOTS), Some(&[RowsetId(0), RowsetId(1)][..]));
    let epoch = version.epoch();
    drop(version);
    assert_eq!(notices.try_recv(), Ok(Notice { epoch, ready: 1 }));
    assert_eq!(manager.find_vacuum().expect("a vacuum"), [(SLOTS, RowsetId(0))]);
    manager.compact(&lock, None, &[RowsetId(1)]).expect("a compaction by the same lock");
    let sets = Sets::now(manager);
    assert_eq!(sets.pairs, [(0, drawn.0)].into());
    manager.reopen().expect("a reopen");
    assert_eq!(Sets::now(manager), sets);
}

#[test]
fn a_full_store_goes_on_after_a_checkpoint() {
    goes_on_after_a_checkpoint(&VersionManager::new_mock().expect("a mock"));
    goes_on_after_a_checkpoint(&Folder::in_memory("full").open());
}

#[test]
fn checkpoints_of_a_new_store_and_twice_in_a_row() {
    let folder = Folder::in_memory("checkpoint");
    let manager = folder.open();
    let checkpoint = || {
        let length = manager.checkpoint().expect("a checkpoint");
        let bytes = std::fs::read(folder.manifest()).expect("the manifest");
        assert_eq!((length, manager.manifest_len()), (bytes.len(), bytes.len()));
        assert!(!folder.store().join("manifest.tmp").exists());
        String::from_utf8(bytes).expect("text")
    };
    assert_eq!((checkpoint(), manager.epoch()), ("B\nN,0,0,0\nE\n".into(), 1));
    assert_eq!((checkpoint(), manager.epoch()), ("B\nN,0,0,0\nE\n".into(), 1));
    fill(&manager, 2);
    manager.group_deletes(&[SecondaryRowHandler(RowsetId(0), RowId(1))]).expect("a vector");
    manager.commit_changes([EpochOp::add_dv(SLOTS, RowsetId(1), VectorId(0))]).expect("a commit");
    manager.draw_dv_id().expect("an id");
    let text = "B\nN,1,2,2\nT,0,7,slots\nA,0,0\nA,0,1\nV,0,1,0\nE\n";
    assert_eq!((checkpoint(), checkpoint()), (text.into(), text.into()));
    manager.commit_changes([delete(0, 0)]).expect("a commit");
    let appended = std::fs::read(folder.manifest()).expect("the manifest");
    assert_eq!(appended, format!("{text}!\nB\nD,0,0\nE\n").as_bytes());
}

#[test]
fn deletes_are_grouped() {
    let manager = store(2);
    let handle = |r, row| SecondaryRowHandler(RowsetId(r), RowId(row));
    let handles = [handle(1, 128), handle(0, 1), handle(1, 0), handle(1, 128), handle(0, u32::MAX)];
    let grouped = manager.group_deletes(&handles).expect("vectors");
    assert_eq!(grouped.len(), 2);
    assert_eq!(
        grouped[0].vector,
        DeleteVector::new(VectorId(0), RowsetId(0), &[RowId(u32::MAX), RowId(1)]).expect("a vector")
    );
    assert_eq!(grouped[1].vector.deletes().collect::<Vec<_>>(), [RowId(0), RowId(128)]);
    assert_eq!(grouped[1].vector.dv_id(), VectorId(1));
    assert_eq!(grouped[1].file, [3, 8, 0x80, 1, 0, 3, 8, 0x80, 1], "the order and the repeats of the handles");
    assert_eq!(manager.draw_dv_id().expect("an id"), VectorId(2));
    assert_eq!(manager.group_deletes(&[]).expect("none"), []);
    assert_eq!(number(manager.group_deletes(&[handle(u32::MAX, 0)])), (2, 0));
    assert_eq!(number(manager.group_deletes(&[handle(0, 0); 4097])), (8, 0));
    let most: Vec<SecondaryRowHandler> = (0..4096).map(|i| handle(i % 300, u32::MAX - i)).collect();
    assert_eq!(manager.group_deletes(&most).expect("vectors").len(), 300);
    assert_eq!(SecondaryRowHandler::from(handle(u32::MAX, 7).as_i64()), handle(u32::MAX, 7));
}

#[test]
fn delete_vectors() {
    let rows = [0, 1, 128].map(RowId);
    let mut file = Vec::new();
    DeleteVector::write_all(&mut file, &rows).expect("a file");
    assert_eq!(file, [0, 2, 8, 1, 3, 8, 0x80, 1]);
    let vector = DeleteVector::read(VectorId(3), RowsetId(4), &file).expect("a vector");
    assert_eq!((vector.dv_id(), vector.rowset_id()), (VectorId(3), RowsetId(4)));
    assert_eq!(vector.deletes().collect::<Vec<_>>(), rows);
    let mut mask = [true; 4];
    DeleteVector::new(VectorId(0), RowsetId(0), &[5, 3].map(RowId))
        .expect("a vector")
        .apply_to(&mut mask, RowId(4))
        .expect("a mask");
    assert_eq!(mask, [true, false, true, true]);
    let mut mask = [7, 7];
    let last = DeleteVector::new(VectorId(0), RowsetId(0), &[0, u32::MAX].map(RowId)).expect("a vector");
    last.apply_to_bytes(&mut mask, RowId(u32::MAX)).expect("a mask");
    assert_eq!(mask, [0, 7], "a row that has wrapped clears nothing");
    last.apply_to(&mut [], RowId(0)).expect("an empty mask");

    let bad = |bytes: &[u8]| number(DeleteVector::read(VectorId(0), RowsetId(0), bytes));
    assert_eq!(bad(&[0, 2, 8, 0]), (7, 1));
    assert_eq!(bad(&[0; 4097]), (8, 0));
    assert_eq!(bad(&[9]), (7, 0));
    assert_eq!(number(DeleteVector::new(VectorId(0), RowsetId(0), &[RowId(0); 4097])), (8, 0));
    assert_eq!(number(DeleteVector::write_all(Vec::new(), &[RowId(0); 4097])), (8, 0));
    assert_eq!(DeleteVector::read(VectorId(0), RowsetId(0), &[0; 4096]).expect("a vector").deletes().len(), 1);
}

#[test]
fn ids_come_again_only_if_nothing_named_them() {
    let manager = store(0);
    let drawn: Vec<RowsetId> = (0..3).map(|_| manager.draw_rowset_id().expect("an id")).collect();
    manager.commit_changes([add(0, drawn[1])]).expect("a commit");
    manager.reopen().expect("a reopen");
    assert_eq!(manager.draw_rowset_id().expect("an id"), drawn[2]);
    manager.drop_table(SLOTS).expect("a drop");
    manager.reopen().expect("a reopen");
    assert_eq!(manager.create_table("slots", 7).expect("a table"), TableId(1));

    // A checkpoint names all that were drawn before it.
    let drawn = (manager.draw_rowset_id().expect("an id"), manager.draw_dv_id().expect("an id"));
    manager.checkpoint().expect("a checkpoint");
    manager.draw_rowset_id().expect("an id");
    manager.reopen().expect("a reopen");
    let next = manager.next_ids();
    assert_eq!((next.rowset, next.dv), (RowsetId(drawn.0 .0 + 1), VectorId(drawn.1 .0 + 1)));
}

#[test]
fn a_thread_that_panics_leaves_the_manager_to_the_others() {
    let manager = Arc::new(store(1));
    let panicked = {
        let manager = manager.clone();
        std::thread::spawn(move || {
            let _version = manager.pin().expect("a pin");
            let _lock = manager.lock_table(SLOTS).expect("a lock");
            panic!("on purpose");
        })
    };
    assert!(panicked.join().is_err());
    assert_eq!(manager.pinned(), []);
    manager.lock_table(SLOTS).expect("the lock was given back");
}

#[test]
fn a_small_stack_is_enough() {
    let run = || {
        let manager = store(200);
        let version = manager.pin().expect("a pin");
        let handles: Vec<_> = (0..4096).map(|i| SecondaryRowHandler(RowsetId(i % 200), RowId(i))).collect();
        let dvs = manager.group_deletes(&handles).expect("vectors");
        let ops: Vec<_> = dvs.iter().map(|g| EpochOp::add_dv(SLOTS, g.vector.rowset_id(), g.vector.dv_id())).collect();
        manager.commit_changes(ops).expect("a commit");
        manager.checkpoint().expect("a checkpoint");
        drop(version);
        manager.drop_table(SLOTS).expect("a drop");
        manager.vacuum().expect("a vacuum");
        manager.reopen().expect("a reopen");
    };
    std::thread::Builder::new().stack_size(512 << 10).spawn(run).expect("a thread").join().expect("no overflow");
}

#[test]
fn the_longest_appends_have_room() {
    let big = u32::MAX - 1;
    let mut text = format!("B\nN,{0},{0},{1}\nT,{big},{0},{2}\n", u32::MAX, u64::MAX, "n".repeat(32));
    for i in 0..256 {
        text += &format!("A,{big},{}\nV,{big},{0},{1}\n", big - i, u64::MAX - 1 - u64::from(i));
    }
    text += "E\n";
    let folder = Folder::in_memory("longest");
    let table = TableId(big);
    folder.write_manifest(text.as_bytes());
    let manager = folder.open();
    let before = manager.manifest_len();
    assert_eq!(before, text.len());
    manager.drop_table(table).expect("a drop");
    assert_eq!(manager.manifest_len() - before, 6 + 13 + 256 * (45 + 24));
    drop(manager);

    folder.write_manifest(text.as_bytes());
    let manager = folder.open();
    let taken: Vec<RowsetId> = (0..256).rev().map(|i| RowsetId(big - i)).collect();
    let lock = manager.lock_table(table).expect("a lock");
    manager.compact(&lock, None, &taken).expect("a compaction");
    assert_eq!(manager.manifest_len() - before, 6 + 256 * (45 + 24));
    assert_eq!(number(manager.create_table("more", 0)), (26, 0));
    assert_eq!(number(manager.draw_rowset_id()), (26, 0));
    assert_eq!(number(manager.draw_dv_id()), (26, 0));

    let mock = VersionManager::new_mock().expect("a mock");
    mock.create_table(&"n".repeat(32), u32::MAX).expect("a table");
}

#[test]
fn the_longest_rewritten_manifest_has_room_and_leaves_some() {
    let (id, dv) = (|i| u32::MAX - 1 - i, |i| u64::MAX - 1 - i);
    let mut text = format!("B\nN,{0},{0},{1}\n", u32::MAX, u64::MAX);
    for i in (0..16).rev() {
        text += &format!("T,{},{},{i:n>32}\n", id(i), u32::MAX);
    }
    for i in (0..256).rev() {
        text += &format!("A,{},{}\n", id(0), id(i));
    }
    for i in (0..256).rev() {
        text += &format!("V,{},{},{}\n", id(0), id(i), dv(u64::from(i)));
    }
    text += "E\n";
    let folder = Folder::in_memory("longest");
    folder.write_manifest(text.as_bytes());
    let manager = folder.open();
    while manager.commit_changes([]).is_ok() {}
    assert_eq!(manager.checkpoint().expect("a checkpoint"), 18_625);
    assert_eq!(std::fs::read(folder.manifest()).expect("the manifest"), text.as_bytes());
    manager.drop_table(TableId(id(0))).expect("a drop of all that is held");
}

#[test]
fn all_may_be_shared_between_threads() {
    fn shared<T: Send + Sync>() {}
    shared::<VersionManager>();
    shared::<Version>();
    shared::<TableLock>();
    shared::<Snapshot>();
    shared::<DeleteVector>();
    shared::<StorageError>();
}
