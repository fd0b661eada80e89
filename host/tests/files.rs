//! Folders, rights, openers, a full disk, and what is not live.
mod common;
use common::*;
use seqapti::*;
use std::fs;
use std::io::ErrorKind;
use std::os::unix::fs::PermissionsExt;

fn io_kind<T>(told: StorageResult<T>) -> Option<ErrorKind> {
    match told {
        Err(StorageError::Io { source, .. }) => Some(source.kind()),
        _ => None,
    }
}

#[test]
fn a_new_store_is_empty_and_stays() {
    let folder = Folder::on_disk("new");
    let opened = VersionManager::open(folder.store()).expect("an opening");
    assert_eq!(fs::read(folder.manifest()).expect("a manifest"), b"B\nN,0,0,0\nE\n");
    assert!(opened.not_live.is_empty());
    assert_eq!((opened.manager.epoch(), Sets::now(&opened.manager)), (1, Sets::default()));
    let id = opened.manager.create_table("slots", 7).expect("a table");
    drop(opened);
    assert_eq!(folder.open().tables().expect("the tables")[0].table_id, id);
}

#[test]
fn one_opener_at_a_time() {
    let folder = Folder::on_disk("openers");
    let first = folder.open();
    let second = || VersionManager::open(folder.store());
    let store = || vec![("STORE", folder.store().display().to_string())];
    let other_process = || child("opens_the_store", &store()).status().expect("a child").success();
    assert!(matches!(second(), Err(StorageError::InUse { .. })));
    assert!(!other_process());

    // A pin that outlives the manager keeps what it shows from being vacuumed by another.
    first.create_table("slots", 7).expect("a table");
    let pin = first.pin().expect("a pin");
    drop(first);
    assert!(matches!(second(), Err(StorageError::InUse { .. })));
    assert_eq!(pin.snapshot().tables().len(), 1);
    std::thread::spawn(move || drop(pin)).join().expect("a drop on another thread");
    assert!(other_process());
    assert_eq!(second().expect("an opening").manager.tables().expect("the tables").len(), 1);
}

#[test]
#[ignore = "run by another test, in a process of its own"]
fn opens_the_store() {
    VersionManager::open(variable("STORE")).expect("an opening");
}

// A process that is being started has the store's files open for a moment.
#[test]
fn opened_again_while_processes_are_started() {
    let folder = Folder::in_memory("again");
    let done = std::sync::atomic::AtomicBool::new(false);
    std::thread::scope(|scope| {
        for _ in 0..2 {
            scope.spawn(|| {
                while !done.load(std::sync::atomic::Ordering::Relaxed) {
                    std::process::Command::new("true").status().expect("a process");
                }
            });
        }
        for _ in 0..300 {
            let opened = VersionManager::open(folder.store());
            if opened.is_err() {
                done.store(true, std::sync::atomic::Ordering::Relaxed);
            }
            opened.expect("an opening");
        }
        done.store(true, std::sync::atomic::Ordering::Relaxed);
    });
}

#[test]
fn the_sample_opens_without_its_torn_frame() {
    let folder = Folder::in_memory("sample");
    folder.write_manifest(include_bytes!("../../samples/torn.manifest"));
    let shown = Sets::now(&folder.open());
    assert_eq!(shown.tables.values().map(|(_, name)| name.as_str()).collect::<Vec<_>>(), ["slots", "rides"]);
    assert_eq!(shown.pairs, [(0, 0), (0, 1), (1, 2)].into());
    assert_eq!(shown.vectors, [(0, 0, 0)].into());
}

#[test]
fn what_is_not_live_is_told_and_left() {
    let folder = Folder::in_memory("live");
    let manager = folder.open();
    let table = manager.create_table("slots", 7).expect("a table");
    let rowset = manager.draw_rowset_id().expect("an id");
    let handles = [SecondaryRowHandler(rowset, RowId(4))];
    let dv = &manager.group_deletes(&handles).expect("a vector")[0];
    let dv_id = dv.vector.dv_id();
    manager.commit_changes([add(0, rowset), EpochOp::add_dv(table, rowset, dv_id)]).expect("a commit");
    // The vector's file was never written: nothing is refused before it is read.
    drop(manager);

    let store = folder.store();
    for name in ["0_0", "0_1", "7_0", "0_01", "+1_2", "x_1", "0_1_2", "4294967296_0", "lost+found"] {
        fs::create_dir(store.join(name)).expect("a folder");
    }
    fs::write(store.join("0_9"), b"a file, no folder").expect("a file");
    for name in ["0_0_0.dv", "0_0_1.dv", "0_0_18446744073709551615.dv", "0_0.dv", "0_0_1", "0_0_01.dv"] {
        fs::write(store.join("dv").join(name), b"").expect("a file");
    }
    let opened = VersionManager::open(&store).expect("an opening");
    let rowsets: Vec<_> = opened.not_live.rowsets.iter().map(|(t, r, _)| (t.0, r.0)).collect();
    let dvs: Vec<_> = opened.not_live.dvs.iter().map(|(t, r, v, _)| (t.0, r.0, v.0)).collect();
    assert_eq!(rowsets, [(0, 1), (7, 0)]);
    assert_eq!(dvs, [(0, 0, 1), (0, 0, u64::MAX)]);
    assert!(opened.not_live.rowsets.iter().all(|(t, r, p)| *p == opened.manager.rowset_path(*t, *r) && p.is_dir()));
    assert!(opened.not_live.dvs.iter().all(|(t, r, v, p)| *p == opened.manager.dv_path(*t, *r, *v) && p.is_file()));

    opened.not_live.remove().expect("a removal");
    opened.not_live.remove().expect("a second removal finds nothing");
    assert!(opened.manager.reopen().expect("a reopen").is_empty());
    assert!(store.join("0_0").is_dir() && store.join("0_01").is_dir() && store.join("0_9").is_file());
    fs::remove_file(opened.manager.dv_path(table, rowset, dv_id)).expect("the live vector's file");
    opened.manager.reopen().expect("a reopen without a live vector's file");
    assert_eq!(io_kind(opened.manager.read_dv(table, rowset, dv_id)), Some(ErrorKind::NotFound));
}

#[test]
fn a_folder_that_lost_its_manifest_is_not_opened_as_empty() {
    for (name, is_dir) in [("0_0", true), ("dv/0_0_0.dv", false), ("manifest.json", false)] {
        let folder = Folder::in_memory("lost");
        drop(folder.open());
        fs::remove_file(folder.manifest()).expect("the manifest");
        let path = folder.store().join(name);
        if is_dir {
            fs::create_dir(&path).expect("a folder");
        } else {
            fs::write(&path, b"").expect("a file");
        }
        assert!(matches!(VersionManager::open(folder.store()), Err(StorageError::NoManifest { .. })));
        assert!(path.exists() && !folder.manifest().exists());
    }
}

#[test]
fn bytes_without_a_line_are_no_manifest() {
    for text in [&br#"{"Begin":null}"#[..], b"B", &[0; 4_096]] {
        let folder = Folder::in_memory("foreign");
        drop(folder.open());
        fs::write(folder.manifest(), text).expect("a file");
        assert!(matches!(VersionManager::open(folder.store()), Err(StorageError::NotAManifest { .. })));
        assert_eq!(fs::read(folder.manifest()).expect("a file"), text);
    }
}

#[test]
fn manifests_that_are_refused_stay_as_they_are() {
    let texts: [(&[u8], u32, usize); 8] = [
        (&[b'x'; 65_537], 1, 0),
        (b"B\nA,0\nE\n", 2, 2),
        (b"B\nT,0,7,a\nT,0,7,b\nE\n", 3, 3),
        (b"B\nA,0,0\nE\n", 5, 0),
        (b"\n", 2, 1),
        (b"B\nE\n{\"Begin\":null}\n", 2, 3),
        (b"B\nX,4\nE\n", 3, 2),
        (b"\xff\xfe\n", 2, 1),
    ];
    let folder = Folder::in_memory("refused");
    for (text, number, place) in texts {
        folder.write_manifest(text);
        match VersionManager::open(folder.store()) {
            Err(StorageError::Refused { refusal, place: at }) => assert_eq!((refusal.number(), at), (number, place)),
            other => panic!("{other:?}"),
        }
        assert_eq!(fs::read(folder.manifest()).expect("the manifest"), text);
    }
}

#[test]
fn folders_that_cannot_be() {
    let folder = Folder::on_disk("cannot");
    let file = folder.path().join("file");
    fs::write(&file, b"").expect("a file");
    assert_eq!(io_kind(VersionManager::open(file.join("store"))), Some(ErrorKind::NotADirectory));
    assert_eq!(io_kind(VersionManager::open(&file)), Some(ErrorKind::NotADirectory));
    assert_eq!(io_kind(VersionManager::open(folder.path().join("no/store"))), Some(ErrorKind::NotFound));
    fs::create_dir_all(folder.manifest()).expect("a folder in the manifest's place");
    assert_eq!(io_kind(VersionManager::open(folder.store())), Some(ErrorKind::IsADirectory));
}

#[test]
fn a_folder_without_rights() {
    let folder = Folder::on_disk("rights");
    drop(folder.open());
    let rights = |mode| fs::set_permissions(folder.store(), fs::Permissions::from_mode(mode)).expect("rights");
    let open = || {
        let ended = child("is_denied", &[("STORE", folder.store().display().to_string())]).output().expect("a child");
        assert!(ended.status.success(), "{}", String::from_utf8_lossy(&ended.stdout));
    };
    rights(0o555);
    open();
    rights(0o000);
    open();
    rights(0o777);
    fs::set_permissions(folder.manifest(), fs::Permissions::from_mode(0o000)).expect("rights");
    fs::set_permissions(folder.store().join(LOCK_FILE_NAME), fs::Permissions::from_mode(0o666)).expect("rights");
    fs::set_permissions(folder.store().join("dv"), fs::Permissions::from_mode(0o777)).expect("rights");
    open();
    assert_eq!(fs::read(folder.manifest()).map(|b| b.len()).unwrap_or(12), 12, "the manifest stands");
    fs::set_permissions(folder.manifest(), fs::Permissions::from_mode(0o644)).expect("rights");
    println!("without rights: 3 kinds, each denied");
}

extern "C" {
    fn getuid() -> u32;
    fn setuid(id: u32) -> i32;
    fn setrlimit(resource: i32, limit: *const [u64; 2]) -> i32;
    fn getrlimit(resource: i32, limit: *mut [u64; 2]) -> i32;
    fn signal(number: i32, handler: usize) -> usize;
}

const NOBODY: u32 = 65_534;

#[test]
#[ignore = "run by another test, in a process of its own"]
fn is_denied() {
    // Rights do not bind the superuser, so the child becomes somebody else.
    if unsafe { getuid() } == 0 {
        assert_eq!(unsafe { setuid(NOBODY) }, 0);
    }
    assert_eq!(io_kind(VersionManager::open(variable("STORE"))), Some(ErrorKind::PermissionDenied));
}

const RLIMIT_FSIZE: i32 = 1;
const SIGXFSZ: i32 = 25;
const SIG_IGN: usize = 1;

fn limit_files(bytes: u64) {
    let mut limit = [0; 2];
    unsafe { getrlimit(RLIMIT_FSIZE, &mut limit) };
    limit[0] = bytes.min(limit[1]);
    assert_eq!(unsafe { setrlimit(RLIMIT_FSIZE, &limit) }, 0);
}

// A limit on the length of files stands for a full disk: a write lands up to it and then fails.
#[test]
#[ignore = "run by another test, in a process of its own"]
fn writes_to_a_full_disk() {
    unsafe { signal(SIGXFSZ, SIG_IGN) };
    let manager = VersionManager::open(variable("STORE")).expect("an opening").manager;
    let table = manager.create_table("slots", 7).expect("a table");
    let mut tries = 0;
    for room in 0..24 {
        let before = Sets::now(&manager);
        // No room for a rewritten manifest: the old one stands, and the store goes on.
        limit_files(room);
        assert_eq!(io_kind(manager.checkpoint()), Some(ErrorKind::FileTooLarge));
        limit_files(u64::MAX);
        assert!(!manager.is_poisoned() && !manager.path().join("manifest.tmp").exists());
        let id = manager.draw_rowset_id().expect("an id");
        let append = format!("!\nB\nA,0,{id}\nE\n").len();
        let length = manager.manifest_len();
        limit_files(length as u64 + room);
        let told = manager.commit_changes([add(0, id)]);
        if (room as usize) < append {
            let short = match told {
                Err(StorageError::NotCommitted { landed, length, source, .. }) => (landed, length, source.kind()),
                other => panic!("room for {room}: {other:?}"),
            };
            assert_eq!(short, (room as usize, append, ErrorKind::FileTooLarge));
            assert!(!manager.is_poisoned());
            assert_eq!((Sets::now(&manager), manager.manifest_len()), (before.clone(), length + room as usize));
            // The disk is still full: no byte of the next append lands, pins and reads go on, and a checkpoint has no room.
            let told = manager.commit_changes([add(0, id)]);
            assert!(matches!(told, Err(StorageError::NotCommitted { landed: 0, .. })));
            drop(manager.pin().expect("a pin"));
            manager.find_vacuum().expect("a vacuum");
            limit_files(room);
            assert_eq!(io_kind(manager.checkpoint()), Some(ErrorKind::FileTooLarge));
            assert!(!manager.is_poisoned());
            // There is room again. The same commit is made, behind what landed.
            limit_files(u64::MAX);
            manager.commit_changes([add(0, id)]).expect("a commit");
            assert_eq!(manager.manifest_len(), length + room as usize + append);
            assert_eq!(
                fs::metadata(manager.path().join(MANIFEST_FILE_NAME)).expect("a file").len() as usize,
                manager.manifest_len()
            );
            tries += 1;
        } else {
            told.expect("room enough");
        }
        limit_files(u64::MAX);
        let shown = Sets::now(&manager);
        assert_eq!(shown.pairs.difference(&before.pairs).collect::<Vec<_>>(), [&(0, id.0)]);
        if room % 2 == 0 {
            manager.reopen().expect("a reopen");
            assert_eq!(Sets::now(&manager), shown);
        }
        manager.commit_changes([EpochOp::delete_rowset(table, id)]).expect("a commit");
    }
    println!("full disk: {tries} appends and 24 checkpoints cut short");
}

#[test]
fn a_full_disk() {
    let folder = Folder::in_memory("full");
    let ended = child("writes_to_a_full_disk", &[("STORE", folder.store().display().to_string())]).output();
    let ended = ended.expect("a child");
    let said = String::from_utf8_lossy(&ended.stdout);
    assert!(ended.status.success(), "{said}");
    print!("{}", said.lines().filter(|l| l.contains("full disk")).fold(String::new(), |all, l| all + l + "\n"));
    let shown = Sets::now(&folder.open());
    assert_eq!((shown.tables.len(), shown.pairs.len()), (1, 0));
}

#[test]
fn a_full_manifest_is_made_short_by_a_reopen() {
    let folder = Folder::in_memory("long");
    let manager = folder.open();
    manager.create_table("slots", 7).expect("a table");
    let mut commits = 0;
    let told = loop {
        match manager.commit_changes([]) {
            Ok(_) => commits += 1,
            Err(e) => break e,
        }
    };
    assert_eq!(told.refusal(), Some(Refusal::ManifestFull));
    assert!(!manager.is_poisoned());
    manager.reopen().expect("a reopen");
    assert!(manager.manifest_len() < 100);
    manager.commit_changes([]).expect("a commit");
    println!("a full manifest: {commits} empty commits");
}
