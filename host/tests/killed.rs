//! The process ends between any two steps of an append or a rewrite, also while and after an append comes short; what was committed is
//! found, and nothing else.
mod common;
use common::*;
use seqapti::faults::{self, Fault, Plan};
use seqapti::*;
use std::io::{BufRead, BufReader, Write};
use std::time::Duration;

const KEPT: u32 = 10;

// The n-th change: the rowset n, and the rowset n - KEPT no more. So the sets tell how many changes there were.
fn change(manager: &VersionManager) -> StorageResult<u32> {
    let id = manager.draw_rowset_id()?;
    let mut ops = vec![add(0, id)];
    if id.0 >= KEPT {
        ops.push(delete(0, id.0 - KEPT));
    }
    // Made again where the disk did not take it.
    while let Err(e) = manager.commit_changes(&ops) {
        match e {
            StorageError::NotCommitted { .. } => {}
            other => return Err(other),
        }
    }
    manager.find_vacuum()?;
    Ok(id.0 + 1)
}

fn sets_after(changes: u32) -> Sets {
    Sets {
        tables: [(0, (7, "slots".to_string()))].into(),
        pairs: (changes.saturating_sub(KEPT)..changes).map(|r| (0, r)).collect(),
        vectors: Default::default(),
    }
}

fn begin(folder: &Folder, changes: usize) {
    let manager = folder.open();
    manager.create_table("slots", 7).expect("a table");
    for _ in 0..changes {
        change(&manager).expect("a change");
    }
}

// Opens the store and says how many changes it shows.
fn found(folder: &Folder) -> u32 {
    let manager = folder.open();
    let changes = manager.next_ids().rowset.0;
    assert_eq!(Sets::now(&manager), sets_after(changes));
    changes
}

// An opening and three changes, and a checkpoint before the last, with a pin that outlasts it. The appends at these steps come
// short: the second change's and, twice, the third's.
const SHORT: [Plan; 3] = [short(7, 9), short(17, 0), short(20, 16)];

const fn short(at: usize, landed: usize) -> Plan {
    Plan { at, fault: Fault::Error, landed }
}

fn run(folder: &std::path::Path) {
    let manager = VersionManager::open(folder).expect("an opening").manager;
    let _version = manager.pin().expect("a pin");
    for _ in 0..2 {
        change(&manager).expect("a change");
    }
    manager.checkpoint().expect("a checkpoint");
    change(&manager).expect("a change");
}

#[test]
#[ignore = "run by another test, in a process of its own"]
fn ends_at_a_step() {
    let number = |name| variable(name).parse().expect("a number");
    let end = Plan { at: number("AT"), fault: Fault::Abort, landed: number("LANDED") };
    faults::plan([end].into_iter().chain(SHORT));
    run(variable("STORE").as_ref());
}

#[test]
fn ended_at_each_step() {
    let dry = Folder::on_disk("dry");
    begin(&dry, 12);
    faults::plan(SHORT);
    run(&dry.store());
    let steps = faults::passed();
    assert_eq!(steps.iter().filter(|s| **s == "sync landed").count(), SHORT.len());
    let mut runs = 0;
    for (at, step) in steps.iter().enumerate() {
        let is_write = step.contains("write") || *step == "append";
        for landed in if is_write { vec![0, 1, 2, 9, 16, 1000] } else { vec![0] } {
            let folder = Folder::on_disk("step");
            begin(&folder, 12);
            let variables = [
                ("AT", at.to_string()),
                ("LANDED", landed.to_string()),
                ("STORE", folder.store().display().to_string()),
            ];
            let ended = child("ends_at_a_step", &variables).status().expect("a child");
            assert!(!ended.success(), "{at}: {step}");
            // An append that had all its bytes written is read back, though the call had not returned.
            let returned = steps[..at].iter().filter(|s| **s == "sync append").count() as u32;
            let landed_whole = *step == "sync append" || (*step == "append" && landed == 1000);
            assert_eq!(found(&folder), 12 + returned + u32::from(landed_whole), "{at}: {step}, {landed} landed");
            runs += 1;
        }
    }
    println!("ended at a step: {} steps ({}), {runs} processes", steps.len(), steps.join(", "));
}

#[test]
#[ignore = "run by another test, in a process of its own"]
fn changes_until_killed() {
    let manager = VersionManager::open(variable("STORE")).expect("an opening").manager;
    let mut out = std::io::stdout();
    for turn in 1.. {
        // The change's first step is its append. One of four comes short, of each length in turn.
        let landed = turn / 4 % 20;
        faults::plan((turn % 4 == 0).then_some(short(0, landed)));
        let changes = change(&manager).expect("a change");
        faults::plan(None);
        writeln!(out, "changes {changes}").and_then(|()| out.flush()).expect("a line");
        if turn % 6 == 0 {
            manager.reopen().expect("a reopen");
        } else if turn % 2 == 0 {
            manager.checkpoint().expect("a checkpoint");
        }
    }
}

#[test]
fn killed_at_any_time() {
    let folder = Folder::on_disk("killed");
    begin(&folder, 3);
    let mut random = Random(31);
    let (mut last, mut more) = (3, 0);
    let rounds = 40;
    for _ in 0..rounds {
        let variables = [("STORE", folder.store().display().to_string())];
        let mut killed = child("changes_until_killed", &variables).spawn().expect("a child");
        let mut lines = BufReader::new(killed.stdout.take().expect("its output")).lines();
        let mut told = last;
        let mut tell = |line: String| {
            if let Some(changes) = line.strip_prefix("changes ") {
                told = changes.parse().expect("a number");
                return true;
            }
            false
        };
        // Begun, at least.
        while !tell(lines.next().expect("a line").expect("a line")) {}
        std::thread::sleep(Duration::from_micros(random.below(20_000)));
        killed.kill().expect("a kill");
        killed.wait().expect("its end");
        lines.map_while(Result::ok).for_each(|line| {
            tell(line);
        });
        let changes = found(&folder);
        assert!(changes == told || changes == told + 1, "told {told}, found {changes}");
        more += changes - told;
        last = changes;
    }
    println!("killed: {rounds} processes, {last} changes in all, {more} landed untold");
}
