//! Every cut of every append of sample histories, and every part of each rewritten manifest, through real files.
mod common;
use common::*;
use seqapti::*;

// After the opening and after each change.
struct Moment {
    bytes: Vec<u8>,
    sets: Sets,
    // Above every rowset and vector that was committed, deleted ones too.
    above: (u32, u64),
    // By a checkpoint. Else an append was made.
    rewritten: bool,
}

struct History {
    folder: Folder,
    manager: VersionManager,
    moments: Vec<Moment>,
}

impl History {
    fn begin(bytes: &[u8]) -> History {
        let folder = Folder::in_memory("history");
        folder.write_manifest(bytes);
        let manager = folder.open();
        let mut history = History { folder, manager, moments: Vec::new() };
        history.note();
        history
    }

    fn note(&mut self) {
        let bytes = std::fs::read(self.folder.manifest()).expect("the manifest");
        assert_eq!(bytes.len(), self.manager.manifest_len());
        let sets = Sets::now(&self.manager);
        let before = self.moments.last().map_or((0, 0), |m| m.above);
        let rowset = sets.pairs.iter().map(|p| p.1 + 1).fold(before.0, u32::max);
        let dv = sets.vectors.iter().map(|v| v.2 + 1).fold(before.1, u64::max);
        self.moments.push(Moment { bytes, sets, above: (rowset, dv), rewritten: false });
    }

    fn checkpoint(&mut self) {
        self.manager.checkpoint().expect("a checkpoint");
        self.note();
        self.moments.last_mut().expect("a moment").rewritten = true;
    }

    fn commit(&mut self, ops: &[EpochOp]) {
        self.manager.commit_changes(ops).expect("a commit");
        self.note();
    }
}

// Every kind of operation and of call that appends, and checkpoints: of an empty store, with deletions that wait and an
// epoch that is pinned, and twice in a row.
fn told() -> History {
    let mut h = History::begin(b"");
    h.checkpoint();
    let slots = h.manager.create_table("slots", 7).expect("a table");
    h.note();
    let rows: Vec<RowsetId> = (0..6).map(|_| h.manager.draw_rowset_id().expect("an id")).collect();
    h.commit(&[add(slots.0, rows[0]), add(slots.0, rows[1])]);
    let handles = [(0, 5), (1, 9), (0, 5), (0, 2)].map(|(r, row)| SecondaryRowHandler(rows[r], RowId(row)));
    let dvs = h.manager.group_deletes(&handles).expect("vectors");
    let ops: Vec<EpochOp> =
        dvs.iter().map(|g| EpochOp::add_dv(slots, g.vector.rowset_id(), g.vector.dv_id())).collect();
    h.commit(&ops);
    h.commit(&[]);
    h.commit(&[EpochOp::create_table(TableId(1), u32::MAX, "rides_of_the_park_0123456789_abc"), add(1, rows[2])]);
    let lock = h.manager.lock_table(slots).expect("a lock");
    let version = h.manager.pin().expect("a pin");
    h.manager.compact(&lock, Some(rows[3]), &rows[..2]).expect("a compaction");
    h.note();
    h.checkpoint();
    drop(version);
    h.manager.find_vacuum().expect("a vacuum");
    h.commit(&[add(slots.0, rows[4]), delete(slots.0, rows[3].0)]);
    h.manager.drop_table(TableId(1)).expect("a drop");
    h.note();
    h.checkpoint();
    h.checkpoint();
    h.manager.compact(&lock, None, &[rows[4]]).expect("a compaction to nothing");
    h.note();
    h
}

fn by_chance(seed: u64, changes: usize) -> History {
    let mut r = Random(seed);
    let mut h = History::begin(b"B\nN,3,4000000000,18000000000000000000\nT,0,1,a\nT,2,1,b\nE\nB\nA,0,1\n");
    while h.moments.len() <= changes {
        if r.one_in(6) {
            h.checkpoint();
        }
        let Moment { sets, .. } = h.moments.last().expect("a moment");
        let pairs: Vec<_> = sets.pairs.iter().copied().collect();
        let vectors: Vec<_> = sets.vectors.iter().copied().collect();
        let mut ops = Vec::new();
        for _ in 0..1 + r.below(4) {
            match r.below(5) {
                0 | 1 => ops.push(add(2 * r.below(2) as u32, h.manager.draw_rowset_id().expect("an id"))),
                2 => ops
                    .extend(r.of(&pairs).map(|(t, s)| {
                        EpochOp::add_dv(TableId(t), RowsetId(s), h.manager.draw_dv_id().expect("an id"))
                    })),
                3 => {
                    ops.extend(r.of(&vectors).map(|(t, s, v)| EpochOp::delete_dv(TableId(t), RowsetId(s), VectorId(v))))
                }
                _ => ops.extend(r.of(&pairs).map(|(t, s)| delete(t, s))),
            }
        }
        // What is refused leaves no moment.
        if h.manager.commit_changes(&ops).is_ok() {
            h.note();
        }
    }
    h
}

// A store whose last append landed in part opens as if that commit had not been, and goes on from there.
fn opens_as(folder: &Folder, bytes: &[u8], moment: &Moment, cut: usize) {
    folder.write_manifest(bytes);
    let manager = folder.open();
    assert_eq!(Sets::now(&manager), moment.sets, "cut at {cut}");
    assert_eq!(manager.epoch(), 1);
    let next = manager.next_ids();
    assert!(next.rowset.0 >= moment.above.0 && next.dv.0 >= moment.above.1, "cut at {cut}: {next:?}");
    manager.create_table("after_the_cut", 1).expect("a table after the cut");
    let after = Sets::now(&manager);
    drop(manager);
    assert_eq!(Sets::now(&folder.open()), after, "cut at {cut}, then a commit");
}

// While a rewritten manifest is on its way to the old one's place, the old one stands beside any part of it.
fn try_all_parts(folder: &Folder, old: &Moment, new: &[u8]) -> usize {
    for part in 0..=new.len() {
        std::fs::write(folder.store().join("manifest.tmp"), &new[..part]).expect("a part");
        opens_as(folder, &old.bytes, old, part);
        assert!(!folder.store().join("manifest.tmp").exists());
    }
    opens_as(folder, new, old, new.len());
    new.len() + 1
}

fn try_all_cuts(name: &str, history: History) {
    let folder = Folder::in_memory("cut");
    drop(folder.open());
    let (mut cuts, mut parts) = (0, 0);
    for pair in history.moments.windows(2) {
        let (before, after) = (&pair[0], &pair[1]);
        if after.rewritten {
            assert_eq!(before.sets, after.sets);
            parts += try_all_parts(&folder, before, &after.bytes);
            continue;
        }
        assert!(after.bytes.starts_with(&before.bytes), "an append leaves earlier bytes standing");
        for cut in before.bytes.len()..after.bytes.len() {
            opens_as(&folder, &after.bytes[..cut], before, cut);
        }
        opens_as(&folder, &after.bytes, after, after.bytes.len());
        cuts += after.bytes.len() - before.bytes.len() + 1;
    }
    let rewritten = history.moments.iter().filter(|m| m.rewritten).count();
    let appends = history.moments.len() - 1 - rewritten;
    println!("{name}: {appends} appends, {cuts} cuts; {rewritten} checkpoints, {parts} parts");
}

#[test]
fn every_cut_of_a_told_history() {
    try_all_cuts("told", told());
}

#[test]
fn every_cut_of_histories_by_chance() {
    for seed in 1..=4 {
        try_all_cuts("by chance", by_chance(seed, 30));
    }
}

#[test]
fn every_part_of_a_rewritten_manifest_beside_the_old_one() {
    let history = told();
    let old = history.moments.last().expect("a moment");
    let folder = Folder::in_memory("rewrite");
    folder.write_manifest(&old.bytes);
    drop(folder.open());
    let new = std::fs::read(folder.manifest()).expect("the rewritten manifest");
    let parts = try_all_parts(&folder, old, &new);
    println!("rewrite: {parts} parts of a rewritten manifest beside the old one");
}
