//! `seqapti inspect`: what it lists is what the library reads, at every cut, and the page needs nothing beside it.
#[path = "../src/bin/seqapti/frames.rs"]
#[allow(dead_code)]
mod frames;
#[path = "../src/bin/seqapti/history.rs"]
#[allow(dead_code)]
mod history;
#[path = "../src/bin/seqapti/line.rs"]
#[allow(dead_code)]
mod line;
mod tool;

use frames::Frames;
use history::{standing, History, Table};
use seqapti::*;
use std::collections::BTreeSet;
use tool::{between, on, Place};

fn rowset(t: TableId, r: RowsetId) -> EpochOp {
    EpochOp::add_rowset(t, r)
}

// A store with tables, rowsets, vectors, a drop and a compaction, reopened once.
fn store(place: &Place) -> std::path::PathBuf {
    let path = place.at("store");
    let commit = |m: &VersionManager, ops: Vec<EpochOp>| m.commit_changes(ops).expect("a commit");
    {
        let m = VersionManager::open(&path).expect("an opening").manager;
        let slots = m.create_table("slots", 7).expect("a table");
        let rides = m.create_table("rides", 9).expect("a table");
        let ids: Vec<RowsetId> = (0..4).map(|_| m.draw_rowset_id().expect("an id")).collect();
        commit(&m, vec![rowset(slots, ids[0]), rowset(slots, ids[1]), rowset(rides, ids[2])]);
        commit(&m, vec![rowset(slots, ids[3])]);
    }
    let m = VersionManager::open(&path).expect("an opening").manager;
    let (slots, rides) = (TableId(0), TableId(1));
    let v = m.draw_dv_id().expect("an id");
    commit(&m, vec![EpochOp::add_dv(slots, RowsetId(0), v)]);
    let lock = m.lock_table(slots).expect("a lock");
    let new = m.draw_rowset_id().expect("an id");
    m.compact(&lock, Some(new), &[RowsetId(0), RowsetId(1)]).expect("a compaction");
    m.drop_table(rides).expect("a drop");
    path
}

#[test]
fn a_store_is_listed() {
    let place = Place::new("listed");
    let path = store(&place);
    for name in ["0_3", "0_0", "007_1", "dv/0_0_0.dv"] {
        std::fs::create_dir(path.join(name)).expect("a folder");
    }
    let before = tool::names(&path);
    let ran = on("inspect", &path, &[]);
    assert_eq!((ran.code, ran.err.as_str()), (0, ""));
    let expected = "next ids: table 2, rowset 5, vector 1
table 0 `slots`, shape 7: 2 rowsets
  rowset 3
  rowset 4
last rewrite: lines 1 to 9, +2 tables, +4 rowsets
3 frames since
  frame 1, lines 11 to 13: +1 vector
    V,0,0,0
  frame 2, lines 15 to 20: +1 -2 rowsets, -1 vector
    A,0,4
    W,0,0,0
    D,0,0
    D,0,1
  frame 3, lines 22 to 25: -1 table, -1 rowset
    X,1
    D,1,2
not live: 0_0, which nothing committed names
not live: dv/0_0_0.dv, which nothing committed names
missing: 0_4, which the manifest names
";
    assert!(ran.out.ends_with(expected), "{}", ran.out);
    assert_eq!(tool::names(&path), before, "nothing is written");

    // Though the store is open, and its lock held.
    let _open = VersionManager::open(&path).expect("an opening");
    let json = on("inspect", &path, &["--json"]);
    assert_eq!(json.code, 0);
    let files = "\"not_live\":[\"0_0\",\"dv/0_0_0.dv\"],\"missing\":[\"0_4\"]}\n";
    assert!(json.out.ends_with(files), "{}", json.out);
    let page = place.at("page.html");
    assert_eq!(on("inspect", &path, &["--html", &page.to_string_lossy()]).code, 0);
    sound_page(&std::fs::read_to_string(&page).expect("a page"));
}

#[test]
fn what_is_passed_over_and_dropped_is_listed() {
    let place = Place::new("passed");
    let manifest = "A,0,9\nE\nB\nT,0,7,slots\nB\nT,0,7,slots\nA,0,0\nV,0,5,3\nE\n";
    let ran = on("inspect", &place.file("manifest", manifest), &[]);
    assert_eq!(ran.code, 0);
    for line in [
        "passed over: line 1, A,0,9 in no frame\n",
        "passed over: line 2, an E with no frame open\n",
        "passed over: lines 3 to 4, a frame that another B cut short: +1 table\n",
        "dropped by an opening: vector 3 over rowset 0/5, which is not there\n",
        "1 frame, and no rewrite\n",
    ] {
        assert!(ran.out.contains(line), "{line}{}", ran.out);
    }
}

#[test]
fn a_torn_tail_at_every_byte() {
    let place = Place::new("torn");
    let whole = "B\nN,1,2,0\nT,0,7,slots\nA,0,0\nA,0,1\nE\n";
    let last = "!\nB\nA,0,2\nV,0,2,0\nD,0,0\nD,0,1\nE\n";
    let old = "\"rowsets\":[{\"table\":0,\"rowset\":0},{\"table\":0,\"rowset\":1}]";
    let new = "\"rowsets\":[{\"table\":0,\"rowset\":2}]";
    for cut in 0..=last.len() {
        let path = place.file("manifest", format!("{whole}{}", &last[..cut]));
        let json = on("inspect", &path, &["--json"]);
        assert_eq!(json.code, 0);
        assert!(json.out.contains(if cut == last.len() { new } else { old }), "{cut} {}", json.out);
        let check = on("check", &path, &["--json"]);
        let words = on("inspect", &path, &[]);
        if cut == 0 || cut == last.len() {
            assert!(json.out.contains("\"tail\":null"), "{cut} {}", json.out);
            assert!(check.out.contains("\"torn_bytes\":0") && !words.out.contains("torn tail"));
            continue;
        }
        assert!(check.out.contains(&format!("\"torn_bytes\":{cut},")), "{}", check.out);
        let tail = between(&json.out, "\"tail\":", ",\"not_live\"");
        assert!(tail.starts_with(&format!("{{\"from_byte\":{},\"bytes\":{cut},", whole.len())), "{tail}");
        let lines = last[..cut].matches('\n').count();
        assert_eq!(tail.matches("\"line\":").count(), lines.saturating_sub(2), "{cut} {tail}");
        let in_a_line = !last[..cut].ends_with('\n');
        assert!(tail.contains(&format!("\"in_a_line\":{in_a_line}")), "{cut} {tail}");
        assert_eq!(words.out.matches("  would ").count(), lines.saturating_sub(2));
        assert_eq!(words.out.contains("ends in a line: "), in_a_line);
        if cut == last.len() - 1 {
            assert!(words.out.contains("one newline short of its end"), "{}", words.out);
        }
        if cut == 2 {
            assert!(words.out.contains("the first line of an append, and no frame"), "{}", words.out);
        }
    }
}

// The same, and the store went on behind it: what landed is passed over, and named.
#[test]
fn a_short_append_at_every_byte() {
    let place = Place::new("short");
    let whole = "B\nN,1,3,0\nT,0,7,slots\nA,0,0\nA,0,1\nE\n";
    let append = "!\nB\nA,0,2\nD,0,0\nD,0,1\nE\n";
    let next = "!\nB\nD,0,1\nE\n";
    for cut in 0..append.len() {
        let landed = &append[..cut];
        let path = place.file("manifest", format!("{whole}{landed}{next}"));
        let json = on("inspect", &path, &["--json"]);
        assert_eq!(json.code, 0);
        assert!(json.out.contains("\"rowsets\":[{\"table\":0,\"rowset\":0}]"), "{cut} {}", json.out);
        assert!(json.out.contains("\"tail\":null"), "{cut} {}", json.out);
        let words = on("inspect", &path, &[]).out;
        let check = on("check", &path, &[]).out;
        let as_json = on("check", &path, &["--json"]).out;
        assert!(
            as_json.contains(&format!("\"short_appends\":{},\"short_bytes\":{cut},", usize::from(cut > 0))),
            "{as_json}"
        );
        assert!(as_json.contains("\"torn_bytes\":0"), "{as_json}");
        if cut == 0 {
            assert!(!words.contains("passed over") && !check.contains("passed over"), "{words}{check}");
            continue;
        }
        let (bytes, first) = (if cut == 1 { "1 byte".into() } else { format!("{cut} bytes") }, 7);
        let last = 6 + landed.lines().count();
        let named = format!("passed over: lines {first} to {last}, {bytes} of an append that came short: ");
        assert_eq!(words.matches("passed over").count(), 1, "{words}");
        assert!(words.contains(&named), "{named}{words}");
        assert!(check.contains(&format!("  passed over: 1 append that came short, {bytes}\n")), "{check}");
        let page = page_of(&place, format!("{whole}{landed}{next}"), 0);
        assert!(page.contains("of an append that came short"));
    }
    // Some one after another, the last of them at the end of the file.
    let text = format!("{whole}!\nB\nA,0!!\n!!\nB\nE\n{next}!\nB\nD");
    let check = on("check", &place.file("manifest", text), &[]).out;
    assert!(check.contains("passed over: 2 appends that came short, 11 bytes\n"), "{check}");
    assert!(check.contains("torn tail: 5 bytes"), "{check}");
}

// A store whose disk was full at times, as its own calls left it.
#[test]
#[cfg(feature = "faults")]
fn a_store_that_went_on_after_short_appends() {
    use seqapti::faults::{plan, Fault, Plan};
    let place = Place::new("went_on");
    let path = place.at("store");
    let m = VersionManager::open(&path).expect("an opening").manager;
    m.create_table("slots", 7).expect("a table");
    let mut bytes = 0;
    for landed in 0..12 {
        let id = m.draw_rowset_id().expect("an id");
        plan([Plan { at: 0, fault: Fault::Error, landed }]);
        let told = m.commit_changes([rowset(TableId(0), id)]);
        plan(None);
        assert!(matches!(told, Err(StorageError::NotCommitted { .. })));
        bytes += landed;
        if landed % 2 == 0 {
            m.commit_changes([rowset(TableId(0), id)]).expect("a commit");
        }
        let check = on("check", &path, &["--json"]);
        valid(&m, &check);
    }
    let check = on("check", &path, &[]);
    // After the last of them nothing was written.
    let (short, torn) = (10, 11);
    assert!(
        check.out.contains(&format!("passed over: {short} appends that came short, {} bytes\n", bytes - torn)),
        "{}",
        check.out
    );
    assert!(check.out.contains(&format!("torn tail: {torn} bytes")), "{}", check.out);
}

#[cfg(feature = "faults")]
fn valid(m: &VersionManager, check: &tool::Ran) {
    assert_eq!((check.code, check.err.as_str()), (0, ""));
    assert!(check.out.contains(&format!("\"opens\":true,\"bytes\":{},", m.manifest_len())), "{}", check.out);
}

struct Random(u64);

impl Random {
    fn below(&mut self, n: u64) -> u64 {
        self.0 ^= self.0 << 13;
        self.0 ^= self.0 >> 7;
        self.0 ^= self.0 << 17;
        (self.0 >> 11) % n
    }
}

fn any_line(random: &mut Random) -> String {
    let (t, r, v) = (random.below(4), random.below(6), random.below(6));
    match random.below(60) {
        0..=11 => "B".into(),
        12..=23 => "E".into(),
        24..=29 => format!("T,{t},{v},t{r}"),
        30..=32 => format!("X,{t}"),
        33..=41 => format!("A,{t},{r}"),
        42..=46 => format!("D,{t},{r}"),
        47..=52 => format!("V,{t},{r},{v}"),
        53..=56 => format!("W,{t},{r},{v}"),
        57 => format!("N,{t},{r},{v}"),
        58 => match random.below(4) {
            0 => format!("N,{},{},{}", u32::MAX, u32::MAX, u64::MAX),
            1 => format!("A,{t}!"),
            2 => "!!".into(),
            _ => "!".into(),
        },
        _ if random.below(12) == 0 => {
            ["", "A,0", "A,0,01", "Z", "A,0,4294967295", "T,0,0,A", "!A", "B!E"][random.below(8) as usize].into()
        }
        _ => format!("A,{t},{}", u32::MAX - 1),
    }
}

// The tool's own reader beside the library, on manifests by chance.
#[test]
fn the_list_of_frames_agrees_with_the_library() {
    let mut random = Random(20_251_117);
    let (mut opened, mut refused) = (0, 0);
    for _ in 0..20_000 {
        let n = random.below(24);
        let mut text: String = (0..n).map(|_| any_line(&mut random) + "\n").collect();
        text.truncate(text.len() - (random.below(4) as usize).min(text.len()));
        let frames = Frames::read(text.as_bytes());
        let reading = match Reading::of(text.as_bytes()) {
            Ok(reading) => reading,
            Err(StorageError::Refused { refusal, place }) => {
                refused += 1;
                let bad = frames.bad.as_ref().map(|bad| bad.line);
                match refusal {
                    Refusal::Malformed => assert_eq!(bad, Some(place), "{text}"),
                    // Found before a bad line is reached, or with none.
                    _ => assert!(bad.is_none_or(|line| place > 0 && place < line), "{text}"),
                }
                continue;
            }
            Err(other) => panic!("{other}"),
        };
        opened += 1;
        assert_eq!(frames.bad, None, "{text}");
        let history = History::of(&frames.frames);
        let orphans = history.orphans();
        let tables: BTreeSet<Table> = standing(&history.tables).cloned().collect();
        let rowsets: BTreeSet<_> = standing(&history.rowsets).copied().collect();
        let vectors: BTreeSet<_> = standing(&history.vectors).filter(|v| !orphans.contains(v)).copied().collect();
        let shown = reading.snapshot.tables().iter();
        let shown = shown.map(|t| Table { id: t.table_id.0, shape: t.shape, name: t.table_name.clone() });
        assert_eq!(tables, shown.collect(), "{text}");
        assert_eq!(rowsets, reading.snapshot.rowsets().map(|(t, r)| (t.0, r.0)).collect(), "{text}");
        assert_eq!(vectors, reading.snapshot.dvs().map(|(t, r, v)| (t.0, r.0, v.0)).collect(), "{text}");
        assert_eq!(history.strays(), [], "{text}");
    }
    assert!(opened > 2_000 && refused > 2_000, "{opened} {refused}");
}

// Every tag is closed in its turn, and nothing is loaded or run.
fn sound_page(page: &str) {
    for word in ["http:", "https:", "src=", "<script", "<link", "@import", "javascript:", "onload", "<img", "<iframe"] {
        assert!(!page.contains(word), "{word}");
    }
    assert_eq!(page.matches("url(").count(), page.matches("url(#hatch)").count());
    let mut open = Vec::new();
    for tag in page.split('<').skip(1) {
        let name: String = tag.chars().take_while(|c| c.is_ascii_alphanumeric() || matches!(c, '/' | '!')).collect();
        let whole = tag.split('>').next().unwrap_or_default();
        if name.starts_with('!') || name == "meta" || whole.ends_with('/') {
            continue;
        }
        match name.strip_prefix('/') {
            Some(closed) => assert_eq!(open.pop().as_deref(), Some(closed), "{whole}"),
            None => open.push(name),
        }
    }
    assert!(open.is_empty(), "{open:?}");
}

fn page_of(place: &Place, manifest: impl AsRef<[u8]>, code: i32) -> String {
    let ran = on("inspect", &place.file("manifest", manifest), &["--html", &place.at("page.html").to_string_lossy()]);
    assert_eq!((ran.code, ran.err.as_str()), (code, ""));
    let page = std::fs::read_to_string(place.at("page.html")).expect("a page");
    sound_page(&page);
    assert_eq!(place.names(), ["manifest", "page.html"]);
    page
}

#[test]
fn the_page_shows_frames_and_what_stands() {
    let place = Place::new("page");
    let good = "B\nN,1,2,0\nT,0,7,slots\nA,0,0\nA,0,1\nV,0,1,0\nE\nB\nA,0,2\nD,0,0\nE\n";
    let page = page_of(&place, good, 0);
    assert_eq!(page.matches("class=\"box past\"").count(), 1);
    assert_eq!(page.matches("class=\"box\"").count(), 2);
    assert_eq!(page.matches("class=\"mark\"").count(), 1);
    assert!(!page.contains("class=\"torn\"") && page.contains(">opens<"));
    let torn = page_of(&place, format!("{good}B\nA,0,"), 0);
    assert!(torn.contains("class=\"torn\"") && torn.contains("opens, with a torn tail"));
    let empty = page_of(&place, "", 0);
    assert!(empty.contains("There is no frame in it."));
    let refused = page_of(&place, b"B\nT,0,7,<script>&'\"\x00\xff\nE\n", 1);
    assert!(refused.contains("refused by 2 at line 2") && refused.contains("&lt;script&gt;&amp;&#39;&quot;\\x00\\xff"));
}

#[test]
fn the_page_of_a_large_store_stays_readable() {
    let place = Place::new("large");
    let lives: String = (0..100).map(|i| format!("B\nA,0,{}\nA,0,{}\nE\n", 2 * i, 2 * i + 1)).collect();
    let page = page_of(&place, format!("B\nT,0,7,slots\nE\n{lives}"), 0);
    let height: f64 = between(&page, "viewBox=\"0 0 1120 ", "\"").parse().expect("a height");
    assert!(height < 1_300.0, "{height}");
    let many = page_of(&place, "B\nE\n".repeat(16_384), 0);
    assert_eq!(many.matches("class=\"adds\"").count(), 110);
    let gone: String = (0..400).map(|i| format!("B\nT,{i},0,t{i}\nE\nB\nX,{i}\nE\n")).collect();
    let page = page_of(&place, gone, 0);
    assert!(page.contains("400 tables"));
}

#[test]
fn a_page_that_cannot_be_written_is_told() {
    let place = Place::new("unwritten");
    let path = place.file("manifest", "B\nE\n");
    let folder = place.folder("taken");
    for to in [place.at("nowhere/page.html"), folder] {
        let ran = on("inspect", &path, &["--html", &to.to_string_lossy()]);
        assert_eq!((ran.code, ran.out.as_str()), (2, ""));
        assert!(ran.err.contains("cannot write"), "{}", ran.err);
    }
    assert_eq!(place.names(), ["manifest", "taken"], "no part of a page is left");
}
