//! `seqapti import`: manifests that the original wrote, cut at every byte, and every limit.
mod tool;

use seqapti::{Reading, VersionManager};
use std::path::{Path, PathBuf};
use std::process::Command;
use tool::{names, ran, seqapti, Place, Ran};

// Written by the original itself. The first was rewritten by a restart and has two frames since.
const RESTARTED: &[u8] = include_bytes!("data/original.json");
const FRAMES: &[u8] = include_bytes!("data/original_frames.json");
// A compaction's append landed in part, and the next commit was written behind it.
const TORN: &[u8] = include_bytes!("data/original_torn.json");
// The original's compaction leaves the vectors of the rowsets that it took.
const COMPACTED: &[u8] = include_bytes!("data/original_compacted.json");

const BEGIN: &str = "\"Begin\"";
const END: &str = "\"End\"";

fn import(place: &Place, json: impl AsRef<[u8]>, options: &[&str]) -> (Ran, PathBuf) {
    let out = place.folder("out");
    std::fs::remove_dir_all(&out).expect("a folder");
    let out = place.folder("out");
    let from = place.file("manifest.json", json);
    let mut arguments = vec!["import".into(), from.into_os_string(), out.clone().into_os_string()];
    arguments.extend(options.iter().map(Into::into));
    (seqapti(&arguments), out)
}

fn manifest(out: &Path) -> String {
    std::fs::read_to_string(out.join("manifest")).expect("a manifest")
}

fn create(name: &str) -> String {
    create_with(name, "\"Int32\"", "[0]")
}

fn create_with(name: &str, kind: &str, keys: &str) -> String {
    let column = format!(
        "{{\"id\":0,\"desc\":{{\"name\":\"Id\",\"data_type\":{kind},\"is_nullable\":false,\"is_primary\":true}}}}"
    );
    format!("{{\"CreateTable\":{{\"schema_id\":1,\"table_name\":\"{name}\",\"column_descs\":[{column}],\"ordered_pk_ids\":{keys}}}}}")
}

fn table_ref(t: u64) -> String {
    format!("\"table_id\":{{\"schema_id\":1,\"table_id\":{t}}}")
}

fn drop_table(t: u64) -> String {
    format!("{{\"DropTable\":{{{}}}}}", table_ref(t))
}

fn rowset(kind: &str, t: u64, r: u64) -> String {
    format!("{{\"{kind}\":{{{},\"rowset_id\":{r}}}}}", table_ref(t))
}

fn add(t: u64, r: u64) -> String {
    rowset("AddRowSet", t, r)
}

fn vector(t: u64, r: u64, v: u64) -> String {
    format!("{{\"AddDV\":{{{},\"dv_id\":{v},\"rowset_id\":{r}}}}}", table_ref(t))
}

fn frame(ops: &[String]) -> String {
    format!("{BEGIN}{}{END}", ops.concat())
}

#[test]
fn stores_of_the_original_are_imported_and_open() {
    let place = Place::new("original");
    let shown = "T,0,0,slots\nT,2,1,queue\nA,0,0\nA,0,1\nA,0,3\nV,0,0,0\nV,0,3,1\nE\n";
    for json in [RESTARTED, FRAMES] {
        let (ran, out) = import(&place, json, &[]);
        assert_eq!((ran.code, ran.err.as_str()), (0, ""));
        assert_eq!(manifest(&out), format!("B\nN,3,4,2\n{shown}"));
        assert!(!ran.out.contains("left out") && !ran.out.contains("passed over"), "{}", ran.out);
        assert_eq!(names(&out), ["manifest", "shapes.json"]);
        let shapes = std::fs::read_to_string(out.join("shapes.json")).expect("shapes");
        assert!(shapes.starts_with("{\"shapes\":[\n{\"shape\":0,\"column_descs\":[{\"id\":7,"), "{shapes}");
        assert_eq!(shapes.lines().count(), 4, "{shapes}");

        let opened = VersionManager::open(&out).expect("an opening").manager;
        let snapshot = opened.snapshot().expect("a snapshot");
        assert_eq!(snapshot.rowsets().count(), 3);
        assert_eq!(snapshot.get_table_by_name("queue").map(|t| t.table_id.0), Some(2));
        assert_eq!(opened.draw_rowset_id().expect("an id").0, 4);
    }
}

#[test]
fn a_manifest_cut_at_any_byte_is_imported_up_to_its_last_whole_frame() {
    let place = Place::new("cuts");
    let ends: Vec<usize> = String::from_utf8_lossy(FRAMES).match_indices(END).map(|(at, _)| at + END.len()).collect();
    let mut whole = vec!["B\nN,0,0,0\nE\n".to_string()];
    for end in &ends {
        let (ran, out) = import(&place, &FRAMES[..*end], &[]);
        assert_eq!(ran.code, 0, "{ran:?}");
        whole.push(manifest(&out));
    }
    for cut in 0..=FRAMES.len() {
        let (ran, out) = import(&place, &FRAMES[..cut], &[]);
        assert_eq!((ran.code, ran.err.as_str()), (0, ""), "{cut}");
        let frames = ends.iter().filter(|end| **end <= cut).count();
        assert_eq!(manifest(&out), whole[frames], "{cut}");
        assert_eq!(ran.out.contains("left out"), cut != 0 && !ends.contains(&cut), "{cut} {}", ran.out);
    }
}

#[test]
fn torn_frames_with_others_behind_them_are_as_the_original_counts_them() {
    let place = Place::new("second_begin");
    let (ran, out) = import(&place, TORN, &[]);
    assert_eq!(ran.code, 0);
    assert!(
        ran.out.contains("warning: imported, since the original counts it")
            && ran.out.contains("add rowset 0/2 (byte 351)"),
        "{}",
        ran.out
    );
    assert_eq!(manifest(&out), "B\nN,1,3,0\nT,0,0,slots\nA,0,0\nA,0,1\nA,0,2\nE\n");
    let (ran, out) = import(&place, TORN, &["--drop-torn"]);
    assert_eq!(ran.code, 0);
    assert!(ran.out.contains("left out, a torn frame with others"), "{}", ran.out);
    assert_eq!(manifest(&out), "B\nN,1,2,0\nT,0,0,slots\nA,0,0\nA,0,1\nE\n");

    // Told once, however many Begins come, and not where no End applies it.
    let json = format!("{}{BEGIN}{}{BEGIN}{BEGIN}{}", frame(&[create("t")]), add(0, 0), add(0, 1));
    let (ran, out) = import(&place, format!("{json}{END}"), &["--json"]);
    assert_eq!(ran.code, 0);
    assert!(ran.out.contains("\"second_begin\":[\"add rowset 0/0 (byte "), "{}", ran.out);
    assert_eq!(ran.out.matches("add rowset").count(), 1, "{}", ran.out);
    assert!(manifest(&out).contains("A,0,0\nA,0,1\n"));
    let (ran, out) = import(&place, &json, &[]);
    assert_eq!(ran.code, 0);
    assert!(!ran.out.contains("warning") && ran.out.contains("left out, a frame at the end"), "{}", ran.out);
    assert!(!manifest(&out).contains('A'));
}

#[test]
fn what_is_left_out_is_named() {
    let place = Place::new("left_out");
    let (ran, out) = import(&place, COMPACTED, &[]);
    assert_eq!(ran.code, 0);
    assert!(ran.out.contains("left out: vector 0 over rowset 0/0, which is not there\n"), "{}", ran.out);
    assert_eq!(manifest(&out), "B\nN,1,3,1\nT,0,0,slots\nA,0,2\nE\n");

    let torn = format!("{}{}{BEGIN}{}{{\"AddRow", add(0, 7), frame(&[create("t")]), add(0, 1));
    let (ran, out) = import(&place, &torn, &[]);
    assert_eq!(ran.code, 0);
    for line in [
        "passed over, as the original does, in no frame:\n  add rowset 0/7 (byte 0)\n",
        "left out, a frame at the end that did not end:\n  add rowset 0/1 (byte ",
        "left out: the last 8 bytes, from byte ",
    ] {
        assert!(ran.out.contains(line), "{line}{}", ran.out);
    }
    assert_eq!(manifest(&out), "B\nN,1,0,0\nT,0,0,t\nE\n");
    let (ran, _) = import(&place, &torn, &["--json"]);
    assert!(
        ran.out.contains("\"torn_frame\":[\"add rowset 0/1") && ran.out.contains("\"outside_frames\":[\"add"),
        "{}",
        ran.out
    );
    // A vector whose table is gone stops the original; here it is left out.
    let gone = frame(&[create("t"), vector(0, 3, 0), drop_table(0)]);
    assert_eq!(import(&place, gone, &[]).0.code, 0);
}

#[test]
fn table_ids_are_counted_by_creates_and_equal_columns_share_a_shape() {
    let place = Place::new("shapes");
    let decimal = "{\"Decimal\":[null,null]}";
    let json = frame(&[
        add(2, 0),
        create("a"),
        create_with("b", decimal, "[0]"),
        drop_table(0),
        create("a"),
        create_with("c", decimal, "[]"),
        create_with("d", decimal, "[0]"),
    ]);
    let (ran, out) = import(&place, json, &[]);
    assert_eq!(ran.code, 0, "{ran:?}");
    assert_eq!(manifest(&out), "B\nN,5,1,0\nT,1,0,b\nT,2,1,a\nT,3,2,c\nT,4,0,d\nA,2,0\nE\n");
    let shapes = std::fs::read_to_string(out.join("shapes.json")).expect("shapes");
    assert!(shapes.contains(&format!("\"data_type\":{decimal}")) && shapes.lines().count() == 5, "{shapes}");
}

#[test]
fn every_limit_is_named_and_what_it_just_holds_is_taken() {
    let place = Place::new("limits");
    let tables = |n: u64| frame(&(0..n).map(|i| create(&format!("t{i}"))).collect::<Vec<_>>());
    let one = frame(&[create("t")]);
    let rowsets = |n: u64| one.clone() + &frame(&(0..n).map(|i| add(0, i)).collect::<Vec<_>>());
    let vectors =
        |n: u64| one.clone() + &frame(&[add(0, 0)]) + &frame(&(0..n).map(|i| vector(0, 0, i)).collect::<Vec<_>>());
    let named = |name: &str| frame(&[create(name)]);
    let numbered = |r: u64, v: u64| one.clone() + &frame(&[add(0, r), vector(0, r, v)]);
    let (most32, most64) = (u64::from(u32::MAX), u64::MAX);
    let held = [tables(16), rowsets(256), vectors(256), named(&"a".repeat(32)), numbered(most32 - 1, most64 - 1)];
    for json in held {
        let (ran, out) = import(&place, &json, &[]);
        assert_eq!((ran.code, ran.err.as_str()), (0, ""), "{}", ran.out);
        assert!(Reading::of(manifest(&out).as_bytes()).is_ok());
    }
    let over = [
        (tables(17), "tables: there are 17 tables, and a store has at most 16"),
        (rowsets(257), "rowsets: there are 257 rowsets, and a store has at most 256"),
        (vectors(257), "vectors: there are 257 vectors, and a store has at most 256"),
        (named(&"a".repeat(33)), "which has 33 bytes, and a name has at most 32"),
        (named(""), "which is empty"),
        (named("Slots"), "has `S` in it, and a name has only a-z, 0-9 and _"),
        (named("a b"), "has ` ` in it"),
        (named("a\\u00e9"), "has `\\xc3` in it"),
        (named("a\\nT,9,9,x"), "has `\\n` in it"),
        (numbered(most32, 0), "the rowset id 4294967295 is its width's largest value"),
        (numbered(0, most64), "the vector id 18446744073709551615 is its width's largest value"),
        (numbered(most32 + 1, 0), "rowset_id is 4294967296, which is no id of its width"),
        (one.clone() + &frame(&[add(9, 0)]), "1 rowset whose table is not there, the first one 9/0"),
        (one.clone() + &frame(&[add(most32, 0)]), "the table id 4294967295"),
        (one.clone() + &one, "it creates the table \"t\", which is there"),
        (frame(&[drop_table(4)]), "it drops table 4, which is not there"),
        (one.clone() + &frame(&[add(0, 0).replace("\"schema_id\":1", "\"schema_id\":2")]), "a store has one schema"),
    ];
    for (json, says) in over {
        let (ran, out) = import(&place, &json, &[]);
        assert_eq!((ran.code, ran.err.as_str()), (1, ""), "{says} {}", ran.out);
        assert!(ran.out.contains("refused, nothing is written\n") && ran.out.contains(says), "{says}: {}", ran.out);
        assert_eq!(names(&out), [""; 0]);
        let (ran, _) = import(&place, &json, &["--json"]);
        assert!(ran.code == 1 && ran.out.starts_with("{\"imported\":false,\"refusals\":[{\"what\":"), "{}", ran.out);
    }
    // What was dropped or deleted again counts for no limit.
    let past: Vec<String> = (0..40).flat_map(|i| [create("Name of a view"), drop_table(i)]).collect();
    let past = frame(&past)
        + &one
        + &frame(&(0..900).flat_map(|i| [add(40, i), rowset("DeleteRowSet", 40, i)]).collect::<Vec<_>>());
    let (ran, out) = import(&place, past, &[]);
    assert_eq!(ran.code, 0, "{}", ran.out);
    assert_eq!(manifest(&out), "B\nN,41,900,0\nT,40,0,t\nE\n");
}

#[test]
fn what_is_no_manifest_is_refused_at_its_byte() {
    let place = Place::new("malformed");
    let deep = |n: usize| frame(&[create_with("t", &("[".repeat(n) + &"]".repeat(n)), "[]")]);
    let cases: Vec<(String, &str)> = vec![
        ("B\nE\n".into(), "JSON at byte 0"),
        (format!("{BEGIN},{END}"), "JSON at byte 7"),
        (format!("{BEGIN}\"Beg{END}"), "operation at byte 7"),
        (format!("{BEGIN}{{\"AddRowSet\":{{\"table_id\":{{\"sch{BEGIN}{END}"), "JSON at byte"),
        (format!("{BEGIN}7{END}"), "operation at byte 7: this is no operation"),
        (format!("{BEGIN}[]{END}"), "this is no operation"),
        (format!("{BEGIN}{{}}{END}"), "this is no operation"),
        (format!("{BEGIN}{{\"Vacuum\":{{}}}}{END}"), "there is no operation \"Vacuum\""),
        (format!("{BEGIN}{{\"AddRowSet\":null}}{END}"), "an object with table_id, rowset_id is expected"),
        (frame(&[add(0, 0).replace("rowset_id", "rowset")]), "the field \"rowset\" is unknown"),
        (frame(&[add(0, 0).replace(",\"rowset_id\":0", "")]), "the field rowset_id is missing"),
        (frame(&[add(0, 0).replace("rowset_id", "table_id")]), "the field \"table_id\" stands there twice"),
        (frame(&[add(0, 0).replace("rowset_id\":0", "rowset_id\":0.0")]), "rowset_id is 0.0"),
        (frame(&[add(0, 0).replace("rowset_id\":0", "rowset_id\":-1")]), "rowset_id is -1"),
        (frame(&[add(0, 0).replace("rowset_id\":0", "rowset_id\":00")]), "leading zero"),
        (frame(&[add(0, 0).replace("rowset_id\":0", "rowset_id\":\"0\"")]), "rowset_id is no number"),
        (frame(&[add(0, 0).replace("rowset_id\":0", "rowset_id\":0,")]), "a field's name is expected"),
        (frame(&[create("t").replace("[0]", "[-]")]), "a digit is expected"),
        (frame(&[create("t").replace("[0]", "[0,]")]), "no value begins like this"),
        (frame(&[create("t").replace("[0]", "7")]), "have to be lists"),
        (frame(&[create("t").replace("true", "troe")]), "no value begins like this"),
        (frame(&[create("t").replace("true", "1")]), "is of another kind"),
        (frame(&[create("a\\x")]), "no such escape"),
        (frame(&[create("a\\ud800b")]), "this escape is no character"),
        (frame(&[create("a\\u12x4")]), "four hexadecimal digits"),
        (frame(&[create("a\tb")]), "a control character"),
        (deep(200), "more than 128 deep"),
        ("[".repeat(1 << 20), "more than 128 deep"),
    ];
    for (json, says) in cases {
        let (ran, out) = import(&place, &json, &[]);
        assert_eq!((ran.code, ran.err.as_str()), (1, ""), "{says}");
        assert!(ran.out.contains(says) && ran.out.contains(" at byte "), "{says}: {}", ran.out);
        assert_eq!(names(&out), [""; 0]);
    }
    let mut latin = frame(&[create("t")]).into_bytes();
    let at = latin.iter().position(|b| *b == b'I').expect("a column's name");
    latin[at] = 0xe9;
    let (ran, _) = import(&place, &latin, &[]);
    assert!(ran.code == 1 && ran.out.contains(&format!("JSON at byte {at}: this is not UTF-8")), "{}", ran.out);
    assert_eq!(import(&place, deep(100), &[]).0.code, 0);
    // Blanks between values are fine, and so is another order of fields.
    let blanks =
        format!(" {BEGIN}\n{{ \"AddRowSet\" : {{ \"rowset_id\" : 3 ,\t{} }} }}\r\n{}{END} ", table_ref(0), create("t"));
    let (ran, out) = import(&place, blanks, &[]);
    assert_eq!(ran.code, 0, "{}", ran.out);
    assert_eq!(manifest(&out), "B\nN,1,4,0\nT,0,0,t\nA,0,3\nE\n");
}

#[test]
fn bytes_by_chance_in_a_manifest_never_stop_the_tool() {
    let place = Place::new("chance");
    let mut seed = 88_172_645_463_325_252_u64;
    let mut below = |n: usize| {
        seed ^= seed << 13;
        seed ^= seed >> 7;
        seed ^= seed << 17;
        (seed >> 11) as usize % n
    };
    for _ in 0..400 {
        let mut json = RESTARTED.to_vec();
        for _ in 0..=below(3) {
            let at = below(json.len());
            match below(3) {
                0 => json[at] = below(256) as u8,
                1 => drop(json.remove(at)),
                _ => json.insert(at, b"\"{}[],:0\\"[below(9)]),
            }
        }
        let (ran, out) = import(&place, &json, &[]);
        assert!(matches!(ran.code, 0 | 1), "{ran:?}");
        assert_eq!(names(&out).is_empty(), ran.code == 1);
    }
}

#[test]
fn no_file_is_written_over_and_none_is_left_in_part() {
    let place = Place::new("files");
    let from = place.file("manifest.json", RESTARTED);
    let to = |name: &str| seqapti(&["import".as_ref(), from.as_os_str(), place.at(name).as_os_str()]);
    let ran = to("new");
    assert_eq!(ran.code, 0, "{ran:?}");
    assert_eq!(place.names(), ["manifest.json", "new", "new.shapes.json"]);
    let before = std::fs::read(place.at("new")).expect("a manifest");
    assert_eq!(to("new").code, 2);
    assert_eq!(std::fs::read(place.at("new")).expect("a manifest"), before);

    for taken in ["manifest", "shapes.json"] {
        let folder = place.folder(taken);
        std::fs::write(folder.join(taken), "mine").expect("a file");
        let ran = to(taken);
        assert_eq!((ran.code, ran.out.as_str()), (2, ""));
        assert!(ran.err.contains("no file is written over"), "{}", ran.err);
        assert_eq!(names(&folder), [taken]);
        assert_eq!(std::fs::read(folder.join(taken)).expect("a file"), b"mine");
    }
    let ran = to("nowhere/new");
    assert_eq!((ran.code, ran.out.as_str()), (2, ""));

    // In the original's own folder, beside its manifest.
    let own = place.folder("own");
    std::fs::write(own.join("manifest.json"), RESTARTED).expect("a file");
    assert_eq!(seqapti(&["import".as_ref(), own.as_os_str(), own.as_os_str()]).code, 0);
    assert_eq!(names(&own), ["manifest", "manifest.json", "shapes.json"]);
    assert!(VersionManager::open(&own).is_ok());
}

// No file may grow past 512 bytes: the shapes have more.
#[test]
fn a_disk_without_room_leaves_nothing() {
    let place = Place::new("room");
    let wide = frame(&(0..9).map(|i| create_with(&format!("t{i}"), &format!("[{i}]"), "[]")).collect::<Vec<_>>());
    let from = place.file("manifest.json", wide);
    let out = place.folder("out");
    let line = "trap '' XFSZ; ulimit -f 1; exec \"$0\" import \"$1\" \"$2\"";
    let mut shell = Command::new("sh");
    shell.args(["-c", line, env!("CARGO_BIN_EXE_seqapti")]).arg(&from).arg(&out);
    let ran = ran(shell.output().expect("a shell"));
    assert_eq!((ran.code, ran.out.as_str()), (2, ""), "{ran:?}");
    assert!(ran.err.contains("cannot write"), "{}", ran.err);
    assert_eq!(names(&out), [""; 0]);
}

#[test]
fn ten_megabytes_are_imported() {
    let place = Place::new("long");
    let mut json = frame(&[create("t")]);
    let mut next = 0;
    while json.len() < 10 << 20 {
        json +=
            &frame(&[add(0, next), vector(0, next, next), rowset("DeleteRowSet", 0, next), rowset("AddRowSet", 0, 0)]);
        next += 1;
    }
    let started = std::time::Instant::now();
    let (ran, out) = import(&place, &json, &["--json"]);
    assert_eq!(ran.code, 0, "{}", &ran.out[..300]);
    assert!(manifest(&out).starts_with(&format!("B\nN,1,{next},{next}\nT,0,0,t\nA,0,0\n")));
    assert!(started.elapsed().as_secs() < 60);
}
