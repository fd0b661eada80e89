//! `seqapti check` and what all commands share: refusals, places, exit statuses, odd files.
#[path = "../src/bin/seqapti/json.rs"]
mod json;
mod tool;
#[path = "../src/bin/seqapti/value.rs"]
#[allow(dead_code)]
mod value;

use seqapti::{Reading, StorageError};
use std::os::unix::ffi::OsStrExt;
use std::process::Stdio;
use tool::{command, on, ran, seqapti, Place};

const GOOD: &str = "B\nN,1,2,0\nT,0,7,slots\nA,0,0\nA,0,1\nE\nB\nA,0,2\nD,0,0\nD,0,1\nE\n";

fn valid_json(line: &str) {
    let mut values = json::Values::of(line.as_bytes());
    assert!(matches!(values.next(), Some((0, Ok(value::Value::Object(_))))), "{line}");
    assert!(values.next().is_none(), "{line}");
    assert_eq!(line.lines().count(), 1, "{line}");
}

// Manifests that are refused, with number, place and what has to be said of them.
fn refused() -> Vec<(String, u32, usize, &'static str)> {
    let many = |n: usize, line: &dyn Fn(usize) -> String| (0..n).map(line).collect::<String>();
    let tables = many(17, &|i| format!("T,{i},0,t{i}\n"));
    let rowsets = many(257, &|i| format!("A,0,{i}\n"));
    let vectors = many(257, &|i| format!("V,0,0,{i}\n"));
    let operations = many(601, &|_| "D,0,0\n".into());
    vec![
        ("B\nE\n".repeat(16_385), 1, 0, "65540 bytes"),
        (format!("{GOOD}B\nA,0,03\nE\n"), 2, 13, "leading zero"),
        ("\n".into(), 2, 1, "is empty"),
        ("B\r\n".into(), 2, 1, "none of B E T X A D V W N"),
        ("!B\n".into(), 2, 1, "none of B E T X A D V W N"),
        ("B\nA,0\n!\n".into(), 2, 2, "has 1 fields after A, which has 2"),
        ("B,\n".into(), 2, 1, "which has none"),
        ("A,1\n".into(), 2, 1, "has 1 fields after A, which has 2"),
        ("A,0,4294967295\n".into(), 2, 1, "above 4294967294"),
        ("V,0,0,18446744073709551615\n".into(), 2, 1, "above 18446744073709551614"),
        ("A,0,-1\n".into(), 2, 1, "no decimal number"),
        ("T,0,7,Slots\n".into(), 2, 1, "has `S` in it"),
        ("T,0,7,\n".into(), 2, 1, "a name that is empty"),
        (format!("T,0,7,{}\n", "a".repeat(33)), 2, 1, "33 bytes"),
        ("B\nT,0,7,slots\nE\nB\nT,0,7,rides\nE\n".into(), 3, 5, "table 0 `slots` of line 2 is still there"),
        ("B\nT,0,7,slots\nT,1,7,slots\nE\n".into(), 3, 3, "table 0 `slots` of line 2 is still there"),
        ("B\nX,3\nE\n".into(), 3, 2, "drops table 3, which is not there"),
        (format!("B\n{tables}E\n"), 4, 19, "17 tables, where 16 is the most"),
        (format!("B\nT,0,0,t\n{rowsets}E\n"), 4, 260, "257 rowsets, where 256 is the most"),
        (format!("B\nT,0,0,t\nA,0,0\n{vectors}E\n"), 4, 261, "257 vectors, where 256 is the most"),
        ("B\nT,0,7,slots\nA,5,1\nA,6,2\nE\n".into(), 5, 0, "5/1, 6/2"),
        (format!("B\n{operations}"), 6, 602, "601st"),
    ]
}

#[test]
fn each_refusal_has_number_place_text_and_advice() {
    let place = Place::new("refused");
    for (manifest, number, line, says) in refused() {
        match Reading::of(manifest.as_bytes()) {
            Err(StorageError::Refused { refusal, place }) => assert_eq!((refusal.number(), place), (number, line)),
            other => panic!("{manifest}: {other:?}"),
        }
        let path = place.file("manifest", &manifest);
        let words = on("check", &path, &[]);
        assert_eq!((words.code, words.err.as_str()), (1, ""));
        let at = if line == 0 { String::new() } else { format!(" at line {line}") };
        assert!(words.out.contains(&format!("refused by {number} (")), "{}", words.out);
        assert!(words.out.contains(&at) && words.out.contains(says), "{says}: {}", words.out);
        assert!(words.out.contains("what to do: "), "{}", words.out);
        if line > 0 {
            let text = manifest.lines().nth(line - 1).unwrap_or_default();
            assert!(words.out.contains(&format!("  line {line}: {text}")), "{}", words.out);
        }

        let json = on("check", &path, &["--json"]);
        assert_eq!(json.code, 1);
        valid_json(&json.out);
        assert!(json.out.contains(&format!("\"number\":{number},")), "{}", json.out);
        assert!(json.out.contains(&format!("\"place\":{line},")), "{}", json.out);

        // The other command says the same of it.
        let inspected = on("inspect", &path, &[]);
        assert_eq!(inspected.code, 1);
        assert!(inspected.out.contains(says), "{}", inspected.out);
        let inspected = on("inspect", &path, &["--json"]);
        assert_eq!(inspected.code, 1);
        valid_json(&inspected.out);
    }
}

#[test]
fn the_bytes_that_are_said_to_open_do() {
    let place = Place::new("opens_up_to");
    let mut said = 0;
    for (manifest, ..) in refused() {
        let manifest = if manifest.len() > 60_000 { manifest } else { format!("{GOOD}{manifest}") };
        let json = on("check", &place.file("manifest", &manifest), &["--json"]);
        let bytes = tool::between(&json.out, "\"opens_up_to_byte\":", "}");
        if json.code == 1 && bytes != "null" {
            said += 1;
            let n: usize = bytes.parse().expect("a number");
            assert!(n >= GOOD.len() && Reading::of(&manifest.as_bytes()[..n]).is_ok(), "{n} {manifest}");
        }
    }
    assert!(said > 15, "{said}");
}

#[test]
fn good_manifests_open() {
    let place = Place::new("good");
    let path = place.file("manifest", GOOD);
    for at in [path.as_path(), place.path()] {
        let words = on("check", at, &[]);
        assert_eq!((words.code, words.err.as_str()), (0, ""));
        assert!(words.out.contains("manifest: opens\n"), "{}", words.out);
        assert!(words.out.contains("1 table, 1 rowset, 0 vectors"), "{}", words.out);
        let json = on("check", at, &["--json"]);
        assert_eq!(json.code, 0);
        valid_json(&json.out);
        assert!(json.out.contains("\"opens\":true") && json.out.contains("\"refusal\":null"), "{}", json.out);
    }
    let empty = on("check", &place.file("empty", ""), &[]);
    assert_eq!(empty.code, 0);
    assert!(empty.out.contains("0 bytes, 0 lines, 0 frames"), "{}", empty.out);
}

#[test]
fn what_cannot_be_read_is_told_on_standard_error() {
    let place = Place::new("unread");
    let empty = place.folder("empty");
    let old = place.folder("old");
    place.file("old/manifest.json", "\"Begin\"\"End\"");
    let hidden = place.folder("hidden");
    std::fs::create_dir(hidden.join("manifest")).expect("a folder");
    let cases = [
        (place.at("nowhere"), "cannot read"),
        (empty, "holds no file `manifest`"),
        (old, "manifest.json"),
        (hidden, "cannot read"),
    ];
    for (path, says) in cases {
        for command in ["check", "inspect"] {
            let ran = on(command, &path, &[]);
            assert_eq!((ran.code, ran.out.as_str()), (2, ""));
            assert!(ran.err.starts_with("seqapti: ") && ran.err.contains(says), "{}", ran.err);
        }
    }
}

#[test]
fn odd_files_are_refused_and_nothing_more() {
    let place = Place::new("odd");
    let binary: Vec<u8> = (0..=255u8).cycle().take(4_000).collect();
    let ran = on("check", &place.file("binary", &binary), &[]);
    assert_eq!(ran.code, 1);
    assert!(ran.out.contains("refused by 2 (Malformed) at line 1\n"), "{}", ran.out);
    assert!(ran.out.contains("line 1: \\x00\\x01"), "{}", ran.out);

    let zeros = on("check", &place.file("zeros", vec![0; 4_096]), &[]);
    assert_eq!(zeros.code, 0, "no line ends in it: {}", zeros.out);
    assert!(zeros.out.contains("torn tail: 4096 bytes"), "{}", zeros.out);
    assert!(zeros.out.contains("warning: no line ends in it"), "{}", zeros.out);

    // The original writes no newline: to an opening all of its manifest is a torn tail.
    let original = place.file("original", include_bytes!("data/original.json"));
    for command in ["check", "inspect"] {
        let ran = on(command, &original, &[]);
        assert_eq!(ran.code, 0);
        assert!(ran.out.contains("warning: ") && ran.out.contains("`seqapti import`"), "{}", ran.out);
        valid_json(&on(command, &original, &["--json"]).out);
    }

    for (name, bytes) in [("lines", b"B\nE\n".repeat(2_621_440)), ("one_line", vec![b'x'; 10 << 20])] {
        let long = place.file(name, bytes);
        for command in ["check", "inspect"] {
            let started = std::time::Instant::now();
            let ran = on(command, &long, &[]);
            assert_eq!(ran.code, 1);
            assert!(ran.out.contains("refused by 1 (ManifestTooLong)"), "{}", &ran.out[..200]);
            assert!(ran.out.contains("10485760 bytes"), "{}", &ran.out[..200]);
            assert!(started.elapsed().as_secs() < 20);
        }
    }

    let json = on("check", &place.file("json", "\"Begin\"\n\"End\""), &[]);
    assert_eq!(json.code, 1);
    assert!(json.out.contains("`seqapti import` makes a manifest of it"), "{}", json.out);
}

#[test]
fn bad_usage_and_help() {
    let bad: [&[&str]; 9] = [
        &[],
        &["check"],
        &["check", "a", "b"],
        &["check", "a", "--html", "b"],
        &["inspect", "a", "--html"],
        &["inspect", "a", "--json", "--html", "b"],
        &["import", "a"],
        &["look", "a"],
        &["check", "--jsno", "a"],
    ];
    for arguments in bad {
        let ran = seqapti(arguments);
        assert_eq!((ran.code, ran.out.as_str()), (2, ""), "{arguments:?}");
        assert!(ran.err.starts_with("seqapti: "), "{}", ran.err);
    }
    for command in ["inspect", "check", "import"] {
        let ran = seqapti(&[command, "--help"]);
        assert_eq!((ran.code, ran.err.as_str()), (0, ""));
        assert!(ran.out.contains("examples:") && ran.out.contains("exit status:"), "{}", ran.out);
    }
    assert!(seqapti(&["--help"]).out.contains("exit status:"));
}

#[test]
fn names_of_files_may_be_anything() {
    let place = Place::new("names");
    let path = place.path().join(std::ffi::OsStr::from_bytes(b"a\xff\"b"));
    std::fs::write(&path, GOOD).expect("a file");
    for options in [&[][..], &["--json"]] {
        let ran = on("check", &path, options);
        assert_eq!(ran.code, 0);
    }
    valid_json(&on("check", &path, &["--json"]).out);
    place.file("--json", GOOD);
    let ran = ran(command().current_dir(place.path()).args(["check", "--", "--json"]).output().expect("the tool runs"));
    assert!(ran.out.starts_with("--json: opens\n"), "{}", ran.out);
}

#[test]
fn a_full_disk_and_a_closed_pipe_are_told() {
    let place = Place::new("full");
    let path = place.file("manifest", GOOD);
    if let Ok(full) = std::fs::File::options().write(true).open("/dev/full") {
        let ran = ran(command().arg("inspect").arg(&path).stdout(full).output().expect("the tool runs"));
        assert_eq!(ran.code, 2);
        assert!(ran.err.contains("cannot write to standard output"), "{}", ran.err);
    }
    // More than a pipe holds, and nobody reads it.
    let long = place.file("long", "B\nA,0,0\nD,0,0\nE\n".repeat(4_000));
    let mut child = command()
        .arg("inspect")
        .arg(&long)
        .stdout(Stdio::piped())
        .stderr(Stdio::piped())
        .spawn()
        .expect("the tool runs");
    drop(child.stdout.take());
    let ran = ran(child.wait_with_output().expect("it ends"));
    assert_eq!(ran.code, 2);
    assert!(ran.err.contains("cannot write to standard output"), "{}", ran.err);
}
