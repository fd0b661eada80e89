//! `seqapti import`: the original's JSON manifest made into one of this store.
use crate::inspect::{plural, vector_json};
use crate::line::{name_fault, readable, Pair, Vector};
use crate::original::{replay, Columns, Entry, Refused, Replayed, Sets};
use crate::source::{whole, JSON_MANIFEST_FILE_NAME};
use crate::value::{list, number, object, text, Value};
use crate::{beside, output, Done, Failed};
use seqapti::{Reading, StorageError, MANIFEST_FILE_NAME};
use std::fs;
use std::path::{Path, PathBuf};

pub const SHAPES_FILE_NAME: &str = "shapes.json";
const MOST_TABLES: usize = 16;
const MOST_HELD: usize = 256;
const LONGEST_MANIFEST: usize = 65_536;
/// More than any manifest of a store that the limits hold.
const MOST_READ: u64 = 256 << 20;

pub fn run(from: &Path, to: &Path, drop_torn: bool, as_json: bool) -> Result<Done, Failed> {
    let from = if from.is_dir() { from.join(JSON_MANIFEST_FILE_NAME) } else { from.to_path_buf() };
    let files = Files::of(to)?;
    let json = whole(&from, MOST_READ)?;
    let made = Import::of(&json, drop_torn);
    if let Ok(import) = &made {
        output::create_all(&[
            (files.shapes.clone(), import.shapes_file()),
            (files.manifest.clone(), import.manifest.clone()),
        ])?;
    }
    let output = match (&made, as_json) {
        (Ok(import), false) => import.words(&from, &files),
        (Ok(import), true) => format!("{}\n", import.json(&files)),
        (Err(refusals), false) => refused_words(&from, refusals),
        (Err(refusals), true) => format!("{}\n", refused_json(refusals)),
    };
    Ok(Done { output, status: made.is_err().into() })
}

struct Files {
    manifest: PathBuf,
    shapes: PathBuf,
}

impl Files {
    fn of(to: &Path) -> Result<Files, Failed> {
        let files = match to.is_dir() {
            true => Files { manifest: to.join(MANIFEST_FILE_NAME), shapes: to.join(SHAPES_FILE_NAME) },
            false => Files { manifest: to.to_path_buf(), shapes: beside(to, &format!(".{SHAPES_FILE_NAME}")) },
        };
        for path in [&files.manifest, &files.shapes] {
            if fs::symlink_metadata(path).is_ok() {
                return Err(Failed(format!("{} is there already, and no file is written over", path.display())));
            }
        }
        Ok(files)
    }
}

/// What an import is going to write, and what it has to say.
struct Import {
    replayed: Replayed,
    length: usize,
    dropped_torn: bool,
    orphans: Vec<Vector>,
    shapes: Vec<Columns>,
    counts: [usize; 3],
    next: Vector,
    manifest: Vec<u8>,
}

impl Import {
    fn of(json: &[u8], drop_torn: bool) -> Result<Import, Vec<Refused>> {
        let replayed = replay(json, !drop_torn).map_err(|refused| vec![refused])?;
        let mut sets = Sets::of(&replayed.applied).map_err(|refused| vec![refused])?;
        let orphans: Vec<Vector> =
            sets.vectors.iter().filter(|(t, r, _)| !sets.rowsets.contains(&(*t, *r))).copied().collect();
        sets.vectors.retain(|(t, r, _)| sets.rowsets.contains(&(*t, *r)));
        let over = limits(&sets);
        if !over.is_empty() {
            return Err(over);
        }
        let (shapes, manifest) = write(&sets);
        judge(&manifest)?;
        Ok(Import {
            length: json.len(),
            replayed,
            dropped_torn: drop_torn,
            orphans,
            shapes,
            counts: [sets.tables.len(), sets.rowsets.len(), sets.vectors.len()],
            next: sets.next,
            manifest,
        })
    }

    /// One shape a line.
    fn shapes_file(&self) -> Vec<u8> {
        let shapes: Vec<String> = self.shapes.iter().enumerate().map(|(i, c)| shape_json(i, c).to_string()).collect();
        format!("{{\"shapes\":[\n{}\n]}}\n", shapes.join(",\n")).into_bytes()
    }
}

/// All limits that do not hold the sets.
fn limits(sets: &Sets) -> Vec<Refused> {
    let mut over = Vec::new();
    let counts = [
        (sets.tables.len(), MOST_TABLES, "tables"),
        (sets.rowsets.len(), MOST_HELD, "rowsets"),
        (sets.vectors.len(), MOST_HELD, "vectors"),
    ];
    for (found, most, what) in counts {
        if found > most {
            over.push(Refused {
                what,
                at: None,
                why: format!("there are {found} {what}, and a store has at most {most}"),
            });
        }
    }
    for (id, (name, _)) in &sets.tables {
        if let Some(fault) = name_fault(name.as_bytes()) {
            let why = format!("table {id} is called `{}`, which {fault}", readable(name.as_bytes()));
            over.push(Refused { what: "name", at: None, why });
        }
    }
    let stray: Vec<&Pair> = sets.rowsets.iter().filter(|(table, _)| !sets.tables.contains_key(table)).collect();
    if let Some((t, r)) = stray.first() {
        let why = format!("{} whose table is not there, the first one {t}/{r}", plural(stray.len(), "rowset"));
        over.push(Refused { what: "table", at: None, why });
    }
    over
}

// The shapes, and the manifest just as the library would rewrite it.
fn write(sets: &Sets) -> (Vec<Columns>, Vec<u8>) {
    let mut shapes: Vec<Columns> = Vec::new();
    let (t, r, v) = sets.next;
    let mut lines = format!("B\nN,{t},{r},{v}\n");
    for (id, (name, columns)) in &sets.tables {
        let known = shapes.iter().position(|shape| shape == columns);
        let shape = known.unwrap_or_else(|| {
            shapes.push(columns.clone());
            shapes.len() - 1
        });
        lines += &format!("T,{id},{shape},{name}\n");
    }
    for (t, r) in &sets.rowsets {
        lines += &format!("A,{t},{r}\n");
    }
    for (t, r, v) in &sets.vectors {
        lines += &format!("V,{t},{r},{v}\n");
    }
    (shapes, (lines + "E\n").into_bytes())
}

// The library has the last word.
fn judge(manifest: &[u8]) -> Result<(), Vec<Refused>> {
    let why = match Reading::of(manifest) {
        Ok(reading) if reading.rewritten == manifest => return Ok(()),
        Ok(_) => "the library reads what would be written otherwise".to_string(),
        Err(StorageError::Refused { refusal, place }) => {
            format!("what would be written is refused by {}, place {place}: {refusal}", refusal.number())
        }
        Err(other) => other.to_string(),
    };
    let what = if manifest.len() > LONGEST_MANIFEST { "bytes" } else { "manifest" };
    Err(vec![Refused { what, at: None, why }])
}

fn refused_words(from: &Path, refusals: &[Refused]) -> String {
    let mut out = format!("{}: refused, nothing is written\n", from.display());
    for Refused { what, at, why } in refusals {
        let place = at.map_or(String::new(), |at| format!(" at byte {at}"));
        out += &format!("  {what}{place}: {why}\n");
    }
    out
}

fn refused_json(refusals: &[Refused]) -> Value {
    let each = refusals.iter().map(|Refused { what, at, why }| {
        object([("what", text(what)), ("byte", at.map_or(Value::Null, number)), ("why", text(why))])
    });
    object([("imported", Value::Bool(false)), ("refusals", list(each))])
}

fn shape_json(shape: usize, columns: &Columns) -> Value {
    object([
        ("shape", number(shape)),
        ("column_descs", columns.column_descs.clone()),
        ("ordered_pk_ids", columns.ordered_pk_ids.clone()),
    ])
}

impl Import {
    fn words(&self, from: &Path, files: &Files) -> String {
        let [tables, rowsets, vectors] = self.counts;
        let (t, r, v) = self.next;
        let (manifest, shapes) = (files.manifest.display(), files.shapes.display());
        let mut out = format!("{}: imported to {manifest} and {shapes}\n", from.display());
        out += &format!(
            "  {} read; {}, {}, {}, {}\n  next ids: table {t}, rowset {r}, vector {v}\n",
            plural(self.replayed.frames, "frame"),
            plural(tables, "table"),
            plural(rowsets, "rowset"),
            plural(vectors, "vector"),
            plural(self.shapes.len(), "shape"),
        );
        out += &self.torn_words();
        out += &self.joined_words();
        for (t, r, v) in &self.orphans {
            out += &format!("left out: vector {v} over rowset {t}/{r}, which is not there\n");
        }
        out + &block("passed over, as the original does, in no frame:", &self.replayed.outside)
    }

    fn torn_words(&self) -> String {
        let mut out = String::new();
        if self.replayed.torn_frame {
            out += &block("left out, a frame at the end that did not end:", &self.replayed.open);
            if self.replayed.open.is_empty() {
                out += "left out, a frame at the end that did not end, without whole operations\n";
            }
        }
        if let Some(at) = self.replayed.cut_value {
            out += &format!("left out: the last {} bytes, from byte {at} on, a value cut off\n", self.length - at);
        }
        out
    }

    fn joined_words(&self) -> String {
        let heading = match self.dropped_torn {
            true => "left out, a torn frame with others written behind it, which the original counts after a restart:",
            false => {
                "warning: imported, since the original counts it after a restart: a torn frame with others written behind \
                 it. The rest of it never reached the disk; --drop-torn leaves this part out:"
            }
        };
        block(heading, &self.replayed.joined)
    }

    fn json(&self, files: &Files) -> Value {
        let entries = |all: &[Entry]| list(all.iter().map(|entry| text(entry.words())));
        let [tables, rowsets, vectors] = self.counts;
        let (t, r, v) = self.next;
        let next = object([("table", number(t)), ("rowset", number(r)), ("vector", number(v))]);
        object([
            ("imported", Value::Bool(true)),
            ("manifest", text(files.manifest.display())),
            ("shapes_file", text(files.shapes.display())),
            ("frames", number(self.replayed.frames)),
            ("tables", number(tables)),
            ("rowsets", number(rowsets)),
            ("vectors", number(vectors)),
            ("shapes", number(self.shapes.len())),
            ("next", next),
            ("torn_frame", if self.replayed.torn_frame { entries(&self.replayed.open) } else { Value::Null }),
            ("cut_value_byte", self.replayed.cut_value.map_or(Value::Null, number)),
            ("orphan_vectors", list(self.orphans.iter().copied().map(vector_json))),
            ("second_begin", entries(&self.replayed.joined)),
            ("second_begin_imported", Value::Bool(!self.dropped_torn)),
            ("outside_frames", entries(&self.replayed.outside)),
        ])
    }
}

fn block(heading: &str, entries: &[Entry]) -> String {
    match entries.is_empty() {
        true => String::new(),
        false => entries.iter().fold(format!("{heading}\n"), |out, entry| out + &format!("  {}\n", entry.words())),
    }
}
