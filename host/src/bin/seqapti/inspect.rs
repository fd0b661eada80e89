//! `seqapti inspect`: what a manifest holds.
use crate::check::Judged;
use crate::explain::Explained;
use crate::frames::{Frame, Ignored, Placed, Tail};
use crate::history::History;
use crate::line::{readable, Vector};
use crate::on_disk::OnDisk;
use crate::value::{list, number, object, text, Value};
use crate::{output, page, Done, Failed};
use seqapti::{NextIds, Reading, Table};
use std::path::Path;

pub enum Form<'a> {
    Words,
    Json,
    Html(&'a Path),
}

pub fn run(path: &Path, form: Form) -> Result<Done, Failed> {
    let judged = Judged::of(path)?;
    let on_disk = match (&judged.source.folder, &judged.verdict) {
        (Some(folder), Ok(reading)) => Some(OnDisk::of(folder, &reading.snapshot)?),
        _ => None,
    };
    let output = match form {
        Form::Words => words(&judged) + &on_disk.map_or(String::new(), |files| on_disk_words(&files)),
        Form::Json => format!("{}\n", json(&judged, on_disk)),
        Form::Html(file) => {
            let page = page::page(&judged, &on_disk.unwrap_or_default());
            output::replace(file, page.as_bytes())?;
            format!("wrote {}\n", file.display())
        }
    };
    Ok(Done { output, status: judged.status() })
}

/// The vectors that an opening drops.
pub fn orphans(judged: &Judged) -> Vec<Vector> {
    match judged.verdict {
        Ok(_) => History::of(&judged.frames.frames).orphans(),
        Err(_) => Vec::new(),
    }
}

fn words(judged: &Judged) -> String {
    let mut out = format!("{}: {}\n", judged.source.path.display(), judged.size());
    match &judged.verdict {
        Ok(reading) => out += &standing(reading),
        Err(explained) => out += &explained.words(),
    }
    if let Some(warning) = judged.warning() {
        out += &format!("warning: {warning}\n");
    }
    out += &frames_words(judged);
    for ignored in &judged.frames.ignored {
        out += &format!("passed over: {}\n", ignored_words(ignored));
    }
    for (t, r, v) in orphans(judged) {
        out += &format!("dropped by an opening: vector {v} over rowset {t}/{r}, which is not there\n");
    }
    if let Some(tail) = &judged.frames.tail {
        out += &tail_words(judged, tail);
    }
    out
}

fn standing(reading: &Reading) -> String {
    let NextIds { table, rowset, dv } = reading.next;
    let mut out = format!("next ids: table {table}, rowset {rowset}, vector {dv}\n");
    if reading.snapshot.tables().is_empty() {
        out += "no tables\n";
    }
    for table in reading.snapshot.tables() {
        out += &table_words(reading, table);
    }
    out
}

fn table_words(reading: &Reading, table: &Table) -> String {
    let id = table.table_id;
    let rowsets = reading.snapshot.get_rowsets_of(id).unwrap_or_default();
    let mut out =
        format!("table {id} `{}`, shape {}: {}\n", table.table_name, table.shape, plural(rowsets.len(), "rowset"));
    for rowset in rowsets {
        let vectors = reading.snapshot.get_dvs_of(id, *rowset).unwrap_or_default();
        let named: Vec<String> = vectors.iter().map(|v| v.to_string()).collect();
        let over = if named.is_empty() { String::new() } else { format!(", vectors {}", named.join(" ")) };
        out += &format!("  rowset {rowset}{over}\n");
    }
    out
}

pub fn plural(n: usize, kind: &str) -> String {
    format!("{n} {kind}{}", if n == 1 { "" } else { "s" })
}

fn frames_words(judged: &Judged) -> String {
    let (rewrite, since) = judged.frames.parted();
    let mut out = match rewrite {
        Some(frame) => {
            let (lines, what) = (lines(frame), frame.tally().words());
            format!("last rewrite: lines {lines}, {what}\n{} since\n", plural(since.len(), "frame"))
        }
        None => format!("{}, and no rewrite\n", plural(since.len(), "frame")),
    };
    for (i, frame) in since.iter().enumerate() {
        out += &format!("  frame {}, lines {}: {}\n", i + 1, lines(frame), frame.tally().words());
        for placed in &frame.ops {
            out += &format!("    {}\n", placed.op);
        }
    }
    out
}

pub fn lines(frame: &Frame) -> String {
    format!("{} to {}", frame.lines.start, frame.lines.end - 1)
}

pub fn ignored_words(ignored: &Ignored) -> String {
    match ignored {
        Ignored::Outside(placed) => format!("line {}, {} in no frame", placed.line, placed.op),
        Ignored::End { line } => format!("line {line}, an E with no frame open"),
        Ignored::CutShort(frame) => {
            format!("lines {}, a frame that another B cut short: {}", lines(frame), frame.tally().words())
        }
        Ignored::Short(frame) => {
            let landed = plural(frame.bytes.len(), "byte");
            format!("lines {}, {landed} of an append that came short: {}", lines(frame), frame.tally().words())
        }
    }
}

fn tail_words(judged: &Judged, tail: &Tail) -> String {
    let mut out = format!("{}\n", judged.tail_words().unwrap_or_default());
    for placed in &tail.ops {
        out += &format!("  would {}\n", placed.op.words());
    }
    if tail.in_a_line() {
        out += &format!("  ends in a line: {}\n", readable(&tail.rest));
    }
    out
}

fn on_disk_words(files: &OnDisk) -> String {
    let not_live = files.not_live.iter().map(|name| format!("not live: {name}, which nothing committed names\n"));
    let missing = files.missing.iter().map(|name| format!("missing: {name}, which the manifest names\n"));
    not_live.chain(missing).collect()
}

fn json(judged: &Judged, on_disk: Option<OnDisk>) -> Value {
    let (rewrite, since) = judged.frames.parted();
    let reading = judged.verdict.as_ref().ok();
    object([
        ("path", text(judged.source.path.display())),
        ("opens", Value::Bool(reading.is_some())),
        ("refusal", judged.verdict.as_ref().err().map_or(Value::Null, Explained::json)),
        ("warning", judged.warning().map_or(Value::Null, text)),
        ("bytes", number(judged.source.length)),
        ("lines", number(judged.frames.lines)),
        ("next", reading.map_or(Value::Null, |r| next_json(&r.next))),
        ("tables", reading.map_or(Value::Null, |r| list(r.snapshot.tables().iter().map(table_json)))),
        ("rowsets", reading.map_or(Value::Null, |r| list(r.snapshot.rowsets().map(|(t, s)| pair_json(t.0, s.0))))),
        (
            "vectors",
            reading.map_or(Value::Null, |r| list(r.snapshot.dvs().map(|(t, s, v)| vector_json((t.0, s.0, v.0))))),
        ),
        ("rewrite", rewrite.map_or(Value::Null, frame_json)),
        ("frames", list(since.iter().map(frame_json))),
        ("passed_over", list(judged.frames.ignored.iter().map(ignored_words).map(text))),
        ("orphan_vectors", list(orphans(judged).into_iter().map(vector_json))),
        ("tail", judged.frames.tail.as_ref().map_or(Value::Null, tail_json)),
        ("not_live", on_disk.as_ref().map_or(Value::Null, |files| list(files.not_live.iter().map(text)))),
        ("missing", on_disk.as_ref().map_or(Value::Null, |files| list(files.missing.iter().map(text)))),
    ])
}

fn next_json(next: &NextIds) -> Value {
    object([("table", number(next.table)), ("rowset", number(next.rowset)), ("vector", number(next.dv))])
}

fn table_json(table: &Table) -> Value {
    object([("table", number(table.table_id)), ("shape", number(table.shape)), ("name", text(&table.table_name))])
}

fn pair_json(table: u32, rowset: u32) -> Value {
    object([("table", number(table)), ("rowset", number(rowset))])
}

pub fn vector_json((table, rowset, vector): Vector) -> Value {
    object([("table", number(table)), ("rowset", number(rowset)), ("vector", number(vector))])
}

fn frame_json(frame: &Frame) -> Value {
    let tally = frame.tally();
    object([
        ("first_line", number(frame.lines.start)),
        ("last_line", number(frame.lines.end - 1)),
        ("from_byte", number(frame.bytes.start)),
        ("to_byte", number(frame.bytes.end)),
        ("adds", number(tally.added())),
        ("deletes", number(tally.deleted())),
        ("operations", list(frame.ops.iter().map(placed_json))),
    ])
}

fn placed_json(placed: &Placed) -> Value {
    object([("line", number(placed.line)), ("text", text(&placed.op))])
}

fn tail_json(tail: &Tail) -> Value {
    object([
        ("from_byte", number(tail.from)),
        ("bytes", number(tail.bytes)),
        ("frame_begun", Value::Bool(tail.begun)),
        ("in_a_line", Value::Bool(tail.in_a_line())),
        ("operations", list(tail.ops.iter().map(placed_json))),
        ("rest", text(readable(&tail.rest))),
    ])
}
