//! The original's driver, given what the port has accepted.
use std::io::{BufRead, BufReader, Write};
use std::process::{Command, Stdio};

use crate::list::{Entry, READING, items};

/// The lines for the driver, and the places of those that it answers.
pub struct Given {
    pub lines: Vec<String>,
    pub places: Vec<usize>,
}

/// A refusal that the original has an answer to: a held lock, a free one, a record of another writer.
fn refused_alike(entry: &Entry) -> bool {
    match entry.word() {
        "lock" => entry.refused_by(25),
        "unlock" => entry.refused_by(27),
        "decode" => entry.refused_by(7),
        _ => false,
    }
}

/// Whether the next call that the port accepts, reading ones aside, is a reopen.
fn reopened_next(entries: &[Entry]) -> bool {
    let writes = |entry: &&Entry| entry.word() == "write";
    let changes = |entry: &&Entry| entry.accepted() && !READING.contains(&entry.word());
    let next = entries.iter().find(|entry| changes(entry) || writes(entry));
    next.is_some_and(|entry| entry.word() == "reopen")
}

/// Where maps walk in any order, grouping gives ids to other rowsets than in the port: the rows of each id follow.
fn rows_by_id(group: &Entry) -> Vec<String> {
    let answer = group.answer.as_deref().unwrap();
    let line = |fields: &Vec<&str>| format!("#! rows {} {}", fields[0], fields[3].replace('+', " "));
    items(answer).iter().map(line).collect()
}

/// The places of the lines that the driver gets.
pub fn taken(entries: &[Entry]) -> Vec<usize> {
    let mut places = vec![];
    // Whether the file is other than what the last call left.
    let mut touched = false;
    for (place, entry) in entries.iter().enumerate() {
        let taken = match entry.word() {
            "cut" | "stale" => true,
            "write" => reopened_next(&entries[place + 1..]),
            "#!" if entry.line.starts_with("#! scan") => entries[place + 1].accepted(),
            "#!" => true,
            "file" => entry.accepted() && !touched,
            _ => entry.accepted() || refused_alike(entry),
        };
        touched = match entry.word() {
            "cut" | "stale" | "write" => true,
            "fresh" => false,
            "reopen" if entry.accepted() => false,
            _ => touched,
        };
        if taken {
            places.push(place);
        }
    }
    places
}

pub fn given(entries: &[Entry], ordered: bool) -> Given {
    let mut given = Given { lines: vec![], places: vec![] };
    for place in taken(entries) {
        let entry = &entries[place];
        given.lines.push(entry.line.clone());
        if entry.answer.is_some() {
            given.places.push(place);
        }
        if entry.word() == "group" && !ordered {
            given.lines.extend(rows_by_id(entry));
        }
    }
    given
}

/// The driver's answers; with `--each`, one for every line.
pub fn answers(program: &str, lines: &[String], options: &[&str]) -> Vec<String> {
    let started = Command::new(program).args(options).stdin(Stdio::piped()).stdout(Stdio::piped()).spawn();
    let mut child = started.unwrap_or_else(|e| panic!("{program}: {e}"));
    let mut input = child.stdin.take().unwrap();
    let text = lines.join("\n") + "\n";
    let writer = std::thread::spawn(move || input.write_all(text.as_bytes()));
    let output = BufReader::new(child.stdout.take().unwrap());
    let answers = output.lines().map(Result::unwrap).collect();
    let _ = writer.join();
    let _ = child.wait();
    answers
}
