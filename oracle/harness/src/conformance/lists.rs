//! The lists for the driver.
use super::read::{bits_of, bytes_of, handle_of, is_readable, narrow_numbers, operations_of};
use crate::list::Entry;
use crate::original;

/// A list with looks at what the original holds in between, which are orders for the driver alone.
pub struct Looked {
    pub lines: Vec<String>,
    /// Whether the line was put in.
    pub added: Vec<bool>,
}

impl Looked {
    fn push(&mut self, line: &str, added: bool) {
        self.lines.push(line.into());
        self.added.push(added);
    }
}

fn changes(line: &str) -> bool {
    const CHANGING: [&str; 9] =
        ["commit", "create", "drop", "compact", "reopen", "fresh", "vacuum", "pin", "unpin"];
    CHANGING.contains(&line.split(' ').next().unwrap()) || line == "#! open"
}

/// The file is looked at before each opening, all that is held after each change, and what is in memory of a vector
/// whose file was read.
pub fn with_looks(lines: &[String]) -> Looked {
    let mut looked = Looked { lines: vec![], added: vec![] };
    for line in lines {
        if line == "reopen" || line == "#! open" {
            looked.push("#! lines", true);
        }
        looked.push(line, false);
        if changes(line) {
            looked.push("#! held", true);
        }
        if let Some(bytes) = line.strip_prefix("decode ") {
            looked.push(&format!("#! vector {bytes}"), true);
        }
    }
    looked
}

/// Whether the driver can carry the line out by itself, be it accepted by the port or refused. Locks are left out: no
/// definition speaks of them. So is selection, which has a size for each rowset that the port shows.
fn is_taken(entry: &Entry) -> bool {
    let words: Vec<&str> = entry.line.split(' ').collect();
    match words[..] {
        ["draw", "rowset" | "vector"] | ["pin"] | ["vacuum"] | ["state"] | ["stale"] => true,
        ["reopen"] | ["fresh"] | ["#!", "rows", ..] => true,
        ["commit", ..] => operations_of(words[1..].iter().copied()).is_some(),
        ["create", shape, name] => shape.parse::<u32>().is_ok() && !name.is_empty(),
        ["drop", table] => table.parse::<u32>().is_ok(),
        ["unpin" | "cut", number] | ["show", _, number] => number.parse::<u64>().is_ok(),
        ["compact", ..] => entry.accepted(),
        ["encode", ..] => narrow_numbers(&words[1..]).is_some(),
        ["decode", bytes] => bytes_of(bytes).is_some(),
        ["mask", offset, bits, ..] => {
            offset.parse::<u32>().is_ok() && bits_of(bits).is_some() && narrow_numbers(&words[3..]).is_some()
        }
        ["group", ..] => words[1..].iter().all(|word| handle_of(word).is_some()),
        ["write", ..] => is_readable(entry.line.strip_prefix("write ").unwrap_or("")),
        _ => false,
    }
}

/// The same calls once more, where nothing is settled and what the port refuses is carried out too: the original fails
/// as it does by itself. Versions are dropped before their manager goes, since what one does that outlives it is in no
/// definition.
pub fn literal_list(entries: &[Entry]) -> Vec<String> {
    let mut lines = vec!["#! literal".to_string()];
    for entry in entries.iter().filter(|entry| is_taken(entry)) {
        if ["reopen", "fresh"].contains(&entry.word()) {
            lines.push("#! unpin".into());
        }
        lines.push(entry.line.clone());
    }
    lines
}

/// The calls that the port accepts, where the original reads a file as it does by itself, up to its last whole value.
pub fn own_list(entries: &[Entry]) -> Vec<String> {
    let entries = original::taken(entries).into_iter().map(|place| &entries[place]);
    let lines = entries.filter(|entry| is_taken(entry)).map(|entry| entry.line.clone());
    ["#! own".to_string()].into_iter().chain(lines).collect()
}
