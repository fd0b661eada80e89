//! Why a manifest is refused, and what can be done.
use crate::frames::{Frame, Frames};
use crate::history::{standing, History};
use crate::line::{readable, Op};
use crate::source::Source;
use crate::value::{number, object, text, Value};
use seqapti::{Reading, Refusal};

/// A refusal with all that an operator needs to know of it.
pub struct Explained {
    pub refusal: Refusal,
    /// A line from 1, or 0.
    pub place: usize,
    pub line: Option<String>,
    pub why: String,
    pub advice: String,
    /// The longest run of whole frames from the start that opens, in bytes.
    pub opens_up_to: Option<usize>,
}

/// How many ends of frames are tried for one at which the manifest opens.
const MOST_TRIED: usize = 64;

impl Explained {
    pub fn of(source: &Source, frames: &Frames, refusal: Refusal, place: usize) -> Explained {
        let opens_up_to = opens_up_to(source, frames, place);
        Explained {
            refusal,
            place,
            line: line_text(&source.bytes, place),
            why: why(source, frames, refusal, place),
            advice: advice(source, refusal, opens_up_to),
            opens_up_to,
        }
    }

    pub fn json(&self) -> Value {
        object([
            ("number", number(self.refusal.number())),
            ("name", text(format!("{:?}", self.refusal))),
            ("place", number(self.place)),
            ("line", self.line.as_ref().map_or(Value::Null, text)),
            ("sentence", text(self.refusal.sentence())),
            ("why", text(&self.why)),
            ("advice", text(&self.advice)),
            ("opens_up_to_byte", self.opens_up_to.map_or(Value::Null, number)),
        ])
    }

    /// The verdict and what belongs to it, a line each.
    pub fn words(&self) -> String {
        let at = if self.place == 0 { String::new() } else { format!(" at line {}", self.place) };
        let mut words = format!("refused by {} ({:?}){at}\n", self.refusal.number(), self.refusal);
        if let Some(line) = &self.line {
            words += &format!("  line {}: {line}\n", self.place);
        }
        words + &format!("  why: {}\n  what to do: {}\n", self.why, self.advice)
    }
}

fn line_text(bytes: &[u8], place: usize) -> Option<String> {
    let line = bytes.split(|b| *b == b'\n').nth(place.checked_sub(1)?)?;
    Some(readable(line))
}

// A frame that reaches the place is refused as the whole is.
fn opens_up_to(source: &Source, frames: &Frames, place: usize) -> Option<usize> {
    let before = frames.frames.iter().rev().filter(|frame| place == 0 || frame.lines.end <= place);
    let ends = before.map(|frame| frame.bytes.end);
    ends.take(MOST_TRIED).find(|end| Reading::of(&source.bytes[..*end]).is_ok())
}

fn why(source: &Source, frames: &Frames, refusal: Refusal, place: usize) -> String {
    match refusal {
        Refusal::ManifestTooLong => format!("it has {} bytes, and a manifest has at most 65,536", source.length),
        Refusal::Malformed => match &frames.bad {
            Some(bad) if bad.line == place => format!("line {place} {}", bad.fault),
            _ => format!("line {place} is not well formed"),
        },
        Refusal::TableConflict => conflict(&frames.frames, place),
        Refusal::OverLimit => over_limit(&frames.frames, place),
        Refusal::RowsetWithoutTable => strays(&frames.frames),
        Refusal::TooManyOperations => "it is the 601st operation of its frame, and a frame has at most 600".into(),
        other => other.sentence().into(),
    }
}

// The first clash of tables that a replay finds is at `place`.
fn conflict(frames: &[Frame], place: usize) -> String {
    let mut live: Vec<(u32, String, usize)> = Vec::new();
    for placed in frames.iter().flat_map(|frame| &frame.ops) {
        let at_place = placed.line == place;
        match &placed.op {
            Op::Create { table, name, .. } if at_place => {
                let same = live.iter().find(|(id, ..)| id == table);
                let other = same.or_else(|| live.iter().find(|(_, taken, _)| taken == name));
                return match other {
                    Some((id, taken, line)) => {
                        format!(
                            "it creates table {table} `{name}`, but table {id} `{taken}` of line {line} is still there"
                        )
                    }
                    None => format!("it creates table {table} `{name}`, which is there"),
                };
            }
            Op::Drop { table } if at_place => return format!("it drops table {table}, which is not there"),
            Op::Create { table, name, .. } => live.push((*table, name.clone(), placed.line)),
            Op::Drop { table } => live.retain(|(id, ..)| id != table),
            _ => {}
        }
    }
    Refusal::TableConflict.sentence().into()
}

fn over_limit(frames: &[Frame], place: usize) -> String {
    let upto = frames.iter().position(|frame| frame.lines.end == place + 1).map_or(frames.len(), |i| i + 1);
    let history = History::of(&frames[..upto]);
    let counts = [
        (standing(&history.tables).count(), 16, "tables"),
        (standing(&history.rowsets).count(), 256, "rowsets"),
        (standing(&history.vectors).count(), 256, "vectors"),
    ];
    let over: Vec<String> = counts
        .iter()
        .filter(|(n, most, _)| n > most)
        .map(|(n, most, kind)| format!("{n} {kind}, where {most} is the most"))
        .collect();
    format!("the frame that ends here leaves {}", over.join(" and "))
}

fn strays(frames: &[Frame]) -> String {
    let strays = History::of(frames).strays();
    let named: Vec<String> = strays.iter().take(8).map(|(t, r)| format!("{t}/{r}")).collect();
    let more =
        if strays.len() > named.len() { format!(" and {} more", strays.len() - named.len()) } else { String::new() };
    format!("at the end there are rowsets whose table is not there: {}{more} (table/rowset)", named.join(", "))
}

fn advice(source: &Source, refusal: Refusal, opens_up_to: Option<usize>) -> String {
    if source.looks_like_json() {
        return "This begins like a JSON manifest of the original store: `seqapti import` makes a manifest of it."
            .into();
    }
    let first = match refusal {
        Refusal::ManifestTooLong => {
            "No store writes a manifest of this length, so look first whether it is the right file; else take it from a backup."
        }
        Refusal::Malformed => {
            "Something else than the store has written here, or the disk has lost bytes: compare the line with a backup and put it right in a copy."
        }
        Refusal::TableConflict => "Find out in a backup which of the two lines is right, and take the other frame out in a copy.",
        Refusal::OverLimit => "No commit is accepted that leaves so much, so look for frames that a store did not write.",
        Refusal::RowsetWithoutTable => {
            "Look for the table's T line in a backup and put it back in a copy, or delete these rowsets there by a frame of D lines."
        }
        Refusal::TooManyOperations => "No commit has so many, so look for a frame that a store did not write, or for a lost E line.",
        _ => "The library refuses what it was handed; keep the file and report it.",
    };
    match opens_up_to {
        Some(n) => {
            format!("{first} The first {n} bytes open as they are (head -c {n}); what came later would be lost.")
        }
        None => format!("{first} No run of whole frames from the start was found that opens."),
    }
}
