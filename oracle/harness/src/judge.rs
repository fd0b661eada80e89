//! The original's answers beside the port's.
use std::collections::BTreeMap;

use crate::list::Entry;

/// Known differences, each said in docs/DIFFERENCES.md. Some are found here, others noted by the driver.
pub const KNOWN: [&str; 15] = [
    "catalog",
    "drop-lines",
    "drop-notice",
    "few-taken",
    "grouping-order",
    "lone-rowset",
    "next-ids",
    "orphan-vector",
    "reader",
    "second-begin",
    "selection-order",
    "selection-wraps",
    "torn-tail",
    "vacuum-order",
    "vectors-left",
];

pub struct Judged {
    /// How often each known difference was met.
    pub known: BTreeMap<String, usize>,
    pub compared: usize,
    /// What differs and is not known: the entry's place, and the original's answer.
    pub unknown: Vec<(usize, String)>,
}

/// One answer of each, and what is needed to compare them.
struct Answers<'a> {
    entry: &'a Entry,
    port: &'a str,
    original: &'a str,
    /// What the driver has noted.
    notes: &'a [&'a str],
    /// Whether the original's maps walk ascending.
    ordered: bool,
    /// How long the port's file was when it was last made.
    made: usize,
}

fn fields(answer: &str) -> Vec<&str> {
    answer.split(',').collect()
}

fn sorted(answer: &str) -> Vec<&str> {
    let mut items = fields(answer);
    items.sort_unstable();
    items
}

impl Answers<'_> {
    /// None if they are the same, else the difference's name.
    fn difference(&self) -> Option<&'static str> {
        let same = |same: bool| (!same).then_some("unknown");
        match self.entry.word() {
            "commit" | "create" | "drop" | "compact" | "reopen" | "state" => {
                same(self.port.rsplit_once(',').map(|p| p.0) == Some(self.original))
            }
            "unpin" => same(self.due_and_ready()),
            "vacuum" => self.vacuum(),
            "file" => self.file(),
            "select" => self.select(),
            "group" => self.group(),
            "decode" => self.decode(),
            "lock" if self.entry.refused_by(25) => same(self.original == "held"),
            "unlock" if self.entry.refused_by(27) => same(self.original == "free"),
            _ => same(self.port == self.original),
        }
    }

    /// The number ready may be lower than what a vacuum would list.
    fn due_and_ready(&self) -> bool {
        let (port, original) = (fields(self.port), fields(self.original));
        let ready = |f: &[&str]| f.get(2).and_then(|n| n.parse::<usize>().ok());
        port[0] == original[0] && port.get(1) == original.get(1) && ready(&port) <= ready(&original)
    }

    fn vacuum(&self) -> Option<&'static str> {
        match self.port == self.original {
            true => None,
            false if sorted(self.port) == sorted(self.original) => Some("vacuum-order"),
            false => Some("unknown"),
        }
    }

    /// What was appended since the file was made, but for the `!` before each frame; in a frame of a drop the order of
    /// lines may differ.
    fn file(&self) -> Option<&'static str> {
        let text = self.port.splitn(3, ',').nth(2).unwrap_or("").replace("\\n", "\n");
        let text = if text == "-" { String::new() } else { text };
        let original = self.original.split_once(',').map_or("", |f| f.1).replace("\\n", "\n");
        let Some(appended) = text.get(self.made..) else { return Some("unknown") };
        let Some(appended) = without_marks(appended) else { return Some("unknown") };
        match appended == original {
            true => None,
            false if sorted_frames(&appended) == sorted_frames(&original) => Some("drop-lines"),
            false => Some("unknown"),
        }
    }

    /// One rowset alone is selected exactly where the driver has found a vector over it, and by the original never.
    fn select(&self) -> Option<&'static str> {
        let alone = fields(self.port).len() == 3;
        if alone != self.notes.contains(&"lone-rowset") {
            return Some("unknown");
        }
        if self.port == self.original || alone && self.original == "selected,0" {
            return None;
        }
        let words: Vec<u64> = self.entry.line.split(' ').skip(2).map(|w| w.parse().unwrap()).collect();
        let (target, sizes) = (words[0], &words[1..]);
        let taken = fields(self.original).len() - 2;
        let wraps = sizes.iter().try_fold(0u64, |sum, size| sum.checked_add(*size)).is_none();
        match (wraps, self.ordered) {
            (true, true) if taken == wrapping_count(sizes, target) => Some("selection-wraps"),
            (true, false) => Some("selection-wraps"),
            (false, false) => Some("selection-order"),
            _ => Some("unknown"),
        }
    }

    /// Ids may go to other rowsets: the rowsets with their files and rows, and the ids, each as a set.
    fn group(&self) -> Option<&'static str> {
        if self.port == self.original {
            return None;
        }
        let split = |answer: &str| {
            let items = answer.split(',').skip(2).map(|item| item.split_once(':').unwrap());
            let (mut ids, mut vectors): (Vec<_>, Vec<_>) =
                items.map(|(id, vector)| (id.to_string(), vector.to_string())).unzip();
            ids.sort_unstable();
            vectors.sort_unstable();
            (ids, vectors)
        };
        match !self.ordered && split(self.port) == split(self.original) {
            true => Some("grouping-order"),
            false => Some("unknown"),
        }
    }

    /// The port's reader takes what the writer makes and nothing else.
    fn decode(&self) -> Option<&'static str> {
        if !self.entry.refused_by(7) {
            return (self.port != self.original).then_some("unknown");
        }
        if self.original.starts_with("error,") {
            return None;
        }
        let rows = fields(self.original).into_iter().skip(2).map(|row| row.parse().unwrap());
        let hex: String = rows.flat_map(record).map(|byte| format!("{byte:02x}")).collect();
        match self.entry.line.ends_with(&format!(" {hex}")) {
            true => Some("unknown"),
            false => Some("reader"),
        }
    }
}

/// A record as the writer makes it.
fn record(row: u32) -> Vec<u8> {
    let mut body = vec![];
    if row > 0 {
        body.push(8);
        let mut left = row;
        while left >= 128 {
            body.push(left as u8 | 128);
            left >>= 7;
        }
        body.push(left as u8);
    }
    body.insert(0, body.len() as u8);
    body
}

/// The frames, if each has its `!` before it.
fn without_marks(text: &str) -> Option<String> {
    text.split_inclusive("E\n").map(|frame| frame.strip_prefix("!\n")).collect()
}

fn sorted_frames(text: &str) -> Vec<Vec<&str>> {
    let frames = text.split_inclusive("E\n").map(|frame| {
        let mut lines: Vec<&str> = frame.lines().collect();
        lines.sort_unstable();
        lines
    });
    frames.collect()
}

/// How many are taken, ascending, where sums wrap; one alone is none.
fn wrapping_count(sizes: &[u64], target: u64) -> usize {
    let (mut sum, mut taken) = (0u64, 0);
    for size in sizes {
        if sum.wrapping_add(*size) <= target {
            sum = sum.wrapping_add(*size);
            taken += 1;
        }
    }
    if taken > 1 { taken } else { 0 }
}

/// Splits the notes off an answer.
fn noted(answer: &str) -> (&str, Vec<&str>) {
    let mut parts = answer.split(';');
    (parts.next().unwrap(), parts.collect())
}

/// The places of the entries that the original was given and answered, and its answers.
pub fn judge(entries: &[Entry], given: &[usize], answers: &[String], ordered: bool) -> Judged {
    let mut judged = Judged { known: BTreeMap::new(), compared: 0, unknown: vec![] };
    let mut made = 0;
    for (place, answer) in given.iter().zip(answers) {
        let entry = &entries[*place];
        let port = entry.answer.as_deref().unwrap();
        let (original, notes) = match answer.starts_with("error,") || answer.starts_with("panic,") {
            true => (answer.as_str(), vec![]),
            false => noted(answer),
        };
        match entry.word() {
            "fresh" => made = 0,
            "reopen" => made = fields(port)[1].parse().unwrap(),
            _ => {}
        }
        let found = Answers { entry, port, original, notes: &notes, ordered, made }.difference();
        for name in notes.into_iter().chain(found) {
            if KNOWN.contains(&name) {
                *judged.known.entry(name.into()).or_default() += 1;
            } else {
                judged.unknown.push((*place, answer.clone()));
            }
        }
        judged.compared += 1;
    }
    for place in given.iter().skip(answers.len()).take(1) {
        judged.unknown.push((*place, "no answer".into()));
    }
    judged
}
