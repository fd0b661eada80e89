//! A manifest of the port as the original's file: as it stands, and settled. Settled means that what the two are known
//! to read differently is written as the port reads it. Each reason has a name.
use std::collections::BTreeSet;

use serde::de::IgnoredAny;

use super::lines::{HALF_A_VALUE, Next, is_cut_short, json_of, next_of};

pub const TORN_TAIL: &str = "torn-tail";
pub const SECOND_BEGIN: &str = "second-begin";
pub const ORPHAN_VECTOR: &str = "orphan-vector";

/// The line that every append of the port begins with. The original has no value for it.
const MARK: &str = "!\n";

#[derive(Default)]
pub struct File {
    pub literal: Vec<u8>,
    pub settled: Vec<u8>,
    pub reasons: Vec<&'static str>,
    /// What the `N` lines of ended frames say, and the ids of vectors that were left out.
    pub next: Next,
}

/// A text of lines, cut after any byte.
pub fn file_of_text(text: &str) -> File {
    let mut lines: Vec<String> = text.split('\n').map(str::to_string).collect();
    let tail = lines.pop().unwrap();
    let mut file = File { literal: json_of(&lines), ..File::default() };
    let kept = without_torn_frames(lines, &mut file);
    let kept = without_orphans(kept, &mut file);
    file.settled = json_of(&kept);
    if !tail.is_empty() {
        file.literal.extend(HALF_A_VALUE);
        file.reasons.push(TORN_TAIL);
    }
    file
}

/// What a second `B` or a line that ends in `!` drops is left out, and `N` lines of ended frames are noted.
fn without_torn_frames(lines: Vec<String>, file: &mut File) -> Vec<String> {
    let mut kept = vec![];
    let mut frame: Option<Vec<String>> = None;
    for line in lines {
        match (line.as_str(), &mut frame) {
            ("B", _) => {
                if frame.replace(vec![line]).is_some_and(|held| held.len() > 1) {
                    file.reasons.push(SECOND_BEGIN);
                }
            }
            (torn, _) if torn.ends_with('!') => {
                if frame.take().is_some_and(|held| held.len() > 1) {
                    file.reasons.push(SECOND_BEGIN);
                }
                if is_cut_short(torn) {
                    file.reasons.push(TORN_TAIL);
                }
            }
            ("E", _) => {
                let held = frame.take().unwrap_or_default();
                held.iter().filter_map(|l| next_of(l)).for_each(|n| file.next = file.next.raised(n));
                kept.extend(held);
                kept.push(line);
            }
            (_, Some(held)) => held.push(line),
            (_, None) => kept.push(line),
        }
    }
    kept.extend(frame.unwrap_or_default());
    kept
}

/// Vectors whose rowset is not live at the end are left out.
fn without_orphans(lines: Vec<String>, file: &mut File) -> Vec<String> {
    let orphans = orphans_of(&lines);
    for line in &orphans {
        let vector: u64 = line.rsplit(',').next().unwrap().parse().unwrap();
        file.next = file.next.raised(Next { vector: vector + 1, ..Next::default() });
    }
    if !orphans.is_empty() {
        file.reasons.push(ORPHAN_VECTOR);
    }
    lines.into_iter().filter(|line| !orphans.contains(line)).collect()
}

/// The `V` lines of ended frames whose vector is live at the end and whose rowset is not.
fn orphans_of(lines: &[String]) -> BTreeSet<String> {
    let mut live = BTreeSet::new();
    let mut frame: Option<Vec<&str>> = None;
    for line in lines {
        match line.as_str() {
            "B" => frame = Some(vec![]),
            "E" => frame.take().unwrap_or_default().into_iter().for_each(|l| apply(l, &mut live)),
            op => frame.iter_mut().for_each(|held| held.push(op)),
        }
    }
    let orphan = |line: &&String| {
        let pair = &line[2..line.rfind(',').unwrap()];
        line.starts_with('V') && !live.contains(&format!("A,{pair}"))
    };
    live.iter().filter(orphan).cloned().collect()
}

fn apply(line: &str, live: &mut BTreeSet<String>) {
    match &line[..1] {
        "A" | "V" => _ = live.insert(line.into()),
        "D" => _ = live.remove(&format!("A{}", &line[1..])),
        "W" => _ = live.remove(&format!("V{}", &line[1..])),
        _ => {}
    }
}

/// An append that landed in part: what stood before it, its values, its frame as the port's lines, and how many of the
/// port's bytes landed, the `!` among them. As many values are there as lines of the frame; one more in half if a line is.
pub fn file_of_cut(before: &[u8], values: &[u8], frame: &[String], landed: usize) -> File {
    let text: String = frame.iter().map(|line| format!("{line}\n")).collect();
    let text = &text[..landed.saturating_sub(MARK.len()).min(text.len())];
    let ends = ends_of_values(values);
    let whole = text.matches('\n').count();
    let settled = [before, &values[..ends[whole]]].concat();
    let mut file = File { literal: settled.clone(), settled, ..File::default() };
    if !text.is_empty() && !text.ends_with('\n') {
        let torn = &values[ends[whole]..ends[whole + 1]];
        file.literal.extend(&torn[..torn.len() / 2]);
        file.reasons.push(TORN_TAIL);
    }
    file
}

/// Where each value ends, from 0 on.
fn ends_of_values(values: &[u8]) -> Vec<usize> {
    let mut stream = serde_json::Deserializer::from_slice(values).into_iter::<IgnoredAny>();
    let mut ends = vec![0];
    while let Some(value) = stream.next() {
        value.unwrap();
        ends.push(stream.byte_offset());
    }
    ends
}
