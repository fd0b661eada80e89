//! The file, and opening it.
use super::follower::{Append, Follower};
use super::read::{File, file_of, line_of, number};
use super::verdict::Verdict::{self, *};
use super::verdict::{failed, said};
use crate::definitions::manifest::Operation::{self, *};
use crate::definitions::manifest::{Value, frame, read, replay};
use crate::definitions::maps::*;
use crate::definitions::run;
use crate::definitions::storage::Table;

/// A file frame by frame. In one the order of creates and drops counts; that of others does not, since the original
/// walks hash maps. Of a frame that has not ended only the number of values counts, for the same reason.
fn frames(values: &[Value]) -> Vec<Vec<String>> {
    let mut frames = vec![];
    for values in values.split_inclusive(|value| *value == Value::End) {
        if values.last() != Some(&Value::End) {
            frames.push(vec![format!("{} values and no end", values.len())]);
            continue;
        }
        let mut lines: Vec<String> = values.iter().map(line_of).collect();
        let of_table = |line: &String| line.starts_with('T') || line.starts_with('X');
        lines.sort_by_key(|line| if of_table(line) { String::new() } else { line.clone() });
        frames.push(lines);
    }
    frames
}

/// Whether a table is created while one of its id is there. The original cannot, since it counts; what the driver's
/// catalog makes of it is not the original's.
pub fn creates_a_live_id(catalog: &[Table], ops: &[Operation]) -> bool {
    let mut live: Vec<u64> = catalog.iter().map(|table| table.id).collect();
    for o in ops {
        match o {
            CreateTable(t, ..) if live.contains(t) => return true,
            CreateTable(t, ..) => live.push(*t),
            DropTable(t) => live.retain(|x| x != t),
            _ => {}
        }
    }
    false
}

/// What the specification's counter of table ids is raised to by creates, in the driver's catalog.
pub fn next_table_of(ops: &[Operation]) -> u32 {
    let id = |o: &Operation| match o {
        CreateTable(t, ..) => Some((*t as u32).wrapping_add(1)),
        _ => None,
    };
    ops.iter().filter_map(id).max().unwrap_or(0)
}

impl Follower {
    pub fn host(&mut self, words: &[&str]) {
        match words[0] {
            "cut" => number(words, 1).into_iter().for_each(|landed| self.cut(landed as usize)),
            "stale" => {
                if let Some(read) = &self.read {
                    self.engine.torn = read.clone();
                    (self.file_is_known, self.half) = (true, false);
                }
            }
            "write" => {
                self.file_is_known = false;
                self.append = Append::Nothing;
                self.read = None;
            }
            _ => {}
        }
    }

    /// So many of the port's bytes have landed, of the original's values as many as whole lines of the frame. The `!`
    /// before it is no value.
    fn cut(&mut self, landed: usize) {
        let (before, os) = match &self.append {
            Append::Nothing => return,
            Append::Unknown => return self.file_is_known = false,
            Append::Frame(before, os) => (before, os),
        };
        let text: String = frame(os).iter().map(|value| line_of(value) + "\n").collect();
        let landed_text = &text[..landed.saturating_sub("!\n".len()).min(text.len())];
        let (missing, whole) = (text.len() - landed_text.len(), landed_text.matches('\n').count());
        self.engine.torn = run::torn_by(os, missing, whole, before.clone());
        self.half = self.literal && !landed_text.is_empty() && !landed_text.ends_with('\n');
    }

    /// The file as it stands, which has to be the one that the definitions say.
    pub fn lines(&mut self, answer: &str) -> Verdict {
        self.found = file_of(answer);
        let Some(found) = &self.found else { return NotSpokenOf };
        if self.lost || !self.file_is_known {
            return NotSpokenOf;
        }
        match frames(&found.values) == frames(&self.engine.torn) && found.half == self.half {
            true => Same,
            false => {
                let lines: Vec<String> = self.engine.torn.iter().map(line_of).collect();
                Differs(lines.join("\\n") + if self.half { "\\n?" } else { "" })
            }
        }
    }

    /// `bootstrap` on the file that the original has found. On half a value it does not start.
    pub fn reopen(&mut self, opened: &str, answer: &str) -> Verdict {
        let Some(File { values, half }) = self.found.take() else {
            self.lost = true;
            return NotSpokenOf;
        };
        if !self.literal {
            self.unpin_all();
        }
        let ops = replay(&values);
        if self.disk_is_short || creates_a_live_id(&[], &ops) {
            self.lost = true;
            return NotSpokenOf;
        }
        self.engine.torn = values.clone();
        let outcome = and_then(read(values.clone(), half), |_| run::starts(false, self.engine.clone()));
        if self.file_is_missing && failed(answer) {
            return NotSpokenOf;
        }
        let expected = and_then(outcome, |engine| {
            self.opened(engine, values, &ops);
            Ok(opened.to_string())
        });
        self.file_is_known &= !matches!(expected, Fails);
        said(expected, answer)
    }

    fn opened(&mut self, engine: run::Engine, read: Vec<Value>, ops: &[Operation]) {
        self.opened_with = engine.running.next;
        self.engine = engine;
        self.opening += 1;
        self.next_table = next_table_of(ops);
        self.raised = !self.literal && !self.own_reading;
        self.read = Some(read);
        self.append = Append::Nothing;
        (self.file_is_known, self.half, self.lost) = (true, false, false);
    }
}
