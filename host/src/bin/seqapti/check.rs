//! `seqapti check`: would it open?
use crate::explain::Explained;
use crate::frames::Frames;
use crate::inspect::plural;
use crate::source::Source;
use crate::value::{number, object, text, Value};
use crate::{Done, Failed};
use seqapti::{Reading, StorageError};
use std::path::Path;

/// A manifest with the library's verdict and the tool's own list of frames.
pub struct Judged {
    pub source: Source,
    pub frames: Frames,
    pub verdict: Result<Reading, Explained>,
}

impl Judged {
    pub fn of(path: &Path) -> Result<Judged, Failed> {
        let source = Source::manifest(path)?;
        let mut frames = Frames::read(&source.bytes);
        if source.length > source.bytes.len() as u64 {
            // More follows that was not read.
            frames.tail = None;
        }
        let verdict = match Reading::of(&source.bytes) {
            Ok(reading) => Ok(reading),
            Err(StorageError::Refused { refusal, place }) => Err(Explained::of(&source, &frames, refusal, place)),
            Err(other) => return Err(Failed(other.to_string())),
        };
        Ok(Judged { source, frames, verdict })
    }

    pub fn status(&self) -> u8 {
        self.verdict.is_err().into()
    }

    /// What the file is, in one line.
    pub fn size(&self) -> String {
        let Frames { frames, lines, .. } = &self.frames;
        format!(
            "{}, {}, {}",
            plural(self.source.length as usize, "byte"),
            plural(*lines, "line"),
            plural(frames.len(), "frame")
        )
    }

    /// A file without a single line opens as an empty store, and the opening puts a new manifest in its place.
    pub fn warning(&self) -> Option<String> {
        if self.verdict.is_err() || self.frames.lines > 0 || self.source.bytes.is_empty() {
            return None;
        }
        let json = match self.source.looks_like_json() {
            true => {
                " It begins like a JSON manifest of the original store, of which `seqapti import` makes a manifest."
            }
            false => "",
        };
        Some(format!(
            "no line ends in it, so a store would open empty and this file would be replaced. Is it a manifest?{json}"
        ))
    }

    /// What came short in the middle of the file is no fault: the store went on behind it.
    pub fn short_words(&self) -> Option<String> {
        match self.frames.short() {
            (0, _) => None,
            (n, bytes) => {
                Some(format!("passed over: {} that came short, {}", plural(n, "append"), plural(bytes, "byte")))
            }
        }
    }

    pub fn tail_words(&self) -> Option<String> {
        let tail = self.frames.tail.as_ref()?;
        Some(format!(
            "torn tail: {} bytes from byte {} on, {}; an opening leaves it out",
            tail.bytes,
            tail.from,
            tail.words()
        ))
    }
}

pub fn run(path: &Path, as_json: bool) -> Result<Done, Failed> {
    let judged = Judged::of(path)?;
    let output = if as_json { format!("{}\n", json(&judged)) } else { words(&judged) };
    Ok(Done { output, status: judged.status() })
}

fn words(judged: &Judged) -> String {
    let path = judged.source.path.display();
    match &judged.verdict {
        Err(explained) => format!("{path}: {}", explained.words()),
        Ok(reading) => {
            let shown = &reading.snapshot;
            let counts = [shown.tables().len(), shown.rowsets().count(), shown.dvs().count()];
            let names = ["table", "rowset", "vector"];
            let held: Vec<String> = counts.iter().zip(names).map(|(n, name)| plural(*n, name)).collect();
            let short = judged.short_words().map_or(String::new(), |words| format!("  {words}\n"));
            let tail = judged.tail_words().map_or(String::new(), |words| format!("  {words}\n"));
            let warning = judged.warning().map_or(String::new(), |words| format!("  warning: {words}\n"));
            let size = judged.size();
            format!("{path}: opens\n  {size}; {}\n{short}{tail}{warning}", held.join(", "))
        }
    }
}

fn json(judged: &Judged) -> Value {
    object([
        ("path", text(judged.source.path.display())),
        ("opens", Value::Bool(judged.verdict.is_ok())),
        ("bytes", number(judged.source.length)),
        ("short_appends", number(judged.frames.short().0)),
        ("short_bytes", number(judged.frames.short().1)),
        ("torn_bytes", number(judged.frames.tail.as_ref().map_or(0, |tail| tail.bytes))),
        ("warning", judged.warning().map_or(Value::Null, text)),
        ("refusal", judged.verdict.as_ref().err().map_or(Value::Null, Explained::json)),
    ])
}
