//! The frames of a manifest, with the places of their lines.
use crate::line::{parse, Line, Op, Tally};
use std::ops::Range;

/// An operation and its line, counted from 1.
#[derive(Clone, Debug, PartialEq, Eq)]
pub struct Placed {
    pub line: usize,
    pub op: Op,
}

/// A frame from its `B` to its `E`.
#[derive(Clone, Debug, PartialEq, Eq)]
pub struct Frame {
    pub ops: Vec<Placed>,
    pub lines: Range<usize>,
    pub bytes: Range<usize>,
}

impl Frame {
    /// A rewritten manifest's frame says the next ids before all else. No commit does.
    pub fn is_rewrite(&self) -> bool {
        matches!(self.ops.first(), Some(Placed { op: Op::Next(_), .. }))
    }

    pub fn tally(&self) -> Tally {
        Tally::of(self.ops.iter().map(|p| &p.op))
    }
}

/// What an opening passes over, line by line.
#[derive(Clone, Debug, PartialEq, Eq)]
pub enum Ignored {
    /// An operation that stands in no frame.
    Outside(Placed),
    /// An `E` with no frame open.
    End { line: usize },
    /// A frame that another `B` cut short.
    CutShort(Frame),
    /// An append that came short, up to the `!` of the next one.
    Short(Frame),
}

/// What stands after the last frame that ended.
#[derive(Clone, Debug, PartialEq, Eq)]
pub struct Tail {
    pub from: usize,
    pub bytes: usize,
    /// A frame was begun.
    pub begun: bool,
    /// Its whole lines.
    pub ops: Vec<Placed>,
    /// What stands after the last newline.
    pub rest: Vec<u8>,
}

/// A line that says nothing.
#[derive(Clone, Debug, PartialEq, Eq)]
pub struct BadLine {
    pub line: usize,
    pub fault: String,
}

/// A manifest, read up to its end or to its first bad line.
#[derive(Clone, Debug, Default, PartialEq, Eq)]
pub struct Frames {
    pub frames: Vec<Frame>,
    pub ignored: Vec<Ignored>,
    pub tail: Option<Tail>,
    pub bad: Option<BadLine>,
    /// Lines that a newline ends.
    pub lines: usize,
}

impl Frames {
    pub fn read(manifest: &[u8]) -> Frames {
        let mut read = Frames::default();
        let mut open = Open::default();
        let mut at = 0;
        while let Some(length) = manifest[at..].iter().position(|b| *b == b'\n') {
            read.lines += 1;
            let (line, next) = (read.lines, at + length + 1);
            match parse(&manifest[at..at + length]) {
                Err(fault) => {
                    read.bad = Some(BadLine { line, fault });
                    read.lines = manifest.iter().filter(|b| **b == b'\n').count();
                    return read;
                }
                Ok(parsed) => read.take(&mut open, parsed, line, at..next),
            }
            at = next;
        }
        read.tail = open.tail(at, &manifest[at..]);
        read
    }

    fn take(&mut self, open: &mut Open, parsed: Line, line: usize, bytes: Range<usize>) {
        match (parsed, open.frame.as_mut()) {
            (Line::Begin, _) => {
                let begun = Frame { ops: Vec::new(), lines: line..line + 1, bytes };
                self.ignored.extend(open.frame.replace(begun).map(Ignored::CutShort));
            }
            (Line::End, Some(frame)) => {
                (frame.lines.end, frame.bytes.end) = (line + 1, bytes.end);
                self.frames.extend(open.frame.take());
                open.append = None;
            }
            (Line::End, None) => self.ignored.push(Ignored::End { line }),
            (Line::Op(op), Some(frame)) => {
                (frame.lines.end, frame.bytes.end) = (line + 1, bytes.end);
                frame.ops.push(Placed { line, op });
            }
            (Line::Op(op), None) => self.ignored.push(Ignored::Outside(Placed { line, op })),
            (Line::Torn, _) => self.ignored.extend(open.cut(line, bytes).map(Ignored::Short)),
        }
    }

    /// How many appends came short and had others written behind them, and the bytes that they left.
    pub fn short(&self) -> (usize, usize) {
        let short = self.ignored.iter().filter_map(|ignored| match ignored {
            Ignored::Short(frame) => Some(frame.bytes.len()),
            _ => None,
        });
        short.fold((0, 0), |(n, bytes), more| (n + 1, bytes + more))
    }

    /// The frame of the rewritten manifest, which stands first, and those that came since.
    pub fn parted(&self) -> (Option<&Frame>, &[Frame]) {
        match self.frames.split_first() {
            Some((first, rest)) if first.is_rewrite() => (Some(first), rest),
            _ => (None, &self.frames),
        }
    }
}

/// What has begun and not ended.
#[derive(Default)]
struct Open {
    /// The line and the byte of the last append's `!`.
    append: Option<(usize, usize)>,
    frame: Option<Frame>,
}

impl Open {
    // The first line and byte of what would be left unfinished if nothing more came of it.
    fn from(&self) -> Option<(usize, usize)> {
        self.append.or(self.frame.as_ref().map(|frame| (frame.lines.start, frame.bytes.start)))
    }

    // A line that ends in `!`: the next append begins with this byte, and what stood before it came short.
    fn cut(&mut self, line: usize, bytes: Range<usize>) -> Option<Frame> {
        let next = bytes.end - 2;
        let (first, from) = self.from().unwrap_or((line, bytes.start));
        let ops = self.frame.take().map_or(Vec::new(), |frame| frame.ops);
        self.append = Some((line, next));
        let last = line + usize::from(next > bytes.start);
        (from < next).then_some(Frame { ops, lines: first..last, bytes: from..next })
    }

    fn tail(self, at: usize, rest: &[u8]) -> Option<Tail> {
        let end = at + rest.len();
        let from = self.from().map_or(at, |(_, byte)| byte);
        let begun = self.frame.is_some();
        let ops = self.frame.map_or(Vec::new(), |frame| frame.ops);
        (from < end).then(|| Tail { from, bytes: end - from, begun, ops, rest: rest.to_vec() })
    }
}

impl Tail {
    pub fn in_a_line(&self) -> bool {
        !self.rest.is_empty()
    }

    /// What it is, and how far it got.
    pub fn words(&self) -> String {
        let n = self.ops.len();
        let lines = format!("{n} whole operation{}", if n == 1 { "" } else { "s" });
        match (self.begun, self.in_a_line()) {
            (true, true) if self.rest == b"E" => format!("a frame with {lines}, one newline short of its end"),
            (true, true) => format!("a frame with {lines}, cut off in a line"),
            (true, false) => format!("a frame with {lines}, cut off between lines"),
            (false, true) => "the first bytes of a line, in no frame".into(),
            (false, false) => "the first line of an append, and no frame".into(),
        }
    }
}
