//! One line of a manifest, read for people: what it says, or why it says nothing.
use std::fmt;

pub type Pair = (u32, u32);
pub type Vector = (u32, u32, u64);

#[derive(Clone, Debug, PartialEq, Eq)]
pub enum Op {
    Create { table: u32, shape: u32, name: String },
    Drop { table: u32 },
    Add(Pair),
    Delete(Pair),
    AddVector(Vector),
    DeleteVector(Vector),
    Next(Vector),
}

#[derive(Clone, Debug, PartialEq, Eq)]
pub enum Line {
    Begin,
    End,
    Op(Op),
    /// Every append begins with `!`. What an earlier one left unfinished stands before it, on the same line.
    Torn,
}

pub const LONGEST_NAME: usize = 32;

/// Reads a line without its newline. The error is what is wrong with it, as the end of "line 3 ...".
pub fn parse(line: &[u8]) -> Result<Line, String> {
    if line.last() == Some(&b'!') {
        return Ok(Line::Torn);
    }
    let fields: Vec<&[u8]> = line.split(|b| *b == b',').collect();
    let (letter, rest) = match fields.split_first() {
        Some((letter, rest)) if !letter.is_empty() => (*letter, rest),
        _ => return Err("is empty".into()),
    };
    let op = match letter {
        b"B" => return none(rest, "B").map(|()| Line::Begin),
        b"E" => return none(rest, "E").map(|()| Line::End),
        b"T" => {
            let [table, shape, name] = counted(rest, "T", "table, shape and name")?;
            Op::Create {
                table: id32(table, "table")?,
                shape: number(shape, "shape", ANY32)? as u32,
                name: named(name)?,
            }
        }
        b"X" => {
            let [table] = counted(rest, "X", "table")?;
            Op::Drop { table: id32(table, "table")? }
        }
        b"A" => Op::Add(pair(rest, "A")?),
        b"D" => Op::Delete(pair(rest, "D")?),
        b"V" => Op::AddVector(vector(rest, "V", 1)?),
        b"W" => Op::DeleteVector(vector(rest, "W", 1)?),
        b"N" => Op::Next(vector(rest, "N", 0)?),
        other => return Err(format!("begins with {}, which is none of B E T X A D V W N", quoted(other))),
    };
    Ok(Line::Op(op))
}

/// Bytes as people can read them: what is not printable is written as an escape, and a long text is cut.
pub fn readable(bytes: &[u8]) -> String {
    const MOST: usize = 160;
    let shown: String = bytes.iter().take(MOST).flat_map(|b| printable(*b)).collect();
    match bytes.len() {
        n if n > MOST => format!("{shown}... ({n} bytes)"),
        _ => shown,
    }
}

fn printable(byte: u8) -> Vec<char> {
    match byte {
        b' '..=b'~' if byte != b'\\' => vec![byte as char],
        _ => std::ascii::escape_default(byte).map(char::from).collect(),
    }
}

fn quoted(bytes: &[u8]) -> String {
    format!("`{}`", readable(&bytes[..bytes.len().min(40)]))
}

const ANY32: u64 = u32::MAX as u64;

fn none(rest: &[&[u8]], letter: &str) -> Result<(), String> {
    match rest {
        [] => Ok(()),
        _ => Err(format!("has fields after {letter}, which has none")),
    }
}

fn counted<'a, const N: usize>(rest: &[&'a [u8]], letter: &str, which: &str) -> Result<[&'a [u8]; N], String> {
    rest.try_into().map_err(|_| format!("has {} fields after {letter}, which has {N}: {which}", rest.len()))
}

fn pair(rest: &[&[u8]], letter: &str) -> Result<Pair, String> {
    let [table, rowset] = counted(rest, letter, "table and rowset")?;
    Ok((id32(table, "table")?, id32(rowset, "rowset")?))
}

// Next ids may be their width's largest value, which no id is: `below` is 0 for them and 1 for ids.
fn vector(rest: &[&[u8]], letter: &str, below: u64) -> Result<Vector, String> {
    let [table, rowset, vector] = counted(rest, letter, "table, rowset and vector")?;
    Ok((
        number(table, "table", ANY32 - below)? as u32,
        number(rowset, "rowset", ANY32 - below)? as u32,
        number(vector, "vector", u64::MAX - below)?,
    ))
}

fn id32(text: &[u8], what: &str) -> Result<u32, String> {
    number(text, what, ANY32 - 1).map(|n| n as u32)
}

fn number(text: &[u8], what: &str, most: u64) -> Result<u64, String> {
    if text.is_empty() || !text.iter().all(u8::is_ascii_digit) {
        return Err(format!("has {} as its {what}, which is no decimal number", quoted(text)));
    }
    if text.len() > 1 && text[0] == b'0' {
        return Err(format!("has {} as its {what}, with a leading zero", quoted(text)));
    }
    let digits = std::str::from_utf8(text).unwrap_or_default();
    match digits.parse::<u64>() {
        Ok(n) if n <= most => Ok(n),
        _ => Err(format!("has {} as its {what}, which is above {most}", quoted(text))),
    }
}

/// Why these bytes are no table's name.
pub fn name_fault(name: &[u8]) -> Option<String> {
    if name.is_empty() {
        return Some("is empty".into());
    }
    if name.len() > LONGEST_NAME {
        return Some(format!("has {} bytes, and a name has at most {LONGEST_NAME}", name.len()));
    }
    let other = name.iter().find(|b| !matches!(b, b'a'..=b'z' | b'0'..=b'9' | b'_'))?;
    Some(format!("has {} in it, and a name has only a-z, 0-9 and _", quoted(&[*other])))
}

fn named(name: &[u8]) -> Result<String, String> {
    match name_fault(name) {
        None => Ok(String::from_utf8_lossy(name).into_owned()),
        Some(fault) => Err(format!("has a name that {fault}")),
    }
}

impl fmt::Display for Op {
    fn fmt(&self, f: &mut fmt::Formatter<'_>) -> fmt::Result {
        match self {
            Op::Create { table, shape, name } => write!(f, "T,{table},{shape},{name}"),
            Op::Drop { table } => write!(f, "X,{table}"),
            Op::Add((t, r)) => write!(f, "A,{t},{r}"),
            Op::Delete((t, r)) => write!(f, "D,{t},{r}"),
            Op::AddVector((t, r, v)) => write!(f, "V,{t},{r},{v}"),
            Op::DeleteVector((t, r, v)) => write!(f, "W,{t},{r},{v}"),
            Op::Next((t, r, v)) => write!(f, "N,{t},{r},{v}"),
        }
    }
}

impl Op {
    /// What it does, in words.
    pub fn words(&self) -> String {
        match self {
            Op::Create { table, shape, name } => format!("create table {table} `{name}`, shape {shape}"),
            Op::Drop { table } => format!("drop table {table}"),
            Op::Add((t, r)) => format!("add rowset {t}/{r}"),
            Op::Delete((t, r)) => format!("delete rowset {t}/{r}"),
            Op::AddVector((t, r, v)) => format!("add vector {v} over rowset {t}/{r}"),
            Op::DeleteVector((t, r, v)) => format!("delete vector {v} over rowset {t}/{r}"),
            Op::Next((t, r, v)) => format!("raise the next ids to table {t}, rowset {r}, vector {v}"),
        }
    }
}

/// Changes counted by kind.
#[derive(Clone, Copy, Debug, Default, PartialEq, Eq)]
pub struct Tally {
    pub tables: [usize; 2],
    pub rowsets: [usize; 2],
    pub vectors: [usize; 2],
}

impl Tally {
    pub fn of<'a>(ops: impl Iterator<Item = &'a Op>) -> Tally {
        let mut tally = Tally::default();
        for op in ops {
            match op {
                Op::Create { .. } => tally.tables[0] += 1,
                Op::Drop { .. } => tally.tables[1] += 1,
                Op::Add(_) => tally.rowsets[0] += 1,
                Op::Delete(_) => tally.rowsets[1] += 1,
                Op::AddVector(_) => tally.vectors[0] += 1,
                Op::DeleteVector(_) => tally.vectors[1] += 1,
                Op::Next(_) => {}
            }
        }
        tally
    }

    pub fn added(&self) -> usize {
        self.tables[0] + self.rowsets[0] + self.vectors[0]
    }

    pub fn deleted(&self) -> usize {
        self.tables[1] + self.rowsets[1] + self.vectors[1]
    }

    /// "+1 table, +2 -1 rowsets", or "nothing".
    pub fn words(&self) -> String {
        let kinds = [(self.tables, "table"), (self.rowsets, "rowset"), (self.vectors, "vector")];
        let parts: Vec<String> = kinds.iter().filter_map(|(n, kind)| part(*n, kind)).collect();
        match parts.is_empty() {
            true => "nothing".into(),
            false => parts.join(", "),
        }
    }
}

fn part([added, deleted]: [usize; 2], kind: &str) -> Option<String> {
    let signs = match (added, deleted) {
        (0, 0) => return None,
        (a, 0) => format!("+{a}"),
        (0, d) => format!("-{d}"),
        (a, d) => format!("+{a} -{d}"),
    };
    let s = if added + deleted == 1 { "" } else { "s" };
    Some(format!("{signs} {kind}{s}"))
}
