//! Lines of lists and of manifests as operations and values. What the driver cannot read is None here.
use crate::definitions::manifest::Operation::{self, *};
use crate::definitions::manifest::Value;
use crate::definitions::transaction::Handle;

/// The number of a call's word, if it is one.
pub fn number(words: &[&str], i: usize) -> Option<u64> {
    words.get(i)?.parse().ok()
}

pub fn numbers(words: &[&str]) -> Option<Vec<u64>> {
    words.iter().map(|word| word.parse().ok()).collect()
}

/// Numbers of 32 bits.
pub fn narrow_numbers(words: &[&str]) -> Option<Vec<u64>> {
    (0..words.len()).map(|i| narrow(words, i)).collect()
}

/// A row handle, ROWSET:ROW.
pub fn handle_of(word: &str) -> Option<Handle> {
    let fields: Vec<&str> = word.split(':').collect();
    match fields.len() {
        2 => Some(Handle { rowset: narrow(&fields, 0)?, row: narrow(&fields, 1)? }),
        _ => None,
    }
}

/// Bytes in hexadecimal, `-` for none.
pub fn bytes_of(word: &str) -> Option<Vec<u64>> {
    let digits = if word == "-" { "" } else { word };
    let byte = |i: usize| u8::from_str_radix(digits.get(i..i + 2)?, 16).ok().map(u64::from);
    (0..digits.len()).step_by(2).map(byte).collect()
}

/// Bits, `-` for none.
pub fn bits_of(word: &str) -> Option<Vec<bool>> {
    let bit = |digit: char| match digit {
        '0' => Some(false),
        '1' => Some(true),
        _ => None,
    };
    if word == "-" { Some(vec![]) } else { word.chars().map(bit).collect() }
}

fn narrow(fields: &[&str], i: usize) -> Option<u64> {
    fields.get(i)?.parse::<u32>().ok().map(u64::from)
}

pub fn operation_of(line: &str) -> Option<Operation> {
    let f: Vec<&str> = line.split(',').collect();
    let table = narrow(&f, 1);
    let rowset = || narrow(&f, 2);
    let vector = || f.get(3)?.parse::<u64>().ok();
    Some(match f[0] {
        "T" => CreateTable(table?, narrow(&f, 2)?, f.get(3)?.to_string()),
        "X" => DropTable(table?),
        "A" => AddRowset(table?, rowset()?),
        "D" => DeleteRowset(table?, rowset()?),
        "V" => AddVector(table?, rowset()?, vector()?),
        "W" => DeleteVector(table?, rowset()?, vector()?),
        _ => return None,
    })
}

/// The operations of a commit.
pub fn operations_of<'a>(words: impl IntoIterator<Item = &'a str>) -> Option<Vec<Operation>> {
    words.into_iter().map(operation_of).collect()
}

pub fn value_of(line: &str) -> Option<Value> {
    match line {
        "B" => Some(Value::Begin),
        "E" => Some(Value::End),
        _ => operation_of(line).map(Value::Entry),
    }
}

pub fn line_of(value: &Value) -> String {
    match value {
        Value::Begin => "B".into(),
        Value::End => "E".into(),
        Value::Entry(CreateTable(t, h, n)) => format!("T,{t},{h},{n}"),
        Value::Entry(DropTable(t)) => format!("X,{t}"),
        Value::Entry(AddRowset(t, r)) => format!("A,{t},{r}"),
        Value::Entry(DeleteRowset(t, r)) => format!("D,{t},{r}"),
        Value::Entry(AddVector(t, r, v)) => format!("V,{t},{r},{v}"),
        Value::Entry(DeleteVector(t, r, v)) => format!("W,{t},{r},{v}"),
    }
}

/// A manifest: its whole values, and whether half a value follows, on which the original does not start.
#[derive(Clone, Debug, Default, PartialEq)]
pub struct File {
    pub values: Vec<Value>,
    pub half: bool,
}

/// The answer to `#! lines`.
pub fn file_of(answer: &str) -> Option<File> {
    let mut lines: Vec<&str> = answer.split("\\n").collect();
    let half = lines.pop() == Some("?");
    let values = lines.into_iter().map(value_of).collect::<Option<_>>()?;
    Some(File { values, half })
}

/// Whether the driver can read all whole lines of a text that is to be written; `N` lines and torn ones are no values.
pub fn is_readable(text: &str) -> bool {
    let (whole, _) = text.rsplit_once("\\n").unwrap_or(("", text));
    let readable = |line: &str| match line.strip_prefix("N,") {
        Some(next) => {
            let f: Vec<&str> = next.split(',').collect();
            f.len() > 2 && f[..2].iter().all(|n| n.parse::<u32>().is_ok()) && f[2].parse::<u64>().is_ok()
        }
        None => line.ends_with('!') || value_of(line).is_some(),
    };
    whole.is_empty() && !text.starts_with("\\n") || whole.split("\\n").all(readable)
}
