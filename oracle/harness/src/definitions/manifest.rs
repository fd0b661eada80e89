//! Mirrors crates/risinglight/specs/Manifest.antt: `Manifest` of manifest.rs, whose values stand here for their JSON.
//! `Operation` is that of crates/manifest/specs/Operations.antt.
use super::keyed::joined;
use super::maps::Outcome;

#[derive(Clone, Debug, PartialEq)]
pub enum Operation {
    /// Table, shape, name.
    CreateTable(u64, u64, String),
    DropTable(u64),
    /// Table, rowset.
    AddRowset(u64, u64),
    DeleteRowset(u64, u64),
    /// Table, rowset, vector.
    AddVector(u64, u64, u64),
    DeleteVector(u64, u64, u64),
    // `next_ids` is left out: no value of the original's has it.
}

#[derive(Clone, Debug, PartialEq)]
pub enum Value {
    Begin,
    End,
    Entry(Operation),
}
use Value::*;

/// `append`
pub fn frame(entries: &[Operation]) -> Vec<Value> {
    let entries = entries.iter().cloned().map(Entry).collect();
    joined(joined(vec![Begin], entries), vec![End])
}

/// A file's bytes are values; where part of one stands at the end, the parser gives an error.
pub fn read(values: Vec<Value>, part: bool) -> Outcome<Vec<Value>> {
    if part { Outcome::Fails } else { Outcome::Ok(values) }
}

/// `replay`, as far as it has come.
pub struct Replaying {
    pub ops: Vec<Operation>,
    pub buffered: Vec<Operation>,
    pub begin: bool,
}

pub fn replaying(o: Vec<Operation>, b: Vec<Operation>, x: bool) -> Replaying {
    Replaying { ops: o, buffered: b, begin: x }
}

/// A second `Begin` keeps what is buffered; an entry without one is left out.
pub fn next(value: &Value, s: Replaying) -> Replaying {
    match value {
        Begin => replaying(s.ops, s.buffered, true),
        End => replaying(joined(s.ops, s.buffered), vec![], false),
        Entry(o) => {
            let buffered = if s.begin { joined(s.buffered, vec![o.clone()]) } else { s.buffered };
            replaying(s.ops, buffered, s.begin)
        }
    }
}

pub fn replay_from(file: &[Value], s: Replaying) -> Replaying {
    file.iter().fold(s, |s, v| next(v, s))
}

pub fn replay(file: &[Value]) -> Vec<Operation> {
    replay_from(file, replaying(vec![], vec![], false)).ops
}
