//! The port's manifest lines and the original's manifest values, each as the other.
use serde_json::Deserializer;

use super::{SCHEMA, shape, table_ref};
use crate::storage::secondary::*;

/// Next ids. The original's manifest has no place for them, so the driver keeps what the port's `N` line says.
#[derive(Clone, Copy, Default, PartialEq)]
pub struct Next {
    pub table: u32,
    pub rowset: u32,
    pub vector: u64,
}

impl Next {
    pub fn raised(self, other: Next) -> Next {
        Next {
            table: self.table.max(other.table),
            rowset: self.rowset.max(other.rowset),
            vector: self.vector.max(other.vector),
        }
    }
}

fn number<T: std::str::FromStr>(fields: &[&str], i: usize) -> T
where
    T::Err: std::fmt::Debug,
{
    fields[i].parse().unwrap()
}

pub fn next_of(line: &str) -> Option<Next> {
    let f: Vec<&str> = line.split(',').collect();
    (f[0] == "N").then(|| Next { table: number(&f, 1), rowset: number(&f, 2), vector: number(&f, 3) })
}

/// The original's value of a line; `N` and lines that end in the `!` of an append have none.
pub fn value_of(line: &str) -> Option<ManifestOperation> {
    if line.ends_with('!') {
        return None;
    }
    let f: Vec<&str> = line.split(',').collect();
    let table_id = || table_ref(number(&f, 1));
    let rowset_id = || number(&f, 2);
    let dv_id = || number(&f, 3);
    Some(match f[0] {
        "B" => ManifestOperation::Begin,
        "E" => ManifestOperation::End,
        "T" => ManifestOperation::CreateTable(CreateTableEntry {
            schema_id: SCHEMA,
            table_name: f[3].into(),
            column_descs: shape(number(&f, 2)),
            ordered_pk_ids: vec![number(&f, 1)],
        }),
        "X" => ManifestOperation::DropTable(DropTableEntry { table_id: table_id() }),
        "A" => ManifestOperation::AddRowSet(AddRowSetEntry { table_id: table_id(), rowset_id: rowset_id() }),
        "D" => ManifestOperation::DeleteRowSet(DeleteRowsetEntry {
            table_id: table_id(),
            rowset_id: rowset_id(),
        }),
        "V" => ManifestOperation::AddDV(AddDVEntry {
            table_id: table_id(),
            rowset_id: rowset_id(),
            dv_id: dv_id(),
        }),
        "W" => ManifestOperation::DeleteDV(DeleteDVEntry {
            table_id: table_id(),
            rowset_id: rowset_id(),
            dv_id: dv_id(),
        }),
        "N" => return None,
        _ => panic!("no line of a manifest: {line:?}"),
    })
}

/// The line of a value of the original.
pub fn line_of(value: &ManifestOperation) -> String {
    match value {
        ManifestOperation::Begin => "B".into(),
        ManifestOperation::End => "E".into(),
        ManifestOperation::CreateTable(e) => {
            format!("T,{},{},{}", e.ordered_pk_ids[0], e.column_descs[0].id(), e.table_name)
        }
        ManifestOperation::DropTable(e) => format!("X,{}", e.table_id.table_id),
        ManifestOperation::AddRowSet(e) => format!("A,{},{}", e.table_id.table_id, e.rowset_id),
        ManifestOperation::DeleteRowSet(e) => format!("D,{},{}", e.table_id.table_id, e.rowset_id),
        ManifestOperation::AddDV(e) => {
            format!("V,{},{},{}", e.table_id.table_id, e.rowset_id, e.dv_id)
        }
        ManifestOperation::DeleteDV(e) => {
            format!("W,{},{},{}", e.table_id.table_id, e.rowset_id, e.dv_id)
        }
    }
}

/// Half of a value, for what is no part of a line we know.
pub const HALF_A_VALUE: &[u8] = b"{\"AddRow";

/// Whether an append came short in this line, before the `!` of the next one.
pub fn is_cut_short(line: &str) -> bool {
    line.len() > 1 && line.ends_with('!')
}

/// The original's file of these lines. The half of a line is half a value.
pub fn json_of(lines: &[String]) -> Vec<u8> {
    let value = |line: &String| match is_cut_short(line) {
        true => HALF_A_VALUE.to_vec(),
        false => value_of(line).map_or(vec![], |value| serde_json::to_vec(&value).unwrap()),
    };
    lines.iter().flat_map(value).collect()
}

/// The values of a file that holds whole ones.
pub fn values_of(json: &[u8]) -> Vec<ManifestOperation> {
    Deserializer::from_slice(json).into_iter().map(Result::unwrap).collect()
}

/// How many bytes at a file's beginning are whole values.
pub fn whole_length_of(json: &[u8]) -> usize {
    let mut stream = Deserializer::from_slice(json).into_iter::<ManifestOperation>();
    let mut length = 0;
    while let Some(Ok(_)) = stream.next() {
        length = stream.byte_offset();
    }
    length
}
