//! The original's JSON manifest: its operations, and what the original makes of them when it starts.
use crate::json::{Fault, Values};
use crate::line::{Op, Pair, Vector};
use crate::value::Value;
use std::collections::{BTreeMap, BTreeSet};

/// An operation and the first byte of its value.
#[derive(Clone, Debug)]
pub struct Entry {
    pub at: usize,
    pub change: Change,
}

#[derive(Clone, Debug)]
pub enum Change {
    /// The id is the next one when it is applied.
    Create { name: String, columns: Columns },
    /// One of the others, as the manifest of this store has it.
    Other(Op),
}

/// What a shape stands for: a table's columns and the order of its keys.
#[derive(Clone, Debug, PartialEq, Eq)]
pub struct Columns {
    pub column_descs: Value,
    pub ordered_pk_ids: Value,
}

/// Why a manifest is not imported.
#[derive(Clone, Debug)]
pub struct Refused {
    /// What does not hold it, in one or two words.
    pub what: &'static str,
    /// A byte of the JSON manifest, from 0.
    pub at: Option<usize>,
    pub why: String,
}

impl Refused {
    pub fn at(what: &'static str, at: usize, why: impl Into<String>) -> Refused {
        Refused { what, at: Some(at), why: why.into() }
    }
}

/// The operations that the original applies, and what it was told beside them.
#[derive(Default)]
pub struct Replayed {
    pub applied: Vec<Entry>,
    pub frames: usize,
    /// In no frame: passed over, as the original does.
    pub outside: Vec<Entry>,
    /// Of frames that another Begin cut short: applied with that one's if they are kept, else left out.
    pub joined: Vec<Entry>,
    /// Of a frame that does not end.
    pub open: Vec<Entry>,
    /// The last frame did not end.
    pub torn_frame: bool,
    /// Where a value begins that the text's end cuts off.
    pub cut_value: Option<usize>,
}

enum Read {
    Begin,
    End,
    Change(Change),
}

/// Carries out the original's replay. `keep` says whether a second Begin keeps what was buffered, as the original does.
pub fn replay(text: &[u8], keep: bool) -> Result<Replayed, Refused> {
    let mut replayed = Replayed::default();
    let mut buffered: Vec<Entry> = Vec::new();
    // How many of these stood there when the last Begin came.
    let mut kept = 0;
    let mut begun = false;
    let mut schema = None;
    let mut values = Values::of(text);
    while let Some((at, value)) = values.next() {
        let value = match value {
            Ok(value) => value,
            Err(Fault::Ends) => {
                replayed.cut_value = Some(at);
                break;
            }
            Err(Fault::Bad { at, why }) => return Err(Refused::at("JSON", at, why)),
        };
        match operation(&value, &mut schema).map_err(|why| Refused::at("operation", at, why))? {
            Read::Begin => {
                if !keep {
                    replayed.joined.append(&mut buffered);
                }
                kept = buffered.len();
                begun = true;
            }
            Read::End => {
                replayed.frames += usize::from(begun);
                replayed.joined.extend(buffered.iter().take(kept).cloned());
                replayed.applied.append(&mut buffered);
                (kept, begun) = (0, false);
            }
            Read::Change(change) if begun => buffered.push(Entry { at, change }),
            Read::Change(change) => replayed.outside.push(Entry { at, change }),
        }
    }
    replayed.torn_frame = begun;
    replayed.open = buffered;
    Ok(replayed)
}

fn operation(value: &Value, schema: &mut Option<u32>) -> Result<Read, String> {
    let (name, entry) = match value {
        Value::Text(word) if word == "Begin" => return Ok(Read::Begin),
        Value::Text(word) if word == "End" => return Ok(Read::End),
        Value::Object(fields) if fields.len() == 1 => (fields[0].0.as_str(), &fields[0].1),
        _ => return Err("this is no operation of a manifest".into()),
    };
    let change = match name {
        "CreateTable" => {
            let [id, name, descs, keys] = fields(entry, ["schema_id", "table_name", "column_descs", "ordered_pk_ids"])?;
            same_schema(number(id, "schema_id")?, schema)?;
            let Value::Text(name) = name else { return Err("table_name is no text".into()) };
            Change::Create { name: name.clone(), columns: columns(descs, keys)? }
        }
        "DropTable" => {
            let [table] = fields(entry, ["table_id"])?;
            Change::Other(Op::Drop { table: table_ref(table, schema)? })
        }
        "AddRowSet" => Change::Other(Op::Add(pair(entry, schema)?)),
        "DeleteRowSet" => Change::Other(Op::Delete(pair(entry, schema)?)),
        "AddDV" => Change::Other(Op::AddVector(vector(entry, schema)?)),
        "DeleteDV" => Change::Other(Op::DeleteVector(vector(entry, schema)?)),
        other => return Err(format!("there is no operation {other:?}")),
    };
    Ok(Read::Change(change))
}

// Just these fields, in any order.
fn fields<'a, const N: usize>(value: &'a Value, names: [&str; N]) -> Result<[&'a Value; N], String> {
    let Value::Object(fields) = value else { return Err(format!("an object with {} is expected", names.join(", "))) };
    if let Some((other, _)) = fields.iter().find(|(name, _)| !names.contains(&name.as_str())) {
        return Err(format!("the field {other:?} is unknown"));
    }
    let mut found = [value; N];
    for (place, name) in found.iter_mut().zip(names) {
        let field = fields.iter().find(|(other, _)| other == name);
        *place = &field.ok_or_else(|| format!("the field {name} is missing"))?.1;
    }
    Ok(found)
}

fn number<N: std::str::FromStr>(value: &Value, what: &str) -> Result<N, String> {
    let Value::Number(text) = value else { return Err(format!("{what} is no number")) };
    text.parse().map_err(|_| format!("{what} is {text}, which is no id of its width"))
}

fn same_schema(id: u32, schema: &mut Option<u32>) -> Result<(), String> {
    match *schema.get_or_insert(id) {
        first if first == id => Ok(()),
        first => Err(format!("it is of schema {id}, those before are of schema {first}, and a store has one schema")),
    }
}

fn table_ref(value: &Value, schema: &mut Option<u32>) -> Result<u32, String> {
    let [id, table] = fields(value, ["schema_id", "table_id"])?;
    same_schema(number(id, "schema_id")?, schema)?;
    number(table, "table_id")
}

fn pair(value: &Value, schema: &mut Option<u32>) -> Result<Pair, String> {
    let [table, rowset] = fields(value, ["table_id", "rowset_id"])?;
    Ok((table_ref(table, schema)?, number(rowset, "rowset_id")?))
}

fn vector(value: &Value, schema: &mut Option<u32>) -> Result<Vector, String> {
    let [table, dv, rowset] = fields(value, ["table_id", "dv_id", "rowset_id"])?;
    Ok((table_ref(table, schema)?, number(rowset, "rowset_id")?, number(dv, "dv_id")?))
}

// A column's type is kept as it is: this store does not look into it.
fn columns(descs: &Value, keys: &Value) -> Result<Columns, String> {
    let (Value::List(columns), Value::List(ids)) = (descs, keys) else {
        return Err("column_descs and ordered_pk_ids have to be lists".into());
    };
    for column in columns {
        let [id, desc] = fields(column, ["id", "desc"])?;
        number::<u32>(id, "a column's id")?;
        let [name, _, nullable, primary] = fields(desc, ["name", "data_type", "is_nullable", "is_primary"])?;
        if !matches!((name, nullable, primary), (Value::Text(_), Value::Bool(_), Value::Bool(_))) {
            return Err("a column's name, is_nullable or is_primary is of another kind".into());
        }
    }
    for id in ids {
        number::<u32>(id, "a key's column id")?;
    }
    Ok(Columns { column_descs: descs.clone(), ordered_pk_ids: keys.clone() })
}

/// What stands after a replay.
#[derive(Default)]
pub struct Sets {
    pub tables: BTreeMap<u32, (String, Columns)>,
    pub rowsets: BTreeSet<Pair>,
    pub vectors: BTreeSet<Vector>,
    pub next: Vector,
}

impl Sets {
    pub fn of(applied: &[Entry]) -> Result<Sets, Refused> {
        let mut sets = Sets::default();
        for Entry { at, change } in applied {
            sets.apply(change).map_err(|(what, why)| Refused::at(what, *at, why))?;
        }
        Ok(sets)
    }

    fn apply(&mut self, change: &Change) -> Result<(), (&'static str, String)> {
        match change {
            Change::Create { name, columns } => {
                if self.tables.values().any(|(taken, _)| taken == name) {
                    return Err((
                        "table",
                        format!(
                            "it creates the table {name:?}, which is there; the original does not open this either"
                        ),
                    ));
                }
                let id = self.next.0;
                self.next.0 = id.checked_add(1).ok_or(("id", "there is no id left for this table".to_string()))?;
                self.tables.insert(id, (name.clone(), columns.clone()));
            }
            Change::Other(Op::Drop { table }) => {
                if self.tables.remove(table).is_none() {
                    return Err((
                        "table",
                        format!("it drops table {table}, which is not there; the original does not open this either"),
                    ));
                }
            }
            Change::Other(Op::Add(pair)) => {
                self.next.1 = self.next.1.max(past32(pair.1, "rowset")?);
                past32(pair.0, "table")?;
                self.rowsets.insert(*pair);
            }
            Change::Other(Op::AddVector(vector)) => {
                let past = vector.2.checked_add(1).ok_or_else(|| ("id", largest("vector", vector.2)))?;
                self.next.2 = self.next.2.max(past);
                past32(vector.0, "table")?;
                past32(vector.1, "rowset")?;
                self.vectors.insert(*vector);
            }
            Change::Other(Op::Delete(pair)) => {
                self.rowsets.remove(pair);
            }
            Change::Other(Op::DeleteVector(vector)) => {
                self.vectors.remove(vector);
            }
            Change::Other(Op::Create { .. } | Op::Next(_)) => {}
        }
        Ok(())
    }
}

fn past32(id: u32, kind: &str) -> Result<u32, (&'static str, String)> {
    id.checked_add(1).ok_or_else(|| ("id", largest(kind, id.into())))
}

fn largest(kind: &str, id: u64) -> String {
    format!("the {kind} id {id} is its width's largest value, which no id may be")
}

impl Entry {
    pub fn words(&self) -> String {
        let what = match &self.change {
            Change::Create { name, .. } => format!("create table {name:?}"),
            Change::Other(op) => op.words(),
        };
        format!("{what} (byte {})", self.at)
    }
}
