//! From which frame to which a table, a rowset or a vector stands.
use crate::frames::Frame;
use crate::line::{Op, Pair, Vector};
use std::collections::BTreeMap;

/// Frames are counted from 0.
#[derive(Clone, Debug, PartialEq, Eq)]
pub struct Life<K> {
    pub key: K,
    pub from: usize,
    pub to: Option<usize>,
}

#[derive(Clone, Debug, PartialEq, Eq, PartialOrd, Ord)]
pub struct Table {
    pub id: u32,
    pub shape: u32,
    pub name: String,
}

/// The frames applied one after another, as an opening applies them.
#[derive(Clone, Debug, Default)]
pub struct History {
    pub tables: Vec<Life<Table>>,
    pub rowsets: Vec<Life<Pair>>,
    pub vectors: Vec<Life<Vector>>,
}

impl History {
    pub fn of(frames: &[Frame]) -> History {
        let mut tables = Lives::default();
        let (mut rowsets, mut vectors) = (Lives::default(), Lives::default());
        for (at, frame) in frames.iter().enumerate() {
            for placed in &frame.ops {
                match &placed.op {
                    Op::Create { table, shape, name } => {
                        tables.add(*table, Table { id: *table, shape: *shape, name: name.clone() }, at)
                    }
                    Op::Drop { table } => tables.delete(table, at),
                    Op::Add(pair) => rowsets.add(*pair, *pair, at),
                    Op::Delete(pair) => rowsets.delete(pair, at),
                    Op::AddVector(vector) => vectors.add(*vector, *vector, at),
                    Op::DeleteVector(vector) => vectors.delete(vector, at),
                    Op::Next(_) => {}
                }
            }
        }
        History { tables: tables.all, rowsets: rowsets.all, vectors: vectors.all }
    }

    /// Vectors that stand at the end without their rowset: an opening drops them.
    pub fn orphans(&self) -> Vec<Vector> {
        let has = |v: &Vector| standing(&self.rowsets).any(|pair| *pair == (v.0, v.1));
        let mut orphans: Vec<Vector> = standing(&self.vectors).filter(|v| !has(v)).copied().collect();
        orphans.sort_unstable();
        orphans
    }

    /// Rowsets that stand at the end without their table: an opening refuses them.
    pub fn strays(&self) -> Vec<Pair> {
        let has = |pair: &Pair| standing(&self.tables).any(|table| table.id == pair.0);
        let mut strays: Vec<Pair> = standing(&self.rowsets).filter(|p| !has(p)).copied().collect();
        strays.sort_unstable();
        strays
    }
}

/// What stands at the end.
pub fn standing<K>(lives: &[Life<K>]) -> impl Iterator<Item = &K> {
    lives.iter().filter(|life| life.to.is_none()).map(|life| &life.key)
}

struct Lives<I, K> {
    all: Vec<Life<K>>,
    live: BTreeMap<I, usize>,
}

impl<I, K> Default for Lives<I, K> {
    fn default() -> Self {
        Lives { all: Vec::new(), live: BTreeMap::new() }
    }
}

impl<I: Ord, K> Lives<I, K> {
    fn add(&mut self, id: I, key: K, at: usize) {
        let place = self.all.len();
        self.live.entry(id).or_insert_with(|| {
            self.all.push(Life { key, from: at, to: None });
            place
        });
    }

    fn delete(&mut self, id: &I, at: usize) {
        if let Some(place) = self.live.remove(id) {
            self.all[place].to = Some(at);
        }
    }
}
