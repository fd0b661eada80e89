//! A small model of the store, by which calls are chosen. It follows the port's answers and judges nothing.
use std::collections::{BTreeMap, BTreeSet};

use crate::list::items;

pub type Pair = (u32, u32);
pub type Vector = (u32, u32, u64);

#[derive(Clone, Default)]
pub struct Shown {
    pub pairs: BTreeSet<Pair>,
    pub vectors: BTreeSet<Vector>,
}

impl Shown {
    pub fn rowsets(&self, table: u32) -> Vec<u32> {
        self.pairs.iter().filter(|pair| pair.0 == table).map(|pair| pair.1).collect()
    }

    pub fn vectors_over(&self, pair: Pair) -> Vec<u64> {
        let over = |v: &&Vector| (v.0, v.1) == pair;
        self.vectors.iter().filter(over).map(|v| v.2).collect()
    }
}

#[derive(Clone, Default)]
pub struct Model {
    pub epoch: u64,
    pub tables: BTreeMap<u32, String>,
    pub now: Shown,
    /// Deletions that wait, with their epochs.
    pub waiting_pairs: Vec<(u64, Pair)>,
    pub waiting_vectors: Vec<(u64, u64)>,
    /// Pinned epochs: how often, and what they show.
    pub pins: BTreeMap<u64, (u64, Shown)>,
    pub next_table: u32,
    pub next_rowset: u32,
    pub next_vector: u64,
    /// Rows of vectors; others have none.
    pub rows: BTreeMap<u64, Vec<u32>>,
    pub locks: BTreeSet<u32>,
}

fn numbers(fields: &[&str]) -> Vec<u64> {
    fields.iter().map(|field| field.parse().unwrap()).collect()
}

impl Model {
    pub fn held(&self, pair: Pair) -> bool {
        self.now.pairs.contains(&pair) || self.waiting_pairs.iter().any(|w| w.1 == pair)
    }

    pub fn held_vector(&self, vector: u64) -> bool {
        self.now.vectors.iter().any(|v| v.2 == vector) || self.waiting_vectors.iter().any(|w| w.1 == vector)
    }

    pub fn pairs_held(&self) -> usize {
        self.now.pairs.len() + self.waiting_pairs.len()
    }

    pub fn vectors_held(&self) -> usize {
        self.now.vectors.len() + self.waiting_vectors.len()
    }

    /// One operation of a commit that makes the epoch `at`.
    pub fn apply(&mut self, line: &str, at: u64) {
        let fields: Vec<&str> = line.split(',').collect();
        let n = |i: usize| fields[i].parse::<u64>().unwrap();
        let pair = |_: ()| (n(1) as u32, n(2) as u32);
        match fields[0] {
            "T" => {
                self.tables.insert(n(1) as u32, fields[3].into());
                self.next_table = self.next_table.max((n(1) as u32).saturating_add(1));
            }
            "X" => {
                self.tables.remove(&(n(1) as u32));
                self.locks.remove(&(n(1) as u32));
            }
            "A" => _ = self.now.pairs.insert(pair(())),
            "D" => {
                self.now.pairs.remove(&pair(()));
                self.waiting_pairs.push((at, pair(())));
            }
            "V" => _ = self.now.vectors.insert((n(1) as u32, n(2) as u32, n(3))),
            _ => {
                self.now.vectors.remove(&(n(1) as u32, n(2) as u32, n(3)));
                self.waiting_vectors.push((at, n(3)));
            }
        }
    }

    pub fn committed<'a>(&mut self, lines: impl IntoIterator<Item = &'a str>) {
        let at = self.epoch + 1;
        lines.into_iter().for_each(|line| self.apply(line, at));
        self.epoch = at;
    }

    /// The operations of a drop, or of a compaction's end: `W` and then `D` lines.
    pub fn removal(&self, table: u32, rowsets: &[u32]) -> Vec<String> {
        let over = |v: &&Vector| v.0 == table && rowsets.contains(&v.1);
        let vectors = self.now.vectors.iter().filter(over);
        let lines = vectors.map(|(t, r, v)| format!("W,{t},{r},{v}"));
        lines.chain(rowsets.iter().map(|r| format!("D,{table},{r}"))).collect()
    }

    pub fn pinned(&mut self) {
        let shown = self.now.clone();
        self.pins.entry(self.epoch).or_insert((0, shown)).0 += 1;
    }

    pub fn unpinned(&mut self, epoch: u64) {
        if let Some(pin) = self.pins.get_mut(&epoch) {
            pin.0 -= 1;
            if pin.0 == 0 {
                self.pins.remove(&epoch);
            }
        }
    }

    pub fn vacuumed(&mut self) {
        let bound = self.pins.keys().next().copied().unwrap_or(self.epoch);
        self.waiting_pairs.retain(|w| w.0 > bound);
        self.waiting_vectors.retain(|w| w.0 > bound);
    }

    /// What is shown at an epoch that is current or pinned.
    pub fn shown(&self, epoch: u64) -> &Shown {
        self.pins.get(&epoch).map_or(&self.now, |pin| &pin.1)
    }

    pub fn epochs(&self) -> Vec<u64> {
        self.pins.keys().copied().chain([self.epoch]).collect()
    }

    /// After a reopen: what the port's answers tell.
    pub fn reopened(&mut self, tables: &str, pairs: &str, vectors: &str, state: &str) {
        let rows = std::mem::take(&mut self.rows);
        *self = Model { rows, ..Model::default() };
        for fields in items(tables) {
            self.tables.insert(fields[0].parse().unwrap(), fields[2].into());
        }
        for n in items(pairs).iter().map(|fields| numbers(fields)) {
            self.now.pairs.insert((n[0] as u32, n[1] as u32));
        }
        for n in items(vectors).iter().map(|fields| numbers(fields)) {
            self.now.vectors.insert((n[0] as u32, n[1] as u32, n[2]));
        }
        self.state(state);
    }

    pub fn state(&mut self, state: &str) {
        let n = numbers(&state.split(',').skip(1).collect::<Vec<_>>());
        self.epoch = n[0];
        self.next_table = n[1] as u32;
        self.next_rowset = n[2] as u32;
        self.next_vector = n[3];
    }
}
