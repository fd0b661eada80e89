//! A small model of the manager: sets, what is held, what waits, pins. It says which number a call is refused by.
use super::Sets;
use seqapti::EpochOp;
use std::collections::{BTreeMap, BTreeSet};

#[derive(Clone, Debug, Default)]
pub struct Model {
    pub epoch: u32,
    pub sets: Sets,
    // Shown or waiting.
    pub held_pairs: BTreeSet<(u32, u32)>,
    pub held_vectors: BTreeSet<(u32, u32, u64)>,
    pub waiting: BTreeSet<(u32, u32, u32)>,
    pub waiting_vectors: BTreeSet<(u32, (u32, u32, u64))>,
    pub pins: BTreeMap<u32, u32>,
    pub next: (u32, u32, u64),
    // As the manifest says: ids that were drawn since the last checkpoint and never committed are drawn again after a reopen.
    pub on_disk: (u32, u32, u64),
    pub length: usize,
}

type Verdict = Result<(), u32>;

fn refuse_if(condition: bool, number: u32) -> Verdict {
    match condition {
        true => Err(number),
        false => Ok(()),
    }
}

fn is_name(name: &str) -> bool {
    (1..=32).contains(&name.len()) && name.bytes().all(|b| matches!(b, b'a'..=b'z' | b'0'..=b'9' | b'_'))
}

impl Model {
    pub fn commit(&mut self, ops: &[EpochOp]) -> Verdict {
        refuse_if(ops.len() > 600, 6)?;
        let mut after = self.clone();
        after.epoch += 1;
        for op in ops {
            after.step(op)?;
        }
        refuse_if(after.leaves_behind(), 17)?;
        after.append(ops)?;
        *self = after;
        Ok(())
    }

    fn append(&mut self, ops: &[EpochOp]) -> Verdict {
        self.length += 6 + ops.iter().map(|op| op.line().len() + 1).sum::<usize>();
        refuse_if(self.length > 65_536, 23)
    }

    fn leaves_behind(&self) -> bool {
        let s = &self.sets;
        s.vectors.iter().any(|(t, r, _)| !s.pairs.contains(&(*t, *r)))
            || s.pairs.iter().any(|(t, _)| !s.tables.contains_key(t))
    }

    fn step(&mut self, op: &EpochOp) -> Verdict {
        match op {
            EpochOp::CreateTable(e) => {
                let taken = self.sets.tables.values().any(|(_, name)| *name == e.table_name);
                refuse_if(e.table_id.0 == u32::MAX || !is_name(&e.table_name), 2)?;
                refuse_if(e.table_id.0 != self.next.0, 14)?;
                refuse_if(taken, 15)?;
                refuse_if(self.sets.tables.len() >= 16, 21)?;
                self.sets.tables.insert(e.table_id.0, (e.shape, e.table_name.clone()));
                self.next.0 += 1;
                self.on_disk.0 = self.next.0;
            }
            EpochOp::DropTable(e) => {
                refuse_if(e.table_id.0 == u32::MAX, 2)?;
                refuse_if(self.sets.tables.remove(&e.table_id.0).is_none(), 11)?;
            }
            EpochOp::AddRowSet(e) => {
                let pair = (e.table_id.0, e.rowset_id.0);
                refuse_if(pair.0 == u32::MAX || pair.1 == u32::MAX, 2)?;
                refuse_if(!self.sets.tables.contains_key(&pair.0), 11)?;
                refuse_if(pair.1 >= self.next.1, 14)?;
                refuse_if(self.held_pairs.contains(&pair), 16)?;
                refuse_if(self.held_pairs.len() >= 256, 22)?;
                self.on_disk.1 = self.on_disk.1.max(pair.1 + 1);
                self.held_pairs.insert(pair);
                self.sets.pairs.insert(pair);
            }
            EpochOp::DeleteRowSet(e) => {
                let pair = (e.table_id.0, e.rowset_id.0);
                refuse_if(pair.0 == u32::MAX || pair.1 == u32::MAX, 2)?;
                refuse_if(!self.sets.pairs.remove(&pair), 12)?;
                self.waiting.insert((self.epoch, pair.0, pair.1));
            }
            EpochOp::AddDV(e) => {
                let (t, r, v) = (e.table_id.0, e.rowset_id.0, e.dv_id.0);
                refuse_if(t == u32::MAX || r == u32::MAX || v == u64::MAX, 2)?;
                refuse_if(!self.sets.pairs.contains(&(t, r)), 12)?;
                refuse_if(v >= self.next.2, 14)?;
                refuse_if(self.held_vectors.iter().any(|held| held.2 == v), 16)?;
                refuse_if(self.held_vectors.len() >= 256, 22)?;
                self.on_disk.2 = self.on_disk.2.max(v + 1);
                self.held_vectors.insert((t, r, v));
                self.sets.vectors.insert((t, r, v));
            }
            EpochOp::DeleteDV(e) => {
                let vector = (e.table_id.0, e.rowset_id.0, e.dv_id.0);
                refuse_if(vector.0 == u32::MAX || vector.1 == u32::MAX || vector.2 == u64::MAX, 2)?;
                refuse_if(!self.sets.vectors.remove(&vector), 13)?;
                self.waiting_vectors.insert((self.epoch, vector));
            }
        }
        Ok(())
    }

    // Calls that make their own commit: input before state, the lower number first. Their operations are those of a
    // commit, so the model makes them and commits them.

    pub fn create(&mut self, name: &str, shape: u32) -> Verdict {
        refuse_if(!is_name(name), 2)?;
        self.commit(&[EpochOp::create_table(seqapti::TableId(self.next.0), shape, name)])
    }

    pub fn drop_table(&mut self, table: u32) -> Verdict {
        refuse_if(!self.sets.tables.contains_key(&table), 11)?;
        let mut ops = vec![EpochOp::drop_table(seqapti::TableId(table))];
        ops.extend(self.deletions(table, |_| true));
        self.commit(&ops)
    }

    pub fn compact(&mut self, table: u32, new: Option<u32>, taken: &[u32]) -> Verdict {
        refuse_if(taken.windows(2).any(|w| w[0] >= w[1]), 2)?;
        refuse_if(!self.sets.tables.contains_key(&table), 11)?;
        refuse_if(taken.iter().any(|r| !self.sets.pairs.contains(&(table, *r))), 12)?;
        let mut ops: Vec<EpochOp> = new.iter().map(|r| super::add(table, seqapti::RowsetId(*r))).collect();
        ops.extend(self.deletions(table, |r| taken.contains(&r)));
        self.commit(&ops)
    }

    fn deletions(&self, table: u32, taken: impl Fn(u32) -> bool) -> Vec<EpochOp> {
        use seqapti::{RowsetId, TableId, VectorId};
        let vectors = self.sets.vectors.iter().filter(|v| v.0 == table && taken(v.1));
        let pairs = self.sets.pairs.iter().filter(|p| p.0 == table && taken(p.1));
        vectors
            .map(|v| EpochOp::delete_dv(TableId(v.0), RowsetId(v.1), VectorId(v.2)))
            .chain(pairs.map(|p| EpochOp::delete_rowset(TableId(p.0), RowsetId(p.1))))
            .collect()
    }

    fn bound(&self) -> u32 {
        self.pins.keys().next().copied().unwrap_or(self.epoch)
    }

    /// What a vacuum lists.
    pub fn ready(&self) -> Vec<(u32, u32)> {
        let bound = self.bound();
        self.waiting.iter().filter(|(e, ..)| *e <= bound).map(|(_, t, r)| (*t, *r)).collect()
    }

    pub fn ready_vectors(&self) -> BTreeSet<(u32, u32, u64)> {
        let bound = self.bound();
        self.waiting_vectors.iter().filter(|(e, _)| *e <= bound).map(|(_, v)| *v).collect()
    }

    /// What was let go stops being held.
    pub fn let_go(&mut self, pairs: &[(u32, u32)], vectors: &BTreeSet<(u32, u32, u64)>) {
        self.waiting.retain(|(_, t, r)| !pairs.contains(&(*t, *r)));
        self.waiting_vectors.retain(|(_, v)| !vectors.contains(v));
        self.held_pairs.retain(|p| !pairs.contains(p));
        self.held_vectors.retain(|v| !vectors.contains(v));
    }

    pub fn pin(&mut self) -> Result<u32, u32> {
        refuse_if(self.epoch == 0, 10)?;
        refuse_if(self.pins.len() >= 64 && !self.pins.contains_key(&self.epoch), 19)?;
        *self.pins.entry(self.epoch).or_default() += 1;
        Ok(self.epoch)
    }

    /// Whether a vacuum is due, and how many it would list.
    pub fn unpin(&mut self, epoch: u32) -> Option<usize> {
        let count = self.pins.get_mut(&epoch).expect("a pin");
        *count -= 1;
        if *count > 0 {
            return None;
        }
        self.pins.remove(&epoch);
        (epoch != self.epoch).then(|| self.ready().len())
    }

    /// The rewritten manifest.
    pub fn checkpoint(&mut self) -> String {
        let (sets, next) = (&self.sets, &self.next);
        let tables = sets.tables.iter().map(|(t, (shape, name))| format!("T,{t},{shape},{name}\n"));
        let pairs = sets.pairs.iter().map(|(t, r)| format!("A,{t},{r}\n"));
        let vectors = sets.vectors.iter().map(|(t, r, v)| format!("V,{t},{r},{v}\n"));
        let lines: String = tables.chain(pairs).chain(vectors).collect();
        let text = format!("B\nN,{},{},{}\n{lines}E\n", next.0, next.1, next.2);
        self.on_disk = self.next;
        self.length = text.len();
        text
    }

    pub fn reopen(&mut self, length: usize) {
        self.epoch = 1;
        self.next = self.on_disk;
        self.held_pairs = self.sets.pairs.clone();
        self.held_vectors = self.sets.vectors.clone();
        self.waiting.clear();
        self.waiting_vectors.clear();
        self.pins.clear();
        self.length = length;
    }
}
