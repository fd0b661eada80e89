//! Operations of commits: those that the port accepts, and others.
use crate::model::Model;
use crate::random::Random;

const NAMES: [&str; 12] = [
    "slots",
    "rides",
    "a",
    "b_1",
    "z",
    "0",
    "_",
    "boards",
    "queue_2",
    "park",
    "abcdefghijklmnopqrstuvwxyz012345",
    "names_of_32_bytes_are_the_longes",
];

pub fn shape(random: &mut Random) -> u64 {
    random.weighted(&[(0, 1), (7, 4), (u32::MAX as u64, 1), (4_294_967_294, 1)])
}

pub fn name(random: &mut Random, model: &Model) -> String {
    let free: Vec<&str> = NAMES.iter().copied().filter(|n| !model.tables.values().any(|t| t == n)).collect();
    match random.pick(&free) {
        Some(name) => name.into(),
        None => format!("t{}", model.next_table),
    }
}

/// A drawn rowset id that the table does not hold, mostly one of the newest.
pub fn free_rowset(random: &mut Random, model: &Model, table: u32) -> Option<u32> {
    let next = model.next_rowset as u64;
    let newest = next.saturating_sub(if random.percent(80) { 12 } else { 300 });
    let free: Vec<u32> = (newest..next).map(|id| id as u32).filter(|id| !model.held((table, *id))).collect();
    random.pick(&free)
}

pub fn free_vector(random: &mut Random, model: &Model) -> Option<u64> {
    let newest = model.next_vector.saturating_sub(if random.percent(80) { 12 } else { 300 });
    let free: Vec<u64> = (newest..model.next_vector).filter(|id| !model.held_vector(*id)).collect();
    random.pick(&free)
}

pub fn table(random: &mut Random, model: &Model) -> Option<u32> {
    random.pick(&model.tables.keys().copied().collect::<Vec<_>>())
}

/// Any table, but mostly the first: it is to have many rowsets.
fn favourite(random: &mut Random, model: &Model) -> Option<u32> {
    match random.percent(60) {
        true => model.tables.keys().next().copied(),
        false => table(random, model),
    }
}

/// Operations built on one another, on a model of their own.
struct Draft<'a> {
    random: &'a mut Random,
    model: Model,
    lines: Vec<String>,
}

impl Draft<'_> {
    fn push(&mut self, line: String) {
        self.model.apply(&line, self.model.epoch + 1);
        self.lines.push(line);
    }

    fn create(&mut self) -> Option<()> {
        if self.model.tables.len() >= 16 || self.model.next_table == u32::MAX {
            return None;
        }
        let (shape, name) = (shape(self.random), name(self.random, &self.model));
        self.push(format!("T,{},{shape},{name}", self.model.next_table));
        Some(())
    }

    fn drop(&mut self) -> Option<()> {
        let table = table(self.random, &self.model)?;
        let first = self.random.percent(50);
        if first {
            self.push(format!("X,{table}"));
        }
        let lines = self.model.removal(table, &self.model.now.rowsets(table));
        lines.into_iter().for_each(|line| self.push(line));
        if !first {
            self.push(format!("X,{table}"));
        }
        Some(())
    }

    fn add_rowset(&mut self) -> Option<()> {
        if self.model.pairs_held() >= 256 {
            return None;
        }
        let table = favourite(self.random, &self.model)?;
        let rowset = free_rowset(self.random, &self.model, table)?;
        self.push(format!("A,{table},{rowset}"));
        Some(())
    }

    fn delete_rowset(&mut self) -> Option<()> {
        let (table, rowset) = self.random.pick(&self.model.now.pairs.iter().copied().collect::<Vec<_>>())?;
        let mut lines = self.model.removal(table, &[rowset]);
        if self.random.percent(50) {
            lines.reverse();
        }
        lines.into_iter().for_each(|line| self.push(line));
        Some(())
    }

    fn add_vector(&mut self) -> Option<()> {
        if self.model.vectors_held() >= 256 {
            return None;
        }
        let (table, rowset) = self.random.pick(&self.model.now.pairs.iter().copied().collect::<Vec<_>>())?;
        let vector = free_vector(self.random, &self.model)?;
        self.push(format!("V,{table},{rowset},{vector}"));
        Some(())
    }

    fn delete_vector(&mut self) -> Option<()> {
        let vectors: Vec<_> = self.model.now.vectors.iter().copied().collect();
        let (table, rowset, vector) = self.random.pick(&vectors)?;
        self.push(format!("W,{table},{rowset},{vector}"));
        Some(())
    }

    fn any(&mut self) -> Option<()> {
        match self.random.below(20) {
            0..3 => self.create(),
            3 => self.drop(),
            4..10 => self.add_rowset(),
            10..13 => self.delete_rowset(),
            13..18 => self.add_vector(),
            _ => self.delete_vector(),
        }
    }
}

/// So many operations or a few more that the port accepts, as far as the model knows.
pub fn good(random: &mut Random, model: &Model, count: usize) -> Vec<String> {
    let mut draft = Draft { random, model: model.clone(), lines: vec![] };
    for _ in 0..count * 2 {
        if draft.lines.len() >= count {
            break;
        }
        draft.any();
    }
    draft.lines
}

/// Rowsets and vectors added, and then deleted, up to so many operations; a full store is emptied first.
pub fn large(random: &mut Random, model: &Model, count: usize) -> Vec<String> {
    let mut draft = Draft { random, model: model.clone(), lines: vec![] };
    if draft.model.tables.is_empty() {
        draft.create();
    }
    while draft.model.now.pairs.len() > 56 && draft.lines.len() + 60 < count {
        draft.delete_rowset();
    }
    let adds = count.saturating_sub(draft.lines.len()) / 3;
    for _ in 0..adds {
        draft.add_rowset();
    }
    for _ in 0..adds {
        draft.add_vector();
    }
    while draft.lines.len() < count && draft.delete_vector().or_else(|| draft.delete_rowset()).is_some() {}
    draft.lines
}

/// Tables up to the limit, and now and then one more.
pub fn tables(random: &mut Random, model: &Model) -> Vec<String> {
    let mut draft = Draft { random, model: model.clone(), lines: vec![] };
    while draft.create().is_some() {}
    if draft.random.percent(40) {
        draft.lines.push(format!("T,{},0,one_more", draft.model.next_table));
    }
    draft.lines
}

/// As many rowsets or vectors as can be held, and one more.
pub fn over_the_limit(random: &mut Random, model: &Model) -> Vec<String> {
    let mut draft = Draft { random, model: model.clone(), lines: vec![] };
    let Some(table) = table(draft.random, &draft.model) else { return vec![] };
    let free: Vec<u32> =
        (0..model.next_rowset.min(1000)).filter(|r| !model.held((table, *r))).take(257).collect();
    for rowset in free {
        if draft.model.pairs_held() > 256 {
            break;
        }
        draft.push(format!("A,{table},{rowset}"));
    }
    draft.lines
}

/// An operation that the port refuses, nearly always.
fn wrong(random: &mut Random, model: &Model) -> String {
    let table = table(random, model).unwrap_or(0);
    let rowset = random.pick(&model.now.rowsets(table)).unwrap_or(0);
    let (next_rowset, next_vector) = (model.next_rowset, model.next_vector);
    let taken = model.tables.values().next().cloned().unwrap_or("slots".into());
    let next_table = model.next_table;
    let waiting = random.pick(&model.waiting_pairs).map_or((table, rowset), |w| w.1);
    match random.below(24) {
        0 => format!("A,{next_table},{rowset}"),
        1 => format!("A,{table},{next_rowset}"),
        2 => format!("A,{table},{rowset}"),
        3 => format!("A,{},{}", waiting.0, waiting.1),
        4 => format!("A,{table},{}", random.pick(&[4_294_967_294u64, 4_294_967_295, 4_294_967_296]).unwrap()),
        5 => format!("D,{table},{next_rowset}"),
        6 => format!("V,{table},{rowset},{next_vector}"),
        7 => format!("V,{table},{next_rowset},0"),
        8 => format!("W,{table},{rowset},{next_vector}"),
        9 => format!("X,{next_table}"),
        10 => format!("X,{table}"),
        11 => format!("D,{table},{rowset}"),
        12 => format!("T,{next_table},7,{taken}"),
        13 => format!("T,{},7,other", next_table + 1),
        14 => format!("T,{next_table},7,Capital"),
        15 => format!("T,{next_table},7,names_of_33_bytes_are_one_too_lon"),
        16 => format!("N,{table},{rowset},{next_vector}"),
        17 => "B".into(),
        18 => format!("A,{table},0{rowset}"),
        19 => format!("A,{table}"),
        20 => format!("V,{table},{rowset},18446744073709551615"),
        21 => "!".into(),
        22 => format!("X,{table}!"),
        _ => "bogus".into(),
    }
}

/// Good operations with a wrong one among them.
pub fn bad(random: &mut Random, model: &Model) -> Vec<String> {
    let count = random.below(6) as usize;
    let mut lines = good(random, model, count);
    let place = random.between(0, lines.len() as u64) as usize;
    lines.insert(place, wrong(random, model));
    lines
}
