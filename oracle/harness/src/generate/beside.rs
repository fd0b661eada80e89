//! Calls beside the manager.
use super::Generator;
use crate::list::items;
use crate::operations;

impl Generator<'_> {
    pub fn create(&mut self) {
        let taken = self.random.percent(15);
        let name = match self.model.tables.values().next() {
            Some(name) if taken => name.clone(),
            _ => operations::name(&mut self.random, &self.model),
        };
        let shape = operations::shape(&mut self.random);
        self.maybe_room();
        if let Some(answer) = self.accepted(format!("create {shape} {name}")) {
            let line = format!("T,{},{shape},{name}", self.model.next_table);
            self.model.committed([line.as_str()]);
            self.appended(&answer);
        }
    }

    /// A live table, or one that is not.
    pub fn some_table(&mut self) -> u32 {
        let live = operations::table(&mut self.random, &self.model).unwrap_or(0);
        match self.random.percent(95) {
            true => live,
            false => self.random.pick(&[self.model.next_table, 77, u32::MAX]).unwrap(),
        }
    }

    /// A table with many rowsets, mostly.
    pub fn table_of_rowsets(&mut self) -> u32 {
        let tables: Vec<u32> = self.model.now.pairs.iter().map(|pair| pair.0).collect();
        match self.random.percent(80) {
            true => self.random.pick(&tables).unwrap_or(0),
            false => self.some_table(),
        }
    }

    pub fn drop_table(&mut self) {
        let table = self.some_table();
        self.maybe_room();
        if let Some(answer) = self.accepted(format!("drop {table}")) {
            let rowsets = self.model.now.rowsets(table);
            let mut lines = vec![format!("X,{table}")];
            lines.extend(self.model.removal(table, &rowsets));
            self.model.committed(lines.iter().map(String::as_str));
            self.appended(&answer);
            self.look();
        }
    }

    pub fn lock(&mut self) {
        let table = self.some_table();
        let give_back = self.model.locks.contains(&table) != self.random.percent(15);
        if give_back {
            if self.accepted(format!("unlock {table}")).is_some() {
                self.model.locks.remove(&table);
            }
        } else if self.accepted(format!("lock {table}")).is_some() {
            self.model.locks.insert(table);
        }
    }

    pub fn select(&mut self) {
        let table = self.table_of_rowsets();
        let mut count = self.model.now.rowsets(table).len();
        if self.random.percent(5) {
            count += 1;
        }
        let scale = self.random.pick(&[10u64, 100, 1 << 40, u64::MAX]).unwrap();
        let sizes: Vec<u64> = (0..count).map(|_| self.random.between(0, scale - 1)).collect();
        let target = match self.random.below(3) {
            0 => sizes.iter().fold(0u64, |sum, size| sum.saturating_add(*size)),
            1 => u64::MAX,
            _ => self.random.between(0, scale - 1).saturating_mul(3),
        };
        let words: String = sizes.iter().map(|size| format!(" {size}")).collect();
        self.maybe_room();
        self.ask(format!("select {table} {target}{words}"));
    }

    pub fn compact(&mut self) {
        let table = self.table_of_rowsets();
        if !self.model.locks.contains(&table) && self.random.percent(85) {
            if self.accepted(format!("lock {table}")).is_some() {
                self.model.locks.insert(table);
            }
        }
        let mut taken = self.model.now.rowsets(table);
        let chance = self.random.pick(&[30, 70, 100]).unwrap();
        taken.retain(|_| self.random.percent(chance));
        if self.random.percent(4) {
            taken.reverse();
        }
        let new = match self.random.percent(75) {
            true => self.new_rowset(table),
            false => None,
        };
        self.compact_these(table, new, &taken);
    }

    pub fn new_rowset(&mut self, table: u32) -> Option<u32> {
        if self.random.percent(70) && self.accepted("draw rowset".into()).is_some() {
            self.model.next_rowset += 1;
        }
        operations::free_rowset(&mut self.random, &self.model, table)
    }

    pub fn compact_these(&mut self, table: u32, new: Option<u32>, taken: &[u32]) {
        let new_word = new.map_or("-".into(), |rowset| rowset.to_string());
        let words: String = taken.iter().map(|rowset| format!(" {rowset}")).collect();
        self.maybe_room();
        if let Some(answer) = self.accepted(format!("compact {table} {new_word}{words}")) {
            let mut lines: Vec<String> = new.iter().map(|r| format!("A,{table},{r}")).collect();
            lines.extend(self.model.removal(table, taken));
            self.model.committed(lines.iter().map(String::as_str));
            self.appended(&answer);
            self.look();
        }
    }

    pub fn group(&mut self) {
        let pairs: Vec<_> = self.model.now.pairs.iter().copied().collect();
        let (table, _) = self.random.pick(&pairs).unwrap_or((0, 0));
        let rowsets = self.model.now.rowsets(table);
        let count = self.random.weighted(&[(0, 1), (3, 8), (12, 4), (200, 1)]);
        let mut words = String::new();
        for _ in 0..count {
            let rowset = self.random.pick(&rowsets).unwrap_or(0);
            words += &format!(" {rowset}:{}", self.random.row());
        }
        self.maybe_room();
        if let Some(answer) = self.accepted(format!("group{words}")) {
            self.grouped(table, &answer);
        }
    }

    /// The grouped vectors' rows are noted, and mostly committed over their rowsets.
    pub fn grouped(&mut self, table: u32, answer: &str) {
        let mut lines = vec![];
        for fields in items(answer) {
            let (vector, rowset): (u64, u32) = (fields[0].parse().unwrap(), fields[1].parse().unwrap());
            let rows = fields[3].split('+').map(|row| row.parse().unwrap()).collect();
            self.model.rows.insert(vector, rows);
            self.model.next_vector = vector + 1;
            if self.model.now.pairs.contains(&(table, rowset)) {
                lines.push(format!("V,{table},{rowset},{vector}"));
            }
        }
        if self.random.percent(80) {
            self.commit(lines);
        }
    }
}
