//! Texts of manifests that no commit has to have written: second `B`s, orphans, torn lines and tails, lines outside a frame.
use std::collections::{BTreeMap, BTreeSet};

use crate::random::Random;

struct Text<'a> {
    random: &'a mut Random,
    lines: Vec<String>,
    tables: BTreeMap<u32, String>,
    pairs: BTreeSet<(u32, u32)>,
}

impl Text<'_> {
    fn small(&mut self, bound: u64) -> u32 {
        self.random.below(bound) as u32
    }

    fn table(&mut self) -> u32 {
        let live: Vec<u32> = self.tables.keys().copied().collect();
        self.random.pick(&live).unwrap_or(0)
    }

    /// A line that leaves no live rowset without its table.
    fn operation(&mut self) -> String {
        match self.random.below(18) {
            0..3 => self.create(),
            3 => self.drop(),
            4..8 => self.add_rowset(),
            8..11 => {
                let (table, rowset) = (self.table(), self.small(8));
                self.pairs.remove(&(table, rowset));
                format!("D,{table},{rowset}")
            }
            11..15 => format!("V,{},{},{}", self.table(), self.small(8), self.small(12)),
            15..17 => format!("W,{},{},{}", self.table(), self.small(8), self.small(12)),
            _ => format!("N,{},{},{}", self.small(9), self.small(40), self.small(40)),
        }
    }

    fn create(&mut self) -> String {
        let id = self.small(6);
        if self.tables.contains_key(&id) {
            return format!("D,{id},99");
        }
        let name = format!("t{}_{id}", self.small(50));
        if self.tables.values().any(|n| *n == name) {
            return format!("D,{id},98");
        }
        self.tables.insert(id, name.clone());
        format!("T,{id},{},{name}", self.small(9))
    }

    fn drop(&mut self) -> String {
        let table = self.table();
        if !self.tables.contains_key(&table) || self.pairs.iter().any(|pair| pair.0 == table) {
            return format!("W,{table},77,77");
        }
        self.tables.remove(&table);
        format!("X,{table}")
    }

    fn add_rowset(&mut self) -> String {
        let (table, rowset) = (self.table(), self.small(8));
        if !self.tables.contains_key(&table) {
            return format!("D,{table},{rowset}");
        }
        self.pairs.insert((table, rowset));
        format!("A,{table},{rowset}")
    }

    /// Behind what came short, if anything did.
    fn append(&mut self) {
        let torn = ["!", "!", "!", "!", "B!", "A,0!", "A,0,1!", "!!", "E!"];
        let line = self.random.pick(&torn).unwrap();
        self.lines.push(line.into());
        self.frame();
    }

    fn frame(&mut self) {
        self.lines.push("B".into());
        for _ in 0..self.random.below(9) {
            let line = self.operation();
            self.lines.push(line);
        }
        self.lines.push("E".into());
    }

    /// A frame without its end, whose lines are well formed and change nothing.
    fn torn_frame(&mut self) {
        self.lines.push("B".into());
        for _ in 0..self.random.between(1, 4) {
            let (table, rowset) = (self.table(), self.small(12));
            let line = match self.random.below(4) {
                0 => format!("A,{table},{rowset}"),
                1 => format!("D,{table},{rowset}"),
                2 => format!("V,{table},{rowset},{}", self.random.below(40)),
                _ => format!("N,{},{},{}", 50, 50, 50),
            };
            self.lines.push(line);
        }
    }

    fn outside(&mut self) {
        let line = match self.random.below(4) {
            0 => "E".into(),
            1 => "X,77".into(),
            2 => "T,0,0,outside".into(),
            _ => format!("A,{},{}", self.small(6), self.small(8)),
        };
        self.lines.push(line);
    }
}

const BAD_LINES: [&str; 14] = [
    "",
    "B,",
    "EE",
    "A,0",
    "A,0,01",
    "T,0,0,",
    "T,9,9,Upper",
    "X,4294967295",
    "A,0,4294967295",
    "Q",
    " B",
    "N,1,2",
    "!B",
    "A,0!,1",
];
const BAD_FRAMES: [&str; 5] = [
    "B\nX,99\nE",
    "B\nT,1,1,one\nT,2,1,one\nE",
    "B\nA,77,1\nE",
    "B\nT,5,1,x\nT,5,1,y\nE",
    "B\nA,4,1\nX,4\nE",
];

/// A text of some frames; one in six is refused.
pub fn any(random: &mut Random) -> String {
    let mut text = Text { random, lines: vec![], tables: BTreeMap::new(), pairs: BTreeSet::new() };
    for _ in 0..text.random.between(1, 7) {
        match text.random.below(12) {
            0 | 1 => text.torn_frame(),
            2 => text.outside(),
            3..7 => text.append(),
            _ => text.frame(),
        }
        // what comes outside a frame must not stand in a torn one
        if text.lines.last().is_some_and(|line| line != "E") && text.random.percent(70) {
            match text.random.percent(50) {
                true => text.frame(),
                false => text.append(),
            }
        }
    }
    let Text { random, mut lines, .. } = text;
    if random.percent(8) {
        let place = random.between(0, lines.len() as u64) as usize;
        lines.insert(place, random.pick(&BAD_LINES).unwrap().into());
    }
    if random.percent(8) {
        lines.push(random.pick(&BAD_FRAMES).unwrap().into());
    }
    let whole: String = lines.iter().map(|line| format!("{line}\n")).collect();
    whole + random.pick(&["", "", "", "B", "A,0,1", "E", "junk \\xff", "T,0"]).unwrap()
}

/// Nothing but next ids.
pub fn next_ids(table: u32, rowset: u32, vector: u64) -> String {
    format!("B\nN,{table},{rowset},{vector}\nE\n")
}

/// A text at a limit, or just past it: bytes, operations in a frame, tables, rowsets.
pub fn large(random: &mut Random) -> String {
    let over = random.below(2) as usize;
    match random.below(4) {
        0 => {
            let line = "A,0,1\n";
            let whole = line.repeat(65_536 / line.len());
            let tail = 65_536 - whole.len() + over;
            whole + &"-".repeat(tail)
        }
        1 => format!("B\nT,0,7,slots\n{}E\n", "N,1,1,1\n".repeat(599 + over)),
        2 => {
            let tables: String = (0..16 + over).map(|id| format!("T,{id},0,t{id}\n")).collect();
            format!("B\n{tables}E\n")
        }
        _ => {
            let rowsets: String = (0..256 + over).map(|id| format!("A,0,{id}\n")).collect();
            format!("B\nT,0,7,slots\n{rowsets}E\n")
        }
    }
}
