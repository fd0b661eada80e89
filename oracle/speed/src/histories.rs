//! What both sides are given: operations and histories, as lines of the port's manifest.

/// The rowset that is held at a place, and its vector.
fn rowset(i: usize) -> usize {
    1000 + 3 * i
}

fn vector(i: usize) -> usize {
    5000 + 7 * i
}

fn tables() -> Vec<String> {
    (0..4).map(|t| format!("T,{t},7,bookings_{t}")).collect()
}

/// Four tables, with so many rowsets over them and a vector over each.
pub fn held(n: usize) -> Vec<String> {
    let rowsets = (0..n).map(|i| format!("A,{},{}", i % 4, rowset(i)));
    let vectors = (0..n).map(|i| format!("V,{},{},{}", i % 4, rowset(i), vector(i)));
    tables().into_iter().chain(rowsets).chain(vectors).collect()
}

/// One table of so many rowsets without vectors.
pub fn one_table(n: usize) -> Vec<String> {
    let rowsets = (0..n).map(|i| format!("A,0,{i}"));
    ["T,0,7,bookings".to_string()].into_iter().chain(rowsets).collect()
}

/// The vectors of some of those that are held, and then the rowsets, deleted.
pub fn deletions(places: impl Iterator<Item = usize> + Clone) -> Vec<String> {
    let vectors = places.clone().map(|i| format!("W,{},{},{}", i % 4, rowset(i), vector(i)));
    vectors.chain(places.map(|i| format!("D,{},{}", i % 4, rowset(i)))).collect()
}

/// So many operations that are accepted where n are held: additions as far as there is room, then deletions, then
/// tables created and dropped.
pub fn operations(count: usize, n: usize) -> Vec<String> {
    let adds = (256 - n).min(count.div_ceil(2));
    let rowsets = (0..adds).map(|i| format!("A,{},{}", i % 4, 500_000 + 5 * i));
    let vectors = (0..adds).map(|i| format!("V,{},{},{}", i % 4, 500_000 + 5 * i, 700_000 + i));
    let mut ops: Vec<String> = rowsets.chain(vectors).take(count).collect();
    let deletes = n.min((count - ops.len()).div_ceil(2));
    ops.extend(deletions((0..deletes).map(|i| i * n / deletes.max(1))));
    let created_and_dropped = (4..).flat_map(|t| [format!("T,{t},1,t{t}"), format!("X,{t}")]);
    let ops = ops.into_iter().take(count);
    ops.chain(created_and_dropped).take(count).collect()
}

/// A manifest of one frame; the next ids are far above.
pub fn framed(ops: &[String]) -> Vec<String> {
    let tables = ops.iter().filter(|op| op.starts_with('T')).count();
    let begin = ["B".to_string(), format!("N,{tables},1000000,1000000")];
    begin.into_iter().chain(ops.iter().cloned()).chain(["E".to_string()]).collect()
}

pub fn text(lines: &[String]) -> String {
    lines.iter().map(|line| format!("{line}\n")).collect()
}

/// The port's file where each frame was appended: a line `!` stands before it.
pub fn appended(lines: &[String]) -> String {
    let mark = |line: &String| if line == "B" { "!\n" } else { "" };
    lines.iter().map(|line| format!("{}{line}\n", mark(line))).collect()
}

/// One rowset after another added, and the oldest deleted once 100 of them are live.
fn turnover() -> impl Iterator<Item = String> {
    (0usize..).flat_map(|i| {
        let delete = i.checked_sub(100).map(|old| format!("D,0,{}", 10_000 + old));
        [format!("A,0,{}", 10_000 + i)].into_iter().chain(delete)
    })
}

/// Commits of ten operations each, as many as a manifest of this length has room for.
pub fn commits(length: usize) -> Vec<String> {
    let mut lines: Vec<String> = ["B", "T,0,7,slots", "E"].map(String::from).into();
    let mut ops = turnover();
    let frame = 6 + 10 * "A,0,10000\n".len();
    let mut room = length - appended(&lines).len();
    while room >= frame {
        lines.push("B".into());
        lines.extend(ops.by_ref().take(10));
        lines.push("E".into());
        room -= frame;
    }
    lines
}

/// Numbers at random, the same ones in each run.
pub struct Random(pub u64);

impl Random {
    pub fn below(&mut self, bound: u32) -> u32 {
        self.0 = self.0.wrapping_mul(6364136223846793005).wrapping_add(1442695040888963407);
        ((self.0 >> 33) % u64::from(bound)) as u32
    }
}

/// Rows that rise, each once, as a scan meets them.
pub fn rows_rising(count: usize) -> Vec<u32> {
    let mut random = Random(1);
    (0..count as u32).map(|i| i * 244 + random.below(244)).collect()
}

/// Row handles (rowset, row) over so many rowsets, by rowset and row, each once.
pub fn handles_rising(count: usize, rowsets: u32) -> Vec<(u32, u32)> {
    let each = count as u32 / rowsets;
    rows_rising(count).into_iter().zip(0..).map(|(row, i)| (i / each, row)).collect()
}

/// The same ones in an order at random.
pub fn shuffled<T>(mut list: Vec<T>) -> Vec<T> {
    let mut random = Random(2);
    for end in (1..list.len()).rev() {
        list.swap(end, random.below(end as u32 + 1) as usize);
    }
    list
}
