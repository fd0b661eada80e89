// Manifests and operations, as lines.

// The rowset that is held at a place, and its vector.
pub fn rowset(i: usize) -> usize {
    1000 + 3 * i
}

pub fn vector(i: usize) -> usize {
    5000 + 7 * i
}

// Four tables, with so many pairs and vectors over them.
pub fn held(n: usize) -> String {
    let mut s = String::from("B\nN,4,1000000,1000000\n");
    for t in 0..4 {
        s += &format!("T,{t},7,bookings_{t}\n");
    }
    for i in 0..n {
        s += &format!("A,{},{}\n", i % 4, rowset(i));
    }
    for i in 0..n {
        s += &format!("V,{},{},{}\n", i % 4, rowset(i), vector(i));
    }
    s + "E\n"
}

// One table, with so many pairs and a vector over each.
pub fn one_table(n: usize) -> String {
    let mut s = String::from("B\nN,1,1000000,1000000\nT,0,7,bookings\n");
    for i in 0..n {
        s += &format!("A,0,{}\n", rowset(i));
    }
    for i in 0..n {
        s += &format!("V,0,{},{}\n", rowset(i), vector(i));
    }
    s + "E\n"
}

// The vectors of some of these, and then the pairs, deleted.
pub fn deletions(places: &[usize]) -> Vec<String> {
    let vectors = places
        .iter()
        .map(|i| format!("W,{},{},{}", i % 4, rowset(*i), vector(*i)));
    let pairs = places.iter().map(|i| format!("D,{},{}", i % 4, rowset(*i)));
    vectors.chain(pairs).collect()
}

pub fn lines(ops: &[String]) -> Vec<u8> {
    ops.iter()
        .flat_map(|o| format!("{o}\n").into_bytes())
        .collect()
}

// So many operations that are accepted where n are held: additions as far as there is room, then deletions, then tables
// created and dropped.
pub fn operations(count: usize, n: usize) -> Vec<String> {
    let mut ops = vec![];
    let adds = (256 - n).min(count.div_ceil(2));
    for i in 0..adds {
        ops.push(format!("A,{},{}", i % 4, 500_000 + 5 * i));
    }
    for i in 0..adds {
        ops.push(format!("V,{},{},{}", i % 4, 500_000 + 5 * i, 700_000 + i));
    }
    ops.truncate(count);
    let deletes = n.min((count - ops.len()).div_ceil(2));
    let places: Vec<usize> = (0..deletes).map(|i| i * n / deletes.max(1)).collect();
    ops.extend(deletions(&places));
    ops.truncate(count);
    let mut next = 4;
    while ops.len() < count {
        ops.push(format!("T,{next},1,t{next}"));
        ops.push(format!("X,{next}"));
        next += 1;
    }
    ops.truncate(count);
    ops
}

// ---- Manifests of about a length

// A frame as an append has it.
fn framed(s: &mut String, ops: &[String]) {
    *s += "!\nB\n";
    for o in ops {
        *s += o;
        *s += "\n";
    }
    *s += "E\n";
}

// One rowset after another added, and the oldest deleted once `live` of them are: one operation after another.
fn turnover(live: usize) -> impl Iterator<Item = String> {
    let add = |i: usize| format!("A,0,{}", 10000 + i);
    (0..).flat_map(move |i| {
        let delete = (i >= live).then(|| format!("D,0,{}", 10000 + i - live));
        std::iter::once(add(i)).chain(delete)
    })
}

// Frames of so many operations each; where a length has no room for one, one with as many as it has room for.
pub fn commits(length: usize, each: usize) -> String {
    let mut s = String::from("!\nB\nT,0,7,slots\nE\n");
    let mut ops = turnover(100);
    let line = "A,0,10000\n".len();
    let each = each.min((length - s.len() - 6) / line);
    while s.len() + 6 + each * line <= length {
        let frame: Vec<String> = ops.by_ref().take(each).collect();
        framed(&mut s, &frame);
    }
    s
}

// The worst shapes tried.

// Each frame adds 300 below all others, descending, and deletes 300 from the front: every insertion and every deletion moves all.
pub fn falling(length: usize) -> String {
    let mut s = String::from("!\nB\nT,0,7,slots\nE\n");
    let mut low = 90000;
    framed(
        &mut s,
        &(0..256)
            .map(|i| format!("A,0,{}", low + 255 - i))
            .collect::<Vec<_>>(),
    );
    while s.len() + 600 * 10 + 6 <= length {
        low -= 300;
        let adds = (0..300).map(|i| format!("A,0,{}", low + 299 - i));
        let deletes = (0..300).map(|i| format!("D,0,{}", low + i));
        framed(&mut s, &adds.chain(deletes).collect::<Vec<_>>());
    }
    s
}

// Vectors over 256 rowsets, added in falling order and deleted in rising order.
pub fn vectors(length: usize) -> String {
    let mut s = String::from("!\nB\nT,0,7,slots\n");
    for i in 0..256 {
        s += &format!("A,0,{}\n", 1000 + i);
    }
    s += "E\n";
    while s.len() + 512 * 15 + 6 <= length {
        let line = |l: char, i: usize| format!("{l},0,{},{}", 1000 + i, 1000 + i);
        let adds = (0..256).rev().map(|i| line('V', i));
        let deletes = (0..256).map(|i| line('W', i));
        framed(&mut s, &adds.chain(deletes).collect::<Vec<_>>());
    }
    s
}

// Frames that create 300 tables, in falling order, and drop them again.
pub fn tables(length: usize) -> String {
    let mut s = String::new();
    while s.len() + 300 * 14 + 300 * 6 + 6 <= length {
        let creates = (0..300)
            .rev()
            .map(|i| format!("T,{},0,{}", 100 + i, 100 + i));
        let drops = (0..300).map(|i| format!("X,{}", 100 + i));
        framed(&mut s, &creates.chain(drops).collect::<Vec<_>>());
    }
    s
}

// Lines that say nothing, as short as they may be.
pub fn empty_frames(length: usize) -> String {
    "!\nB\nE\n".repeat(length / 6)
}
