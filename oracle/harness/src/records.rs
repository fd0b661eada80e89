//! Vector files that no writer made, by hand and by chance: the definitions' reader beside prost's. The port's own reader
//! takes little of them.
use crate::conformance::{conformance, with_looks};
use crate::random::Random;
use crate::{original, program};

/// The files by hand and so many by chance. False if the definitions say something else than the original.
pub fn print(count: u64, seed: u64) -> bool {
    let mut random = Random::new(seed);
    let mut files = by_hand();
    files.extend((0..count).map(|_| by_chance(&mut random)));
    let lines: Vec<String> = files.iter().map(|bytes| format!("decode {}", hex(bytes))).collect();
    let looked = with_looks(&lines);
    let answers = original::answers(&program("PLAIN"), &looked.lines, &["--each"]);
    let mut found = conformance(&looked, &answers, false);
    // The shortest first: a smallest one is near it.
    found.differing.sort_by_key(|(place, _)| looked.lines[*place].len());
    for (place, expected) in &found.differing {
        println!("> {} -> {} | definitions: {expected}", looked.lines[*place], answers[*place]);
    }
    let read = answers.iter().filter(|answer| answer.starts_with("decoded,")).count();
    println!("{} files, {read} of them read by the original", files.len());
    found.print();
    found.differing.is_empty()
}

fn hex(bytes: &[u8]) -> String {
    let text: String = bytes.iter().map(|byte| format!("{byte:02x}")).collect();
    if text.is_empty() { "-".into() } else { text }
}

fn varint(mut value: u64) -> Vec<u8> {
    let mut bytes = vec![];
    while value >= 128 {
        bytes.push(value as u8 | 128);
        value >>= 7;
    }
    bytes.push(value as u8);
    bytes
}

/// The same value in so many bytes, where it fits in fewer.
fn padded(value: u64, length: usize) -> Vec<u8> {
    let mut bytes = varint(value);
    while bytes.len() < length {
        *bytes.last_mut().unwrap() |= 128;
        bytes.push(0);
    }
    bytes
}

fn key(tag: u64, wire: u64) -> Vec<u8> {
    varint(tag * 8 + wire)
}

/// A record of these fields, with the length that they have.
fn record(fields: &[u8]) -> Vec<u8> {
    [varint(fields.len() as u64), fields.to_vec()].concat()
}

/// A group in a group, so many of them, around these fields.
fn nested(count: usize, fields: &[u8]) -> Vec<u8> {
    [vec![0x13; count], fields.to_vec(), vec![0x14; count]].concat()
}

// By hand.

fn by_hand() -> Vec<Vec<u8>> {
    [lengths(), varints(), keys(), groups(), wire_types()].concat()
}

/// Of records: none, too long, and such that a field or group goes on behind the end.
fn lengths() -> Vec<Vec<u8>> {
    let most = varint(u64::MAX);
    let mut files: Vec<Vec<u8>> = vec![vec![], vec![0], vec![0, 0], vec![1], vec![128], vec![128, 0], most];
    files.extend([vec![2, 8, 1], vec![3, 8, 1], vec![1, 8, 1], vec![2, 8, 128], vec![2, 8, 128, 1]]);
    files.extend([vec![2, 8, 128, 1, 0], vec![1, 0x13, 0x14], vec![2, 0x12, 1, 0], vec![2, 0x12, 2, 0]]);
    files.extend([vec![4, 8, 1, 8, 2], vec![4, 8, 2, 8, 0], vec![2, 8, 5, 2, 8, 4, 2, 8, 5, 0]]);
    files
}

/// Of up to eleven bytes, as a length, a key, a row, a field that is left out and a count of bytes; at the end of the
/// file and before other bytes, since prost then goes another way.
fn varints() -> Vec<Vec<u8>> {
    let mut files = vec![];
    for length in 1..=11 {
        files.push(padded(0, length));
        files.push([padded(2, length), vec![8, 1]].concat());
        files.push(record(&[padded(8, length), vec![1]].concat()));
        files.push(record(&[padded(0x12, length), vec![0]].concat()));
    }
    for value in long_varints() {
        for before in [&[8][..], &[0x10], &[0x12], &[]] {
            let file = record(&[before, &value].concat());
            files.push([&file[..], &[0; 12]].concat());
            files.push(file);
        }
        files.push(value);
    }
    files
}

/// Large numbers, and such as have more than 64 bits: the tenth byte decides.
fn long_varints() -> Vec<Vec<u8>> {
    let numbers = [1 << 31, 1 << 32, (1 << 32) + 5, 1 << 56, 1 << 63, u64::MAX];
    let mut all: Vec<Vec<u8>> = numbers.into_iter().map(varint).collect();
    all.extend((1..=11).map(|length| padded(1, length)));
    for tenth in [0, 1, 2, 3, 4, 0x40, 0x7f, 0x80, 0x81, 0xff] {
        all.push([vec![0x80; 9], vec![tenth]].concat());
        all.push([vec![0xff; 9], vec![tenth, 0]].concat());
    }
    all
}

/// Fields of every wire type, with numbers 0, small and large, in keys of up to 33 bits, with bytes enough behind them.
fn keys() -> Vec<Vec<u8>> {
    let mut files = vec![];
    for tag in [0, 1, 2, 15, 16, (1 << 29) - 1, 1 << 29, (1 << 29) + 1] {
        for wire in 0..8 {
            let key = key(tag, wire);
            files.push(record(&key));
            files.push(record(&[key.clone(), vec![0; 8]].concat()));
            files.push([record(&[key, vec![1; 4]].concat()), vec![0; 4]].concat());
        }
    }
    files.push(record(&[key(1 << 61, 0), vec![1]].concat()));
    files
}

/// Ended, not ended, ended as another one, with fields in them, beside each other, and in each other up to where prost
/// goes no deeper.
fn groups() -> Vec<Vec<u8>> {
    let texts: [&[u8]; 14] = [
        &[0x13, 0x14],
        &[0x13, 0x1c],
        &[0x13],
        &[0x14],
        &[0x0b, 0x0c],
        &[0x13, 0x0b, 0x0c, 0x14],
        &[0x13, 0x08, 0x05, 0x14],
        &[0x08, 0x07, 0x13, 0x08, 0x05, 0x14],
        &[0x13, 0x14, 0x13, 0x14, 0x08, 0x03],
        &[0x13, 0x1b, 0x14, 0x1c],
        &[0x13, 0x1b, 0x1c, 0x1b, 0x1c, 0x14],
        &[0x13, 0x06, 0x14],
        &[0x13, 0x00, 0x14],
        &[0x13, 0x94, 0x00],
    ];
    let mut files: Vec<Vec<u8>> = texts.into_iter().map(record).collect();
    for depth in [1, 2, 50, 97, 98, 99, 100, 101, 150] {
        for fields in [&[][..], &[0x10, 1], &[0x12, 0], &[0x15, 0, 0, 0, 0], &[0x14]] {
            files.push(record(&nested(depth, fields)));
            files.push(record(&[&nested(depth, fields)[..], &[8, 9]].concat()));
        }
    }
    files
}

/// Fields that are left out, with as many bytes as they need, one fewer and one more, in a group and outside.
fn wire_types() -> Vec<Vec<u8>> {
    let mut files = vec![];
    for (wire, need) in [(0, 1), (1, 8), (2, 4), (5, 4)] {
        for length in need - 1..=need + 1 {
            let mut body = vec![0; length];
            if wire == 2 && length > 0 {
                body[0] = 3;
            }
            let field = [key(2, wire), body].concat();
            files.push(record(&field));
            files.push(record(&[&field[..], &[8, 6]].concat()));
            files.push(record(&nested(1, &field)));
        }
    }
    files
}

// By chance.

fn by_chance(random: &mut Random) -> Vec<u8> {
    const EDGES: [u8; 24] = [
        0, 1, 2, 3, 4, 5, 6, 7, 8, 9, 0x0a, 0x0b, 0x0c, 0x0d, 0x10, 0x12, 0x13, 0x14, 0x1b, 0x1c, 0x7f, 0x80,
        0x81, 0xff,
    ];
    match random.below(10) {
        0 => (0..random.below(12)).map(|_| random.next() as u8).collect(),
        1 => (0..random.below(20)).map(|_| random.pick(&EDGES).unwrap()).collect(),
        2 => record(&nested(random.between(95, 102) as usize, &some_fields(random, 1))),
        _ => {
            let file = (0..random.between(1, 3)).flat_map(|_| some_record(random)).collect();
            damaged(random, file)
        }
    }
}

/// Mostly left whole.
fn damaged(random: &mut Random, mut file: Vec<u8>) -> Vec<u8> {
    let place = random.below(file.len() as u64) as usize;
    match random.below(12) {
        0 => file.truncate(place),
        1 => file[place] = random.next() as u8,
        2 => file[place] ^= 1 << random.below(8),
        3 => file.push(random.next() as u8),
        _ => {}
    }
    file
}

fn some_record(random: &mut Random) -> Vec<u8> {
    let count = random.below(4);
    let fields = some_fields(random, count);
    let length = some_varint(random, fields.len() as u64);
    [length, fields].concat()
}

fn some_fields(random: &mut Random, count: u64) -> Vec<u8> {
    (0..count).flat_map(|_| some_field(random)).collect()
}

/// In more bytes than it needs, now and then.
fn some_varint(random: &mut Random, value: u64) -> Vec<u8> {
    match random.below(6) {
        0 => padded(value, random.between(1, 11) as usize),
        _ => varint(value),
    }
}

fn some_number(random: &mut Random) -> u64 {
    match random.below(3) {
        0 => random.pick(&[0, 1, 127, 128, (1 << 32) - 1, 1 << 32, 1 << 63, u64::MAX]).unwrap(),
        1 => random.row().into(),
        _ => random.next(),
    }
}

fn some_field(random: &mut Random) -> Vec<u8> {
    let tag = random.weighted(&[(1, 30), (2, 20), (3, 5), (16, 5), ((1 << 29) - 1, 5), (0, 1), (1 << 29, 1)]);
    let wire = match tag {
        1 => random.weighted(&[(0, 40), (1, 1), (2, 1), (3, 1), (4, 1), (5, 1)]),
        _ => random.weighted(&[(0, 5), (1, 5), (2, 5), (3, 8), (5, 5), (4, 1), (6, 1), (7, 1)]),
    };
    let key = some_varint(random, tag * 8 + wire);
    let body = some_body(random, tag, wire);
    [key, body].concat()
}

fn some_body(random: &mut Random, tag: u64, wire: u64) -> Vec<u8> {
    match wire {
        0 => {
            let number = some_number(random);
            some_varint(random, number)
        }
        1 => vec![0x93; 8],
        2 => {
            let length = random.below(6);
            [some_varint(random, length), vec![0x13; length as usize]].concat()
        }
        3 => {
            let count = random.weighted(&[(0, 4), (1, 4), (2, 1)]);
            let end = if random.percent(95) { tag } else { tag + 1 };
            [some_fields(random, count), some_varint(random, end * 8 + 4)].concat()
        }
        5 => vec![0x14; 4],
        _ => vec![],
    }
}
