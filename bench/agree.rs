// Calls at random, refused ones among them, made of the library and by hand: whatever is said, handed back or written is equal.
use crate::layout::{self, Answer, PinBook, VersionManager};
use crate::{bound, port, texts};
use std::collections::BTreeMap;

pub struct Random(pub u64);

impl Random {
    pub fn below(&mut self, n: u64) -> u64 {
        self.0 ^= self.0 << 13;
        self.0 ^= self.0 >> 7;
        self.0 ^= self.0 << 17;
        (self.0 >> 11) % n
    }

    fn one_in(&mut self, n: u64) -> bool {
        self.below(n) == 0
    }

    // A number of any length of up to 32 bits.
    fn number(&mut self) -> u32 {
        (self.below(1 << 32) >> self.below(33)) as u32
    }
}

struct Both {
    port: port::Manager,
    bound: VersionManager,
    book: PinBook,
    random: Random,
    // how often each call answered each number
    numbers: BTreeMap<(&'static str, u32), usize>,
}

// Every number that these calls may answer, in the order in which they are judged.
const MET: [(&str, &[u32]); 9] = [
    ("group", &[29, 2, 8, 26, 9, 0]),
    ("create", &[29, 2, 15, 20, 21, 23, 26, 9, 0]),
    ("drop", &[29, 2, 11, 20, 23, 9, 0]),
    ("compact", &[29, 2, 6, 11, 12, 14, 16, 20, 22, 23, 27, 9, 0]),
    ("checkpoint", &[29, 9, 0]),
    ("report", &[29, 28, 31, 0]),
    ("lock", &[29, 2, 11, 25, 0]),
    ("unlock", &[29, 2, 11, 27, 0]),
    ("select", &[29, 2, 8, 11, 9, 0]),
];

impl Both {
    fn said(&mut self, what: &'static str, p: Answer, b: Answer) {
        assert!(p == b, "{what}: {p:?}, and by hand {b:?}");
        *self.numbers.entry((what, p.number)).or_default() += 1;
    }

    fn handed(&mut self, what: &'static str, p: port::Handed, b: layout::Handed<VersionManager>) {
        self.said(what, p.answer, b.answer);
        self.port = p.manager;
        self.bound = b.manager;
        let same = self.port.same(&self.bound);
        assert!(same, "{what}: managers differ");
    }

    // An operation on ids that are held, mostly, or are not.
    fn operation(&mut self) -> String {
        let r = &mut self.random;
        let vectors = &self.bound.inner.vectors;
        let i = r.below(1 + vectors.count as u64) as usize % 256;
        let (t, s, v) = (vectors.tables[i], vectors.rowsets[i], vectors.vectors[i]);
        let rowsets = &self.bound.inner.rowsets;
        let j = r.below(1 + rowsets.count as u64) as usize % 256;
        let (pt, ps) = (rowsets.tables[j], rowsets.rowsets[j]);
        match r.below(100) {
            0..8 => format!("T,{},7,t{}", self.bound.inner.next.table, r.below(40)),
            8 => format!("X,{}", r.below(20)),
            9..55 => format!("A,{},{}", r.below(4), r.below(710)),
            55..82 => format!("V,{pt},{ps},{}", r.below(3010)),
            82..86 => format!("W,{t},{s},{v}"),
            86..88 => format!("D,{pt},{ps}"),
            88 => format!("D,{},{}", r.below(4), r.below(700)),
            89 => [
                "N,1,1,1",
                "A,0",
                "A,00,1",
                "",
                "B",
                "T,0,0,Slots",
                "!",
                "X,0!",
            ][r.below(8) as usize]
                .into(),
            _ => format!("W,{t},{s},{v}\nD,{t},{s}"),
        }
    }

    fn commit(&mut self) {
        let n = match self.random.below(60) {
            0 => 595 + self.random.below(10),
            _ => self.random.below(4),
        };
        let ops: Vec<String> = (0..n).map(|_| self.operation()).collect();
        let lines = texts::lines(&ops);
        let room = if self.random.one_in(20) { 10 } else { 65536 };
        let (mut x, mut y) = (vec![0u8; room], vec![0u8; room]);
        let p = port::commit(self.port, &lines, &mut x);
        let b = bound::commit(self.bound, &lines, &mut y);
        self.handed("commit", p, b);
        assert!(x == y, "commit: appends differ");
    }

    fn vacuum(&mut self) {
        let room = if self.random.one_in(5) { 1 } else { 256 };
        let (mut t, mut s) = (vec![0; room], vec![0; room]);
        let (mut u, mut w) = (vec![0; room], vec![0; room]);
        let p = port::vacuum(self.port, self.book, &mut t, &mut s);
        let b = bound::vacuum(self.bound, self.book, &mut u, &mut w);
        self.handed("vacuum", p, b);
        assert!(t == u && s == w, "vacuum: lists differ");
    }

    fn show(&mut self) {
        let epoch = self
            .bound
            .inner
            .epoch
            .saturating_sub(self.random.below(4) as u32);
        let (mut t, mut s) = ([0; 256], [0; 256]);
        let (mut u, mut w) = ([0; 256], [0; 256]);
        let p = port::show_pairs(self.port, self.book, epoch, &mut t, &mut s);
        let b = bound::show_pairs(self.bound, self.book, epoch, &mut u, &mut w);
        self.said("show", p, b);
        assert!(t == u && s == w, "show: lists differ");
    }

    fn pins(&mut self) {
        let epoch = self
            .bound
            .inner
            .epoch
            .saturating_sub(self.random.below(20) as u32);
        let (m, n, book) = (self.port, self.bound, self.book);
        let (p, b) = if self.random.below(3) < 2 {
            (port::pin(m, book), bound::pin(n, book))
        } else {
            (port::unpin(m, book, epoch), bound::unpin(n, book, epoch))
        };
        self.said("pins", p.answer, b.answer);
        assert!(p.book.same(&b.book), "pins: books differ");
        self.book = p.book;
    }

    // The store anew, from a manifest of lines at random.
    fn reopen(&mut self) {
        let mut s = String::from("B\nT,0,7,a\nT,1,7,b\nT,2,7,c\nT,3,7,d\nN,4,700,3000\nE\n");
        for _ in 0..self.random.below(30) {
            s += "B\n";
            let most = if self.random.one_in(40) { 610 } else { 12 };
            for _ in 0..self.random.below(most) {
                s += &self.operation();
                s += "\n";
            }
            s += if self.random.one_in(9) { "" } else { "E\n" };
            s += match self.random.below(9) {
                0..4 => "!\n",
                4 => "A,0!\n",
                _ => "",
            };
        }
        let (mut x, mut y) = (vec![0u8; 18625], vec![0u8; 18625]);
        let p = port::bootstrap(s.as_bytes(), &mut x);
        let b = bound::bootstrap(s.as_bytes(), &mut y);
        self.said("reopen", p.answer, b.answer);
        let same = p.manager.same(&b.manager) && p.book.same(&b.book);
        assert!(same, "reopen: managers differ");
        assert!(x == y, "reopen: rewritten manifests differ");
        if p.answer.number == 0 {
            (self.port, self.bound, self.book) = (p.manager, b.manager, p.book);
        }
    }

    // A table that is live, mostly, or is not, or is no id.
    fn table(&mut self) -> u32 {
        let (r, live) = (&mut self.random, &self.bound.inner.tables);
        match r.below(20) {
            0 => u32::MAX,
            1 => r.below(20) as u32,
            2..6 => live.ids[r.below(1 + live.count as u64) as usize % 16],
            _ => r.below(4) as u32,
        }
    }

    fn room(&mut self, needed: u64) -> usize {
        if self.random.one_in(10) {
            self.random.below(needed) as usize
        } else {
            65536
        }
    }

    fn lock(&mut self) {
        let (m, n, t) = (self.port, self.bound, self.table());
        if self.random.one_in(2) {
            self.handed("lock", port::lock(m, t), bound::lock(n, t));
        } else {
            self.handed("unlock", port::unlock(m, t), bound::unlock(n, t));
        }
    }

    fn create(&mut self) {
        let name = match self.random.below(12) {
            0 => String::new(),
            1 => "Slots".into(),
            2 => "a".repeat(30 + self.random.below(6) as usize),
            _ => format!("t{}", self.random.below(40)),
        };
        let (shape, room) = (self.random.number(), self.room(30));
        let (mut x, mut y) = (vec![0u8; room], vec![0u8; room]);
        let p = port::create(self.port, shape, name.as_bytes(), &mut x);
        let b = bound::create(self.bound, shape, name.as_bytes(), &mut y);
        self.handed("create", p, b);
        assert!(x == y, "create: appends differ");
    }

    // A drop of one of the tables that the operations are of is put back.
    fn drop(&mut self) {
        let before = (self.port, self.bound);
        let (table, room) = (self.table(), self.room(500));
        let (mut x, mut y) = (vec![0u8; room], vec![0u8; room]);
        let p = port::drop(self.port, table, &mut x);
        let b = bound::drop(self.bound, table, &mut y);
        self.handed("drop", p, b);
        assert!(x == y, "drop: appends differ");
        if table < 4 {
            (self.port, self.bound) = before;
        }
    }

    // The rowsets of a table that the current epoch shows.
    fn shown(&self, table: u32) -> Vec<u32> {
        let (s, epoch) = (&self.bound.inner.rowsets, self.bound.inner.epoch);
        (0..s.count.min(256))
            .filter(|i| s.tables[*i] == table && s.added[*i] <= epoch && s.deleted[*i] == 0)
            .map(|i| s.rowsets[i])
            .collect()
    }

    // Rowsets that may be taken, mostly.
    fn taken(&mut self, table: u32) -> Vec<u32> {
        let mut taken = self.shown(table);
        let r = &mut self.random;
        let one_in = 1 + r.below(20);
        taken.retain(|_| r.one_in(one_in));
        match r.below(12) {
            0 => (0..595 + r.below(10) as u32).collect(),
            1 => {
                taken.push(r.below(700) as u32);
                taken.sort();
                taken
            }
            2 => {
                taken.push(u32::MAX - r.below(2) as u32);
                taken
            }
            3 => {
                taken.reverse();
                taken
            }
            _ => taken,
        }
    }

    fn compact(&mut self) {
        let (table, room) = (self.table(), self.room(200));
        let taken = self.taken(table);
        let new = match self.random.below(12) {
            0..4 => None,
            4 => Some(u32::MAX),
            _ => Some(self.random.below(710) as u32),
        };
        let (mut x, mut y) = (vec![0u8; room], vec![0u8; room]);
        let p = port::compact(self.port, table, new, &taken, &mut x);
        let b = bound::compact(self.bound, table, new, &taken, &mut y);
        self.handed("compact", p, b);
        assert!(x == y, "compact: appends differ");
    }

    // Lent enough, just enough, or one byte less.
    fn checkpoint(&mut self) {
        let needed = bound::checkpoint(self.bound, &mut [0; 18625]).answer.values[0] as usize;
        let room = match self.random.below(4) {
            0 => needed,
            1 => needed.saturating_sub(1),
            _ => 18625,
        };
        let (mut x, mut y) = (vec![0u8; room], vec![0u8; room]);
        let p = port::checkpoint(self.port, &mut x);
        let b = bound::checkpoint(self.bound, &mut y);
        self.handed("checkpoint", p, b);
        assert!(x == y, "checkpoint: rewritten manifests differ");
    }

    // Of all bytes that may have landed, and of more. Some books are none, and some have the commit's own epoch pinned.
    fn report(&mut self) {
        let append = self.bound.append as u64;
        let landed = match self.random.below(8) {
            0 => append,
            1 => u64::MAX - self.random.below(70000),
            _ => self.random.below(append.max(1)),
        };
        let mut book = self.book;
        match self.random.below(9) {
            0 => book.count = self.random.below(66) as usize,
            1 => book = bound::pin(self.bound, book).book,
            _ => {
                let pins = &book.items[..book.count];
                let current = pins.last().map(|p| p.epoch) == Some(self.bound.inner.epoch);
                book.count -= current as usize;
            }
        }
        let p = port::report(self.port, book, landed as usize);
        let b = bound::report(self.bound, book, landed as usize);
        // No pin may be above the epoch that is handed back.
        if p.answer.number == 0 {
            self.book = book;
        }
        self.handed("report", p, b);
    }

    fn select(&mut self) {
        let table = self.table();
        let shown = self.shown(table).len();
        let sizes = match self.random.below(10) {
            0 => self.random.below(3) as usize,
            _ => shown,
        };
        let mut sizes: Vec<u64> = (0..sizes).map(|_| self.random.number() as u64).collect();
        let mut target = self.random.number() as u64 * (1 + self.random.below(9));
        // In some one alone is taken.
        if !sizes.is_empty() && self.random.below(4) == 0 {
            let alone = self.random.below(sizes.len() as u64) as usize;
            sizes.fill(1);
            sizes[alone] = 0;
            target = 0;
        }
        let room = self.room(20);
        let (mut x, mut y) = (vec![0u32; room], vec![0u32; room]);
        let p = port::select(self.port, table, target, &sizes, &mut x);
        let b = bound::select(self.bound, table, target, &sizes, &mut y);
        self.said("select", p, b);
        assert!(x == y, "select: rowsets differ");
    }

    fn handles(&mut self) -> Vec<u64> {
        let r = &mut self.random;
        let n = match r.below(20) {
            0 => 4090 + r.below(10),
            _ => r.below(60),
        };
        let rowsets = 1 + r.below(30);
        let mut handles: Vec<u64> = (0..n)
            .map(|_| r.below(rowsets) << 32 | r.number() as u64)
            .collect();
        if n > 0 && r.one_in(10) {
            handles[r.below(n) as usize] |= (u32::MAX as u64) << 32;
        }
        handles
    }

    fn group(&mut self) {
        let handles = self.handles();
        let room = [10, 10, 10, 100, 40].map(|n| self.room(n));
        let columns = || room.map(|n| vec![0u32; n]);
        let (mut x, mut y) = (columns(), columns());
        let (mut f, mut g) = (vec![0u8; room[3]], vec![0u8; room[3]]);
        let [r, l, c, _, w] = &mut x;
        let p = port::group(self.port, &handles, r, l, c, &mut f, w);
        let [r, l, c, _, w] = &mut y;
        let b = bound::group(self.bound, &handles, r, l, c, &mut g, w);
        self.handed("group", p, b);
        assert!(x == y && f == g, "group: vectors differ");
    }

    // A number that some refusal looks at, changed on both sides.
    fn strain(&mut self) {
        let (r, m) = (&mut self.random, &mut self.bound);
        match r.below(10) {
            0 if m.append > 0 => m.kept.manifest = 65536 - r.below(50) as usize,
            1 if m.append > 0 => m.append = 1 + r.below(70000) as usize,
            0..4 => m.inner.epoch = u32::MAX,
            4 => m.inner.next.table = u32::MAX,
            5 | 6 => m.inner.next.vector = u64::MAX - r.below(9),
            7 => m.inner.next.rowset = r.below(700) as u32,
            _ => m.inner.manifest = 65536 - r.below(50) as usize,
        }
        let (p, m) = (&mut self.port, self.bound);
        let s = m.inner;
        (p.inner.epoch, p.inner.next, p.inner.manifest) = (s.epoch, s.next, s.manifest);
        (p.kept.manifest, p.append) = (m.kept.manifest, m.append);
    }

    // A call of tables, locks or handles, or a checkpoint. Some are on a manager with a number changed, and it is put back then.
    fn tables(&mut self) {
        let before = (self.port, self.bound);
        let strained = self.random.one_in(3);
        if strained {
            self.strain();
        }
        match self.random.below(11) {
            0 | 1 => self.lock(),
            2 => self.create(),
            3 | 4 => self.drop(),
            5..8 => self.compact(),
            8 => self.select(),
            9 => self.checkpoint(),
            _ => self.group(),
        }
        if strained {
            (self.port, self.bound) = before;
        }
    }

    // A manager or a book that no call hands out.
    fn spoilt(&mut self) {
        let (mut m, mut n, mut book) = (self.port, self.bound, self.book);
        macro_rules! set {
            ($($field:ident).+, $to:expr) => {{
                m.$($field).+ = $to;
                n.$($field).+ = m.$($field).+;
            }};
        }
        let r = &mut self.random;
        match r.below(18) {
            0 => set!(inner.epoch, n.inner.epoch.saturating_sub(r.below(3) as u32)),
            1 => set!(inner.next.table, r.below(6) as u32),
            2 => set!(inner.next.rowset, 600 + r.below(100) as u32),
            3 => set!(inner.next.vector, 2900 + r.below(100)),
            4 => set!(inner.manifest, 65535 + r.below(3) as usize),
            5 => set!(inner.tables.count, n.inner.tables.count.saturating_sub(1)),
            6 => set!(inner.rowsets.count, n.inner.rowsets.count.saturating_sub(1)),
            // what is kept is judged where there is any
            10 => set!(kept.epoch, n.kept.epoch.saturating_sub(r.below(3) as u32)),
            11 => set!(kept.next.table, r.below(6) as u32),
            12 => set!(kept.next.rowset, 600 + r.below(100) as u32),
            13 => set!(kept.next.vector, 2900 + r.below(100)),
            14 => set!(
                kept.manifest,
                65536 - n.append.min(65536) + r.below(3) as usize
            ),
            15 => set!(kept.tables.count, n.kept.tables.count.saturating_sub(1)),
            16 => set!(kept.rowsets.count, n.kept.rowsets.count.saturating_sub(1)),
            17 if n.append > 0 => set!(append, usize::MAX - r.below(70000) as usize),
            7 => book.count = r.below(66) as usize,
            8 => book.items[r.below(4) as usize].count = 0,
            _ => book.items[r.below(4) as usize].epoch = r.below(9) as u32,
        }
        let (p, b) = (port::pin(m, book), bound::pin(n, book));
        self.said("spoilt", p.answer, b.answer);
        let (p, b) = (port::report(m, book, 0), bound::report(n, book, 0));
        self.said("report", p.answer, b.answer);
    }

    fn records(&mut self) {
        let n = self.random.below(40) as usize;
        let rows: Vec<u32> = (0..n).map(|_| self.random.number()).collect();
        let (mut x, mut y) = (vec![0u8; 180], vec![0u8; 180]);
        let (p, b) = (
            port::write_all(&rows, &mut x),
            bound::write_all(&rows, &mut y),
        );
        self.said("write", p, b);
        assert!(x == y, "write: files differ");
        if self.random.one_in(2) {
            x[self.random.below(180) as usize] = self.random.below(256) as u8;
        }
        let file = &x[..self.random.below(181) as usize];
        let (mut x, mut y) = (vec![0u32; 180], vec![0u32; 180]);
        self.said(
            "read",
            port::read_all(file, &mut x),
            bound::read_all(file, &mut y),
        );
        self.said(
            "in memory",
            port::in_memory(&rows, &mut x),
            bound::in_memory(&rows, &mut y),
        );
        assert!(x == y, "rows differ");
        let offset = self.random.number();
        let (mut x, mut y) = (vec![1u8; 300], vec![1u8; 300]);
        let (p, b) = (
            port::apply_to(&rows, &mut x, offset),
            bound::apply_to(&rows, &mut y, offset),
        );
        self.said("mask", p, b);
        assert!(x == y, "mask: bits differ");
    }
}

pub fn some(calls: usize) {
    let opened = port::fresh();
    let bound = bound::fresh();
    assert!(opened.manager.same(&bound) && opened.book.count == 0);
    let (port, book) = (opened.manager, opened.book);
    let mut s = Both {
        port,
        bound,
        book,
        random: Random(1),
        numbers: BTreeMap::new(),
    };
    for _ in 0..calls {
        match s.random.below(56) {
            0 if s.random.one_in(8) => s.reopen(),
            1 => s.vacuum(),
            2..4 => s.show(),
            4..10 => s.pins(),
            10..13 => s.spoilt(),
            13 => s.handed(
                "draw",
                port::draw_rowset(s.port),
                bound::draw_rowset(s.bound),
            ),
            14 => s.records(),
            15..18 => s.report(),
            40.. => s.tables(),
            _ => s.commit(),
        }
    }
    println!("{calls} calls at random agree; of each call, how often it answered each number, 0 for accepted:");
    let numbers = &s.numbers;
    let calls: std::collections::BTreeSet<&str> = numbers.keys().map(|k| k.0).collect();
    for call in calls {
        let said: Vec<String> = numbers
            .iter()
            .filter(|(k, _)| k.0 == call)
            .map(|(k, n)| format!("{}: {n}", k.1))
            .collect();
        println!("  {call:<10} {}", said.join(", "));
    }
    for (call, all) in MET {
        for n in all {
            let met = numbers.contains_key(&(call, *n));
            assert!(met, "{call}: {n} was never answered");
        }
    }
}
