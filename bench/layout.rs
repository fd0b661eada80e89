// The structs that cross the border, as the library lays them out.

pub const MOST_HELD: usize = 256;
pub const MOST_TABLES: usize = 16;
pub const LONGEST_NAME: usize = 32;
pub const MOST_PINNED: usize = 64;

#[repr(C)]
#[derive(Clone, Copy)]
pub struct Tables {
    pub ids: [u32; MOST_TABLES],
    pub shapes: [u32; MOST_TABLES],
    pub lengths: [u32; MOST_TABLES],
    pub names: [u8; MOST_TABLES * LONGEST_NAME],
    pub locked: [bool; MOST_TABLES],
    pub count: usize,
}

#[repr(C)]
#[derive(Clone, Copy)]
pub struct Rowsets {
    pub tables: [u32; MOST_HELD],
    pub rowsets: [u32; MOST_HELD],
    pub added: [u32; MOST_HELD],
    pub deleted: [u32; MOST_HELD],
    pub count: usize,
}

#[repr(C)]
#[derive(Clone, Copy)]
pub struct Vectors {
    pub tables: [u32; MOST_HELD],
    pub rowsets: [u32; MOST_HELD],
    pub vectors: [u64; MOST_HELD],
    pub added: [u32; MOST_HELD],
    pub deleted: [u32; MOST_HELD],
    pub count: usize,
}

#[repr(C)]
#[derive(Clone, Copy, PartialEq)]
pub struct NextIds {
    pub table: u32,
    pub rowset: u32,
    pub vector: u64,
}

#[repr(C)]
#[derive(Clone, Copy)]
pub struct State {
    pub epoch: u32,
    pub next: NextIds,
    pub tables: Tables,
    pub rowsets: Rowsets,
    pub vectors: Vectors,
    pub manifest: usize,
}

// What stands, what stood before the last commit, and how many bytes that appended. Where they are 0, nothing is kept.
#[repr(C)]
#[derive(Clone, Copy)]
pub struct VersionManager {
    pub inner: State,
    pub kept: State,
    pub append: usize,
}

#[repr(C)]
#[derive(Clone, Copy, PartialEq)]
pub struct Pin {
    pub epoch: u32,
    pub count: u16,
}

#[repr(C)]
#[derive(Clone, Copy)]
pub struct PinBook {
    pub items: [Pin; MOST_PINNED],
    pub count: usize,
}

// The refusal's number, or 0; its place; and the first `count` values of an accepted call.
#[repr(C)]
#[derive(Clone, Copy, Debug, PartialEq)]
pub struct Answer {
    pub number: u32,
    pub place: usize,
    pub count: usize,
    pub values: [u64; 3],
}

#[repr(C)]
#[derive(Clone, Copy)]
pub struct Booked {
    pub book: PinBook,
    pub answer: Answer,
}

#[repr(C)]
#[derive(Clone, Copy)]
pub struct Handed<M> {
    pub manager: M,
    pub answer: Answer,
}

#[repr(C)]
#[derive(Clone, Copy)]
pub struct Begun<M> {
    pub manager: M,
    pub book: PinBook,
    pub answer: Answer,
}

impl Tables {
    pub fn name(&self, i: usize) -> &[u8] {
        let n = self.lengths[i] as usize;
        let n = if n <= LONGEST_NAME { n } else { 0 };
        &self.names[i * LONGEST_NAME..i * LONGEST_NAME + n]
    }

    fn same(&self, o: &Tables) -> bool {
        let n = self.count;
        n == o.count
            && self.ids[..n] == o.ids[..n]
            && self.shapes[..n] == o.shapes[..n]
            && self.locked[..n] == o.locked[..n]
            && (0..n).all(|i| self.name(i) == o.name(i))
    }
}

impl Rowsets {
    fn same(&self, o: &Rowsets) -> bool {
        let n = self.count;
        n == o.count
            && self.tables[..n] == o.tables[..n]
            && self.rowsets[..n] == o.rowsets[..n]
            && self.added[..n] == o.added[..n]
            && self.deleted[..n] == o.deleted[..n]
    }
}

impl Vectors {
    fn same(&self, o: &Vectors) -> bool {
        let n = self.count;
        n == o.count
            && self.tables[..n] == o.tables[..n]
            && self.rowsets[..n] == o.rowsets[..n]
            && self.vectors[..n] == o.vectors[..n]
            && self.added[..n] == o.added[..n]
            && self.deleted[..n] == o.deleted[..n]
    }
}

impl VersionManager {
    // What a caller can tell apart: the places past a count are nobody's, and a kept state where there is none.
    pub fn same(&self, o: &VersionManager) -> bool {
        self.inner.same(&o.inner)
            && self.append == o.append
            && (self.append == 0 || self.kept.same(&o.kept))
    }
}

impl State {
    fn same(&self, o: &State) -> bool {
        self.epoch == o.epoch
            && self.next == o.next
            && self.manifest == o.manifest
            && self.tables.same(&o.tables)
            && self.rowsets.same(&o.rowsets)
            && self.vectors.same(&o.vectors)
    }
}

impl PinBook {
    pub fn none() -> PinBook {
        PinBook {
            items: [Pin { epoch: 0, count: 0 }; MOST_PINNED],
            count: 0,
        }
    }

    pub fn same(&self, o: &PinBook) -> bool {
        self.count == o.count && self.items[..self.count] == o.items[..self.count]
    }
}
