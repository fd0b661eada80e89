//! The structs that cross the border, as the archive lays them out.
use std::mem::{offset_of, size_of};

pub const MOST_HELD: usize = 256;
pub const MOST_TABLES: usize = 16;
pub const LONGEST_NAME: usize = 32;
pub const MOST_PINNED: usize = 64;

#[repr(C)]
#[derive(Clone, Copy)]
pub struct Tables {
    pub ids: [u32; MOST_TABLES],
    pub shapes: [u32; MOST_TABLES],
    pub lengths: [u32; MOST_TABLES],
    pub names: [u8; MOST_TABLES * LONGEST_NAME],
    // Truth values there. Bytes here, since only 0 and 1 are a `bool` in Rust.
    pub locked: [u8; MOST_TABLES],
    pub count: usize,
}

#[repr(C)]
#[derive(Clone, Copy)]
pub struct Rowsets {
    pub tables: [u32; MOST_HELD],
    pub rowsets: [u32; MOST_HELD],
    pub added: [u32; MOST_HELD],
    pub deleted: [u32; MOST_HELD],
    pub count: usize,
}

#[repr(C)]
#[derive(Clone, Copy)]
pub struct Vectors {
    pub tables: [u32; MOST_HELD],
    pub rowsets: [u32; MOST_HELD],
    pub vectors: [u64; MOST_HELD],
    pub added: [u32; MOST_HELD],
    pub deleted: [u32; MOST_HELD],
    pub count: usize,
}

#[repr(C)]
#[derive(Clone, Copy, Debug, PartialEq)]
pub struct NextIds {
    pub table: u32,
    pub rowset: u32,
    pub vector: u64,
}

#[repr(C)]
#[derive(Clone, Copy)]
pub struct State {
    pub epoch: u32,
    pub next: NextIds,
    pub tables: Tables,
    pub rowsets: Rowsets,
    pub vectors: Vectors,
    pub manifest: usize,
}

/// What stands, and what stood before the last commit as long as a short write of it may be reported: where `append`, the
/// commit's length, is 0, nothing is kept.
#[repr(C)]
#[derive(Clone, Copy)]
pub struct Manager {
    pub inner: State,
    pub kept: State,
    pub append: usize,
}

#[repr(C)]
#[derive(Clone, Copy, Debug, PartialEq)]
pub struct Pin {
    pub epoch: u32,
    pub count: u16,
}

#[repr(C)]
#[derive(Clone, Copy)]
pub struct PinBook {
    pub items: [Pin; MOST_PINNED],
    pub count: usize,
}

/// The refusal's number, or 0; its place; and the first `count` values of an accepted call.
#[repr(C)]
#[derive(Clone, Copy, Debug, PartialEq)]
pub struct Answer {
    pub number: u32,
    pub place: usize,
    pub count: usize,
    pub values: [u64; 3],
}

#[repr(C)]
#[derive(Clone, Copy)]
pub struct Opened {
    pub manager: Manager,
    pub book: PinBook,
}

#[repr(C)]
#[derive(Clone, Copy)]
pub struct Handed {
    pub manager: Manager,
    pub answer: Answer,
}

#[repr(C)]
#[derive(Clone, Copy)]
pub struct Booked {
    pub book: PinBook,
    pub answer: Answer,
}

#[repr(C)]
#[derive(Clone, Copy)]
pub struct Begun {
    pub manager: Manager,
    pub book: PinBook,
    pub answer: Answer,
}

const _: () = {
    assert!(size_of::<Tables>() == 728 && offset_of!(Tables, locked) == 704 && offset_of!(Tables, count) == 720);
    assert!(size_of::<Rowsets>() == 4104 && offset_of!(Rowsets, count) == 4096);
    assert!(size_of::<Vectors>() == 6152 && offset_of!(Vectors, vectors) == 2048 && offset_of!(Vectors, added) == 4096);
    assert!(offset_of!(State, next) == 8 && offset_of!(State, tables) == 24);
    assert!(offset_of!(State, rowsets) == 752 && offset_of!(State, vectors) == 4856);
    assert!(offset_of!(State, manifest) == 11008 && size_of::<State>() == 11016);
    assert!(
        offset_of!(Manager, kept) == 11016 && offset_of!(Manager, append) == 22032 && size_of::<Manager>() == 22040
    );
    assert!(size_of::<Pin>() == 8 && size_of::<PinBook>() == 520);
    assert!(size_of::<Answer>() == 48 && offset_of!(Answer, values) == 24);
    assert!(size_of::<Handed>() == 22088 && size_of::<Booked>() == 568 && size_of::<Begun>() == 22608);
};

impl Tables {
    pub fn name(&self, i: usize) -> &[u8] {
        let n = (self.lengths[i] as usize).min(LONGEST_NAME);
        &self.names[i * LONGEST_NAME..i * LONGEST_NAME + n]
    }
}
