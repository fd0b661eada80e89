//! The border: the archive's calls, with slices as slices.
mod check;
mod layout;

pub use check::check;
pub use layout::*;

#[link(name = "seqapti_host", kind = "static")]
extern "C" {
    fn seqapti_fresh() -> Opened;
    fn seqapti_draw_rowset(m: Manager) -> Handed;
    fn seqapti_draw_vector(m: Manager) -> Handed;
    #[rustfmt::skip]
    fn seqapti_group(
        m: Manager,
        h: *const u64,
        hn: usize,
        r: *mut u32,
        rn: usize,
        l: *mut u32,
        ln: usize,
        c: *mut u32,
        cn: usize,
        f: *mut u8,
        nf: usize,
        w: *mut u32,
        wn: usize,
    ) -> Handed;
    fn seqapti_commit(m: Manager, ops: *const u8, n: usize, out: *mut u8, room: usize) -> Handed;
    #[rustfmt::skip]
    fn seqapti_create(m: Manager, shape: u32, name: *const u8, n: usize, out: *mut u8, room: usize) -> Handed;
    fn seqapti_drop(m: Manager, table: u32, out: *mut u8, room: usize) -> Handed;
    #[rustfmt::skip]
    fn seqapti_compact(
        m: Manager,
        table: u32,
        has_new: bool,
        new: u32,
        taken: *const u32,
        n: usize,
        out: *mut u8,
        room: usize,
    ) -> Handed;
    fn seqapti_checkpoint(m: Manager, out: *mut u8, room: usize) -> Handed;
    fn seqapti_report(m: Manager, b: PinBook, landed: usize) -> Handed;
    #[rustfmt::skip]
    fn seqapti_vacuum(m: Manager, b: PinBook, t: *mut u32, tn: usize, r: *mut u32, rn: usize) -> Handed;
    #[rustfmt::skip]
    fn seqapti_show_tables(
        m: Manager,
        b: PinBook,
        e: u32,
        i: *mut u32,
        ni: usize,
        h: *mut u32,
        nh: usize,
        l: *mut u32,
        nl: usize,
        s: *mut u8,
        ns: usize,
    ) -> Answer;
    #[rustfmt::skip]
    fn seqapti_show_pairs(m: Manager, b: PinBook, e: u32, t: *mut u32, tn: usize, r: *mut u32, rn: usize) -> Answer;
    #[rustfmt::skip]
    fn seqapti_show_vectors(
        m: Manager,
        b: PinBook,
        e: u32,
        t: *mut u32,
        tn: usize,
        r: *mut u32,
        rn: usize,
        v: *mut u64,
        vn: usize,
    ) -> Answer;
    fn seqapti_lock(m: Manager, table: u32) -> Handed;
    fn seqapti_unlock(m: Manager, table: u32) -> Handed;
    #[rustfmt::skip]
    fn seqapti_select(
        m: Manager,
        table: u32,
        target: u64,
        sizes: *const u64,
        n: usize,
        out: *mut u32,
        room: usize,
    ) -> Answer;
    fn seqapti_bootstrap(src: *const u8, n: usize, out: *mut u8, room: usize) -> Begun;
    fn seqapti_pin(m: Manager, b: PinBook) -> Booked;
    fn seqapti_unpin(m: Manager, b: PinBook, e: u32) -> Booked;
    fn seqapti_write_all(rows: *const u32, n: usize, out: *mut u8, room: usize) -> Answer;
    fn seqapti_read_all(bytes: *const u8, n: usize, rows: *mut u32, room: usize) -> Answer;
    fn seqapti_in_memory(rows: *const u32, n: usize, out: *mut u32, room: usize) -> Answer;
    #[rustfmt::skip]
    fn seqapti_apply_to(rows: *const u32, n: usize, bits: *mut u8, k: usize, offset: u32) -> Answer;
}

// A call asks of a slice what Rust asks of it, and of a manager or book nothing but that truth values are 0 or 1.
// Managers come from the archive alone, so they are.

pub fn fresh() -> Opened {
    unsafe { seqapti_fresh() }
}

pub fn draw_rowset(m: &Manager) -> Handed {
    unsafe { seqapti_draw_rowset(*m) }
}

pub fn draw_vector(m: &Manager) -> Handed {
    unsafe { seqapti_draw_vector(*m) }
}

/// Room for what a grouping answers.
pub struct Grouped {
    pub rowsets: Vec<u32>,
    pub lengths: Vec<u32>,
    pub counts: Vec<u32>,
    pub files: Vec<u8>,
    pub rows: Vec<u32>,
}

#[rustfmt::skip]
pub fn group(m: &Manager, handles: &[u64], g: &mut Grouped) -> Handed {
    let Grouped { rowsets: r, lengths: l, counts: c, files: f, rows: w } = g;
    unsafe {
        seqapti_group(*m, handles.as_ptr(), handles.len(), r.as_mut_ptr(), r.len(), l.as_mut_ptr(), l.len(), c.as_mut_ptr(), c.len(), f.as_mut_ptr(), f.len(), w.as_mut_ptr(), w.len())
    }
}

pub fn commit(m: &Manager, ops: &[u8], out: &mut [u8]) -> Handed {
    unsafe { seqapti_commit(*m, ops.as_ptr(), ops.len(), out.as_mut_ptr(), out.len()) }
}

#[rustfmt::skip]
pub fn create(m: &Manager, shape: u32, name: &[u8], out: &mut [u8]) -> Handed {
    unsafe { seqapti_create(*m, shape, name.as_ptr(), name.len(), out.as_mut_ptr(), out.len()) }
}

pub fn drop_table(m: &Manager, table: u32, out: &mut [u8]) -> Handed {
    unsafe { seqapti_drop(*m, table, out.as_mut_ptr(), out.len()) }
}

#[rustfmt::skip]
pub fn compact(m: &Manager, table: u32, new: Option<u32>, taken: &[u32], out: &mut [u8]) -> Handed {
    unsafe {
        seqapti_compact(*m, table, new.is_some(), new.unwrap_or(0), taken.as_ptr(), taken.len(), out.as_mut_ptr(), out.len())
    }
}

pub fn checkpoint(m: &Manager, out: &mut [u8]) -> Handed {
    unsafe { seqapti_checkpoint(*m, out.as_mut_ptr(), out.len()) }
}

pub fn report(m: &Manager, b: &PinBook, landed: usize) -> Handed {
    unsafe { seqapti_report(*m, *b, landed) }
}

#[rustfmt::skip]
pub fn vacuum(m: &Manager, b: &PinBook, tables: &mut [u32], rowsets: &mut [u32]) -> Handed {
    unsafe {
        seqapti_vacuum(*m, *b, tables.as_mut_ptr(), tables.len(), rowsets.as_mut_ptr(), rowsets.len())
    }
}

/// Room for the tables shown.
pub struct ShownTables {
    pub ids: [u32; MOST_TABLES],
    pub shapes: [u32; MOST_TABLES],
    pub lengths: [u32; MOST_TABLES],
    pub names: [u8; MOST_TABLES * LONGEST_NAME],
}

#[rustfmt::skip]
pub fn show_tables(m: &Manager, b: &PinBook, epoch: u32, s: &mut ShownTables) -> Answer {
    unsafe {
        seqapti_show_tables(*m, *b, epoch, s.ids.as_mut_ptr(), s.ids.len(), s.shapes.as_mut_ptr(), s.shapes.len(), s.lengths.as_mut_ptr(), s.lengths.len(), s.names.as_mut_ptr(), s.names.len())
    }
}

#[rustfmt::skip]
pub fn show_pairs(m: &Manager, b: &PinBook, epoch: u32, tables: &mut [u32], rowsets: &mut [u32]) -> Answer {
    unsafe {
        seqapti_show_pairs(*m, *b, epoch, tables.as_mut_ptr(), tables.len(), rowsets.as_mut_ptr(), rowsets.len())
    }
}

#[rustfmt::skip]
pub fn show_vectors(m: &Manager, b: &PinBook, epoch: u32, tables: &mut [u32], rowsets: &mut [u32], vectors: &mut [u64]) -> Answer {
    unsafe {
        seqapti_show_vectors(*m, *b, epoch, tables.as_mut_ptr(), tables.len(), rowsets.as_mut_ptr(), rowsets.len(), vectors.as_mut_ptr(), vectors.len())
    }
}

pub fn lock(m: &Manager, table: u32) -> Handed {
    unsafe { seqapti_lock(*m, table) }
}

pub fn unlock(m: &Manager, table: u32) -> Handed {
    unsafe { seqapti_unlock(*m, table) }
}

#[rustfmt::skip]
pub fn select(m: &Manager, table: u32, target: u64, sizes: &[u64], out: &mut [u32]) -> Answer {
    unsafe { seqapti_select(*m, table, target, sizes.as_ptr(), sizes.len(), out.as_mut_ptr(), out.len()) }
}

pub fn bootstrap(src: &[u8], out: &mut [u8]) -> Begun {
    unsafe { seqapti_bootstrap(src.as_ptr(), src.len(), out.as_mut_ptr(), out.len()) }
}

pub fn pin(m: &Manager, b: &PinBook) -> Booked {
    unsafe { seqapti_pin(*m, *b) }
}

pub fn unpin(m: &Manager, b: &PinBook, epoch: u32) -> Booked {
    unsafe { seqapti_unpin(*m, *b, epoch) }
}

pub fn write_all(rows: &[u32], out: &mut [u8]) -> Answer {
    unsafe { seqapti_write_all(rows.as_ptr(), rows.len(), out.as_mut_ptr(), out.len()) }
}

pub fn read_all(bytes: &[u8], rows: &mut [u32]) -> Answer {
    unsafe { seqapti_read_all(bytes.as_ptr(), bytes.len(), rows.as_mut_ptr(), rows.len()) }
}

pub fn in_memory(rows: &[u32], out: &mut [u32]) -> Answer {
    unsafe { seqapti_in_memory(rows.as_ptr(), rows.len(), out.as_mut_ptr(), out.len()) }
}

#[rustfmt::skip]
pub fn apply_to(rows: &[u32], bits: &mut [u8], offset: u32) -> Answer {
    unsafe { seqapti_apply_to(rows.as_ptr(), rows.len(), bits.as_mut_ptr(), bits.len(), offset) }
}
