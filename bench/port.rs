// The library's calls.
use crate::layout::{self, Answer, Booked, PinBook, VersionManager};

pub type Manager = VersionManager;

pub type Handed = layout::Handed<Manager>;
pub type Begun = layout::Begun<Manager>;

#[repr(C)]
#[derive(Clone, Copy)]
pub struct Opened {
    pub manager: Manager,
    pub book: PinBook,
}

// A slice crosses as its pointer and its length.
#[link(name = "host", kind = "static")]
extern "C" {
    fn seqapti_fresh() -> Opened;
    fn seqapti_draw_rowset(m: Manager) -> Handed;
    fn seqapti_draw_vector(m: Manager) -> Handed;
    fn seqapti_group(
        m: Manager,
        h: *const u64,
        hn: usize,
        r: *mut u32,
        rn: usize,
        l: *mut u32,
        ln: usize,
        c: *mut u32,
        cn: usize,
        f: *mut u8,
        nf: usize,
        w: *mut u32,
        wn: usize,
    ) -> Handed;
    fn seqapti_commit(m: Manager, ops: *const u8, n: usize, out: *mut u8, room: usize) -> Handed;
    fn seqapti_create(
        m: Manager,
        shape: u32,
        name: *const u8,
        n: usize,
        out: *mut u8,
        room: usize,
    ) -> Handed;
    fn seqapti_drop(m: Manager, table: u32, out: *mut u8, room: usize) -> Handed;
    fn seqapti_compact(
        m: Manager,
        table: u32,
        has_new: bool,
        new: u32,
        taken: *const u32,
        n: usize,
        out: *mut u8,
        room: usize,
    ) -> Handed;
    fn seqapti_checkpoint(m: Manager, out: *mut u8, room: usize) -> Handed;
    fn seqapti_report(m: Manager, b: PinBook, landed: usize) -> Handed;
    fn seqapti_vacuum(
        m: Manager,
        b: PinBook,
        t: *mut u32,
        tn: usize,
        r: *mut u32,
        rn: usize,
    ) -> Handed;
    fn seqapti_show_tables(
        m: Manager,
        b: PinBook,
        e: u32,
        i: *mut u32,
        ni: usize,
        h: *mut u32,
        nh: usize,
        l: *mut u32,
        nl: usize,
        s: *mut u8,
        ns: usize,
    ) -> Answer;
    fn seqapti_show_pairs(
        m: Manager,
        b: PinBook,
        e: u32,
        t: *mut u32,
        tn: usize,
        r: *mut u32,
        rn: usize,
    ) -> Answer;
    fn seqapti_show_vectors(
        m: Manager,
        b: PinBook,
        e: u32,
        t: *mut u32,
        tn: usize,
        r: *mut u32,
        rn: usize,
        v: *mut u64,
        vn: usize,
    ) -> Answer;
    fn seqapti_lock(m: Manager, table: u32) -> Handed;
    fn seqapti_unlock(m: Manager, table: u32) -> Handed;
    fn seqapti_select(
        m: Manager,
        table: u32,
        target: u64,
        sizes: *const u64,
        n: usize,
        out: *mut u32,
        room: usize,
    ) -> Answer;
    fn seqapti_bootstrap(src: *const u8, n: usize, out: *mut u8, room: usize) -> Begun;
    fn seqapti_pin(m: Manager, b: PinBook) -> Booked;
    fn seqapti_unpin(m: Manager, b: PinBook, e: u32) -> Booked;
    fn seqapti_write_all(rows: *const u32, n: usize, out: *mut u8, room: usize) -> Answer;
    fn seqapti_read_all(bytes: *const u8, n: usize, rows: *mut u32, room: usize) -> Answer;
    fn seqapti_in_memory(rows: *const u32, n: usize, out: *mut u32, room: usize) -> Answer;
    fn seqapti_apply_to(rows: *const u32, n: usize, bits: *mut u8, k: usize, offset: u32)
        -> Answer;
}

#[inline(always)]
pub fn fresh() -> Opened {
    unsafe { seqapti_fresh() }
}

#[inline(always)]
pub fn draw_rowset(m: Manager) -> Handed {
    unsafe { seqapti_draw_rowset(m) }
}

#[inline(always)]
#[allow(dead_code)]
pub fn draw_vector(m: Manager) -> Handed {
    unsafe { seqapti_draw_vector(m) }
}

#[inline(always)]
pub fn group(
    m: Manager,
    handles: &[u64],
    rowsets: &mut [u32],
    lengths: &mut [u32],
    counts: &mut [u32],
    files: &mut [u8],
    rows: &mut [u32],
) -> Handed {
    unsafe {
        seqapti_group(
            m,
            handles.as_ptr(),
            handles.len(),
            rowsets.as_mut_ptr(),
            rowsets.len(),
            lengths.as_mut_ptr(),
            lengths.len(),
            counts.as_mut_ptr(),
            counts.len(),
            files.as_mut_ptr(),
            files.len(),
            rows.as_mut_ptr(),
            rows.len(),
        )
    }
}

#[inline(always)]
pub fn commit(m: Manager, ops: &[u8], out: &mut [u8]) -> Handed {
    unsafe { seqapti_commit(m, ops.as_ptr(), ops.len(), out.as_mut_ptr(), out.len()) }
}

#[inline(always)]
pub fn create(m: Manager, shape: u32, name: &[u8], out: &mut [u8]) -> Handed {
    unsafe {
        seqapti_create(
            m,
            shape,
            name.as_ptr(),
            name.len(),
            out.as_mut_ptr(),
            out.len(),
        )
    }
}

#[inline(always)]
pub fn drop(m: Manager, table: u32, out: &mut [u8]) -> Handed {
    unsafe { seqapti_drop(m, table, out.as_mut_ptr(), out.len()) }
}

#[inline(always)]
pub fn compact(m: Manager, table: u32, new: Option<u32>, taken: &[u32], out: &mut [u8]) -> Handed {
    unsafe {
        seqapti_compact(
            m,
            table,
            new.is_some(),
            new.unwrap_or(0),
            taken.as_ptr(),
            taken.len(),
            out.as_mut_ptr(),
            out.len(),
        )
    }
}

#[inline(always)]
pub fn checkpoint(m: Manager, out: &mut [u8]) -> Handed {
    unsafe { seqapti_checkpoint(m, out.as_mut_ptr(), out.len()) }
}

#[inline(always)]
pub fn report(m: Manager, b: PinBook, landed: usize) -> Handed {
    unsafe { seqapti_report(m, b, landed) }
}

#[inline(always)]
pub fn vacuum(m: Manager, b: PinBook, tables: &mut [u32], rowsets: &mut [u32]) -> Handed {
    unsafe {
        seqapti_vacuum(
            m,
            b,
            tables.as_mut_ptr(),
            tables.len(),
            rowsets.as_mut_ptr(),
            rowsets.len(),
        )
    }
}

#[inline(always)]
#[allow(dead_code)]
pub fn show_tables(
    m: Manager,
    b: PinBook,
    e: u32,
    ids: &mut [u32],
    shapes: &mut [u32],
    lengths: &mut [u32],
    names: &mut [u8],
) -> Answer {
    unsafe {
        seqapti_show_tables(
            m,
            b,
            e,
            ids.as_mut_ptr(),
            ids.len(),
            shapes.as_mut_ptr(),
            shapes.len(),
            lengths.as_mut_ptr(),
            lengths.len(),
            names.as_mut_ptr(),
            names.len(),
        )
    }
}

#[inline(always)]
pub fn show_pairs(
    m: Manager,
    b: PinBook,
    e: u32,
    tables: &mut [u32],
    rowsets: &mut [u32],
) -> Answer {
    unsafe {
        seqapti_show_pairs(
            m,
            b,
            e,
            tables.as_mut_ptr(),
            tables.len(),
            rowsets.as_mut_ptr(),
            rowsets.len(),
        )
    }
}

#[inline(always)]
#[allow(dead_code)]
pub fn show_vectors(
    m: Manager,
    b: PinBook,
    e: u32,
    tables: &mut [u32],
    rowsets: &mut [u32],
    vectors: &mut [u64],
) -> Answer {
    unsafe {
        seqapti_show_vectors(
            m,
            b,
            e,
            tables.as_mut_ptr(),
            tables.len(),
            rowsets.as_mut_ptr(),
            rowsets.len(),
            vectors.as_mut_ptr(),
            vectors.len(),
        )
    }
}

#[inline(always)]
pub fn lock(m: Manager, table: u32) -> Handed {
    unsafe { seqapti_lock(m, table) }
}

#[inline(always)]
pub fn unlock(m: Manager, table: u32) -> Handed {
    unsafe { seqapti_unlock(m, table) }
}

#[inline(always)]
pub fn select(m: Manager, table: u32, target: u64, sizes: &[u64], out: &mut [u32]) -> Answer {
    unsafe {
        seqapti_select(
            m,
            table,
            target,
            sizes.as_ptr(),
            sizes.len(),
            out.as_mut_ptr(),
            out.len(),
        )
    }
}

#[inline(always)]
pub fn bootstrap(src: &[u8], out: &mut [u8]) -> Begun {
    unsafe { seqapti_bootstrap(src.as_ptr(), src.len(), out.as_mut_ptr(), out.len()) }
}

#[inline(always)]
pub fn pin(m: Manager, b: PinBook) -> Booked {
    unsafe { seqapti_pin(m, b) }
}

#[inline(always)]
pub fn unpin(m: Manager, b: PinBook, e: u32) -> Booked {
    unsafe { seqapti_unpin(m, b, e) }
}

#[inline(always)]
pub fn write_all(rows: &[u32], out: &mut [u8]) -> Answer {
    unsafe { seqapti_write_all(rows.as_ptr(), rows.len(), out.as_mut_ptr(), out.len()) }
}

#[inline(always)]
pub fn read_all(bytes: &[u8], rows: &mut [u32]) -> Answer {
    unsafe { seqapti_read_all(bytes.as_ptr(), bytes.len(), rows.as_mut_ptr(), rows.len()) }
}

#[inline(always)]
pub fn in_memory(rows: &[u32], out: &mut [u32]) -> Answer {
    unsafe { seqapti_in_memory(rows.as_ptr(), rows.len(), out.as_mut_ptr(), out.len()) }
}

#[inline(always)]
pub fn apply_to(rows: &[u32], bits: &mut [u8], offset: u32) -> Answer {
    unsafe {
        seqapti_apply_to(
            rows.as_ptr(),
            rows.len(),
            bits.as_mut_ptr(),
            bits.len(),
            offset,
        )
    }
}
