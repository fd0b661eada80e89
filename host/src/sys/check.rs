//! Whether the archive lays out its structs as this crate does: numbers that all differ go through its calls, and
//! each has to come back in its own field.
use super::*;
use crate::error::{StorageError, StorageResult};
use std::sync::OnceLock;

const TEXT: &[u8] = b"B\nN,41,42,43\nT,3,31,tides\nT,5,52,sea\nA,3,6\nA,3,7\nA,5,8\nV,3,6,11\nV,5,8,12\nE\n";
// After the commit below.
const REWRITTEN: &[u8] = b"B\nN,41,42,43\nT,3,31,tides\nT,5,52,sea\nA,3,6\nA,3,7\nA,3,9\nV,3,6,11\nV,3,9,13\nE\n";

/// Judged once in a process, before its first store is opened.
pub fn check() -> StorageResult<()> {
    static JUDGED: OnceLock<Option<&'static str>> = OnceLock::new();
    match *JUDGED.get_or_init(differs) {
        None => Ok(()),
        Some(what) => Err(StorageError::Border { what }),
    }
}

macro_rules! same {
    ($what:literal, $($left:expr => $right:expr),* $(,)?) => {
        $(if $left != $right {
            return Some($what);
        })*
    };
}

fn differs() -> Option<&'static str> {
    let o = fresh();
    same!("a fresh manager",
        o.manager.inner.epoch => 0, o.manager.inner.next => NextIds { table: 0, rowset: 0, vector: 0 },
        o.manager.inner.tables.count => 0, o.manager.inner.rowsets.count => 0, o.manager.inner.vectors.count => 0,
        o.manager.inner.manifest => 0, o.manager.append => 0, o.book.count => 0);

    let mut out = [0; 256];
    let b = bootstrap(TEXT, &mut out);
    same!("a reopened manager's answer",
        b.answer.number => 0, b.answer.place => 0, b.answer.count => 1, b.answer.values[0] => TEXT.len() as u64,
        out[..TEXT.len()] => *TEXT);
    let m = b.manager.inner;
    same!("a manager's numbers",
        m.epoch => 1, m.next => NextIds { table: 41, rowset: 42, vector: 43 }, m.manifest => TEXT.len(),
        b.manager.append => 0, b.book.count => 0);
    same!("a manager's tables",
        m.tables.count => 2, m.tables.ids[..2] => [3, 5], m.tables.shapes[..2] => [31, 52], m.tables.lengths[..2] => [5, 3],
        m.tables.name(0) => b"tides", m.tables.name(1) => b"sea", m.tables.locked[..2] => [0, 0]);
    same!("a manager's rowsets",
        m.rowsets.count => 3, m.rowsets.tables[..3] => [3, 3, 5], m.rowsets.rowsets[..3] => [6, 7, 8],
        m.rowsets.added[..3] => [1, 1, 1], m.rowsets.deleted[..3] => [0, 0, 0]);
    same!("a manager's vectors",
        m.vectors.count => 2, m.vectors.tables[..2] => [3, 5], m.vectors.rowsets[..2] => [6, 8],
        m.vectors.vectors[..2] => [11, 12], m.vectors.added[..2] => [1, 1], m.vectors.deleted[..2] => [0, 0]);

    let pinned = pin(&b.manager, &b.book);
    same!("a pin", pinned.answer.number => 0, pinned.answer.values[0] => 1, pinned.book.count => 1,
        pinned.book.items[0] => Pin { epoch: 1, count: 1 });
    let locked = lock(&b.manager, 5);
    same!("a lock", locked.answer.number => 0, locked.answer.count => 0, locked.manager.inner.tables.locked[..2] => [0, 1]);

    let c = commit(&locked.manager, b"A,3,9\nW,5,8,12\nD,5,8\nV,3,9,13\n", &mut out);
    let now = c.manager.inner;
    same!("a commit", c.answer.number => 0, c.answer.count => 2, c.answer.values[..2] => [2, 36], now.epoch => 2,
        now.manifest => TEXT.len() + 36,
        now.rowsets.added[..4] => [1, 1, 2, 1], now.rowsets.deleted[..4] => [0, 0, 0, 2],
        now.vectors.vectors[..3] => [11, 13, 12], now.vectors.added[..3] => [1, 2, 1],
        now.vectors.deleted[..3] => [0, 0, 2]);
    let kept = c.manager.kept;
    same!("what a commit keeps", c.manager.append => 36, kept.epoch => 1, kept.next => m.next, kept.manifest => TEXT.len(),
        kept.tables.count => 2, kept.tables.ids[..2] => [3, 5], kept.tables.locked[..2] => [0, 1],
        kept.rowsets.count => 3, kept.rowsets.rowsets[..3] => [6, 7, 8], kept.rowsets.deleted[..3] => [0, 0, 0],
        kept.vectors.count => 2, kept.vectors.vectors[..2] => [11, 12], kept.vectors.deleted[..2] => [0, 0]);
    let r = report(&c.manager, &pinned.book, 35);
    let back = r.manager.inner;
    same!("a report", r.answer.number => 0, r.answer.count => 2, r.answer.values[..2] => [1, TEXT.len() as u64 + 35],
        r.manager.append => 0, back.epoch => 1, back.next => m.next, back.manifest => TEXT.len() + 35,
        back.tables.locked[..2] => [0, 1], back.rowsets.count => 3, back.rowsets.rowsets[..3] => [6, 7, 8],
        back.rowsets.deleted[..3] => [0, 0, 0], back.vectors.vectors[..2] => [11, 12]);
    let k = checkpoint(&c.manager, &mut out);
    let short = k.manager.inner;
    same!("a checkpoint", k.answer.number => 0, k.answer.count => 1, k.answer.values[0] => REWRITTEN.len() as u64,
        out[..REWRITTEN.len()] => *REWRITTEN, k.manager.append => 0, short.manifest => REWRITTEN.len(), short.epoch => 2,
        short.tables.locked[..2] => [0, 1], short.rowsets.deleted[..4] => [0, 0, 0, 2],
        short.vectors.deleted[..3] => [0, 0, 2]);
    let twice = pin(&c.manager, &pinned.book);
    same!("two pins", twice.book.count => 2, twice.book.items[1] => Pin { epoch: 2, count: 1 });
    let off = unpin(&c.manager, &twice.book, 1);
    same!("an unpin", off.answer.number => 0, off.answer.values[..2] => [1, 1], off.book.items[0] => Pin { epoch: 2, count: 1 });
    let refused = commit(&c.manager, b"A,3,10\nA,3,10\n", &mut out);
    same!("a refusal", refused.answer.number => 16, refused.answer.place => 1);
    None
}

#[cfg(test)]
mod tests {
    use super::*;

    #[test]
    fn the_archive_lays_out_its_structs_as_this_crate_does() {
        assert_eq!(differs(), None);
    }

    // The manager of a store is never at epoch 0, and lends enough.
    #[test]
    fn a_checkpoint_at_epoch_0_and_one_lent_too_little() {
        let manager = fresh().manager;
        let mut out = [7; 12];
        let refused = checkpoint(&manager, &mut out[..11]);
        assert_eq!((refused.answer.number, refused.manager.inner.manifest, out), (9, 0, [7; 12]));
        let done = checkpoint(&manager, &mut out);
        assert_eq!((done.answer.number, done.answer.values[0], &out), (0, 12, b"B\nN,0,0,0\nE\n"));
        assert_eq!((done.manager.inner.epoch, done.manager.inner.manifest), (0, 12));
    }

    // A store reports under its lock, right after the commit: none of these can come to it.
    #[test]
    fn reports_that_take_nothing_back() {
        let begun = bootstrap(TEXT, &mut [0; 256]);
        let done = commit(&begun.manager, b"", &mut [0; 6]);
        let (append, book) = (done.manager.append, &begun.book);
        assert_eq!(append, 6);
        let pinned = pin(&done.manager, book).book;
        let drawn = draw_rowset(&done.manager).manager;
        let reported = report(&done.manager, book, 0).manager;
        for (manager, book, landed) in [
            (&done.manager, book, append),
            (&done.manager, book, usize::MAX),
            (&done.manager, &pinned, 0),
            (&drawn, book, 0),
            (&reported, book, 0),
            (&begun.manager, book, 0),
        ] {
            let refused = report(manager, book, landed);
            assert_eq!((refused.answer.number, refused.answer.place), (31, 0));
            assert_eq!(refused.manager.inner.epoch, manager.inner.epoch);
        }
        let back = report(&done.manager, book, append - 1);
        assert_eq!(back.answer.values[..2], [1, (TEXT.len() + append - 1) as u64]);
    }
}
