// The rows: each is held to equal results once, and then timed. Every timed call is an accepted one.
use crate::layout::{Answer, PinBook, VersionManager, MOST_HELD, MOST_PINNED};
use crate::timing::Rows;
use crate::{bound, port, texts};
use std::hint::black_box;

// A value that lives to the end of the program, as the closures of rows do.
fn kept<T>(x: T) -> &'static T {
    Box::leak(Box::new(x))
}

// A buffer that both sides of a row may write to, in turns.
fn buffer<T: Clone + Default>(n: usize) -> *mut [T] {
    Box::leak(vec![T::default(); n].into_boxed_slice())
}

fn at<T>(buffer: *mut [T]) -> &'static mut [T] {
    unsafe { &mut *buffer }
}

fn copied<T: Copy + 'static>(buffer: *mut [T]) -> Vec<T> {
    at(buffer).to_vec()
}

fn equal(name: &str, p: Answer, b: Answer) {
    assert!(
        p.number == 0,
        "{name}: refused by {} at {}",
        p.number,
        p.place
    );
    assert!(p == b, "{name}: {p:?} and by hand {b:?}");
}

fn same(name: &str, p: &port::Manager, b: &VersionManager) {
    assert!(p.same(b), "{name}: managers differ");
}

pub fn reopened(text: &str) -> port::Manager {
    let r = port::bootstrap(text.as_bytes(), &mut [0; 18625]);
    assert!(
        r.answer.number == 0,
        "refused by {} at {}",
        r.answer.number,
        r.answer.place
    );
    r.manager
}

pub fn committed(m: port::Manager, ops: &[String]) -> port::Manager {
    let r = port::commit(m, &texts::lines(ops), &mut vec![0; 65536]);
    assert!(
        r.answer.number == 0,
        "refused by {} at {}",
        r.answer.number,
        r.answer.place
    );
    r.manager
}

pub fn calls(rows: &mut Rows) {
    for held in [0, 128, 256] {
        let m = reopened(&texts::held(held));
        for count in [1, 10, 600] {
            commit(
                rows,
                format!("commit of {count}, {held} held"),
                m,
                &texts::operations(count, held),
            );
        }
    }
    for held in [0, 256] {
        let m = reopened(&texts::held(held));
        // what a commit keeps is judged by the next call, and goes or is replaced
        let after_commit = committed(m, &[]);
        commit(
            rows,
            format!("commit of 1, {held} held, after a commit"),
            after_commit,
            &texts::operations(1, held),
        );
        for (m, after) in [(m, ""), (after_commit, ", after a commit")] {
            handing(
                rows,
                format!("draw, {held} held{after}"),
                m,
                port::draw_rowset,
                |m| bound::draw_rowset(m),
            );
        }
        let book = kept(PinBook::none());
        let pinned = port::pin(after_commit, *book).book;
        pin(
            rows,
            format!("pin, 1 pinned, {held} held, after a commit"),
            after_commit,
            pinned,
        );
        handing(
            rows,
            format!("report, {held} held"),
            after_commit,
            move |m| port::report(m, *black_box(book), 3),
            move |m| bound::report(m, *black_box(book), 3),
        );
        for pinned in [1, MOST_PINNED] {
            let (m, book) = pinned_epochs(held, pinned);
            // nothing kept
            let m = port::draw_rowset(m).manager;
            pin(rows, format!("pin, {pinned} pinned, {held} held"), m, book);
            unpin(
                rows,
                format!("unpin, {pinned} pinned, {held} held"),
                m,
                book,
            );
        }
    }
    let full = reopened(&texts::held(256));
    let all: Vec<usize> = (0..256).collect();
    vacuum(rows, "vacuum of 0, 256 held".into(), full);
    vacuum(
        rows,
        "vacuum of 256".into(),
        committed(full, &texts::deletions(&all)),
    );
    let falling = all
        .iter()
        .rev()
        .fold(full, |m, i| committed(m, &texts::deletions(&[*i])));
    vacuum(rows, "vacuum of 256, epochs falling".into(), falling);
    show(rows, "show of 256 pairs".into(), full);
}

// Locks, the calls that make their own commit, and checkpoints.
pub fn tables(rows: &mut Rows) {
    for held in [0, 256] {
        let m = reopened(&texts::held(held));
        let locked = port::lock(m, 0).manager;
        handing(
            rows,
            format!("lock, {held} held"),
            m,
            |m| port::lock(m, 0),
            |m| bound::lock(m, 0),
        );
        handing(
            rows,
            format!("unlock, {held} held"),
            locked,
            |m| port::unlock(m, 0),
            |m| bound::unlock(m, 0),
        );
        making(
            rows,
            format!("create, {held} held"),
            m,
            |m, out| port::create(m, 7, b"bookings_of_1997", out),
            |m, out| bound::create(m, 7, b"bookings_of_1997", out),
        );
        making(
            rows,
            format!("checkpoint, {held} held"),
            m,
            port::checkpoint,
            |m, out| bound::checkpoint(m, out),
        );
    }
    let full = reopened(&texts::one_table(256));
    let mut random = crate::agree::Random(88172645463325252);
    let sizes: Vec<u64> = (0..256).map(|_| random.below(1000)).collect();
    let target = sizes.iter().sum::<u64>() / 3;
    select(rows, "select, 256 rowsets".into(), full, sizes, target);
    let last = (0..256).map(|i| u64::from(i < 255)).collect();
    select(rows, "select, one of 256 rowsets".into(), full, last, 0);
    making(
        rows,
        "drop of a table of 256".into(),
        full,
        |m, out| port::drop(m, 0, out),
        |m, out| bound::drop(m, 0, out),
    );
    let half = reopened(&texts::one_table(128));
    compaction(rows, "compact of 2, 128 held", half, Some(999_999), 2);
    compaction(rows, "compact of 256 to nothing", full, None, 256);
}

// The first so many rowsets of the one table are taken.
fn compaction(rows: &mut Rows, name: &str, m: port::Manager, new: Option<u32>, count: usize) {
    let taken = kept(
        (0..count)
            .map(|i| texts::rowset(i) as u32)
            .collect::<Vec<_>>(),
    );
    making(
        rows,
        name.into(),
        port::lock(m, 0).manager,
        move |m, out| port::compact(m, 0, new, black_box(taken), out),
        move |m, out| bound::compact(m, 0, new, black_box(taken), out),
    );
}

// A call that takes a manager and hands one back.
fn handing(
    rows: &mut Rows,
    name: String,
    m: port::Manager,
    port: impl Fn(port::Manager) -> port::Handed + 'static,
    bound: impl Fn(VersionManager) -> port::Handed + 'static,
) {
    let (m, c) = (kept(m), kept(m));
    let (mut p, mut b) = (Box::new(port(*m)), Box::new(bound(*c)));
    equal(&name, p.answer, b.answer);
    same(&name, &p.manager, &b.manager);
    rows.add(
        name,
        move || {
            *p = port(*black_box(m));
            black_box(&p);
        },
        move || {
            *b = bound(*black_box(c));
            black_box(&b);
        },
    );
}

// A call that writes bytes for the manifest, too.
fn making(
    rows: &mut Rows,
    name: String,
    m: port::Manager,
    port: impl Fn(port::Manager, &mut [u8]) -> port::Handed + 'static,
    bound: impl Fn(VersionManager, &mut [u8]) -> port::Handed + 'static,
) {
    let out = buffer::<u8>(65536);
    port(m, at(out));
    let written = copied(out);
    at(out).fill(0);
    bound(m, at(out));
    assert!(written == at(out), "{name}: bytes differ");
    handing(
        rows,
        name,
        m,
        move |m| port(m, at(out)),
        move |m| bound(m, at(out)),
    );
}

fn select(rows: &mut Rows, name: String, m: port::Manager, sizes: Vec<u64>, target: u64) {
    let sizes = kept(sizes);
    let (m, c, out) = (kept(m), kept(m), buffer::<u32>(MOST_HELD));
    let p = port::select(*m, 0, target, sizes, at(out));
    let taken = copied(out);
    at(out).fill(0);
    equal(&name, p, bound::select(*c, 0, target, sizes, at(out)));
    assert!(taken == at(out), "{name}: rowsets differ");
    rows.add(
        name,
        move || {
            black_box(port::select(
                *black_box(m),
                0,
                target,
                black_box(sizes),
                at(out),
            ));
        },
        move || {
            black_box(bound::select(
                *black_box(c),
                0,
                target,
                black_box(sizes),
                at(out),
            ));
        },
    );
}

// 4,096 handles of random rows over so many rowsets, and of one rowset with its rows rising.
pub fn groups(rows: &mut Rows) {
    let mut random = crate::agree::Random(88172645463325252);
    for rowsets in [4, 256] {
        let handles = (0..4096)
            .map(|_| (1000 + random.below(rowsets)) << 32 | random.below(1_000_000))
            .collect();
        group(
            rows,
            format!("group, 4,096 random rows of {rowsets}"),
            handles,
        );
    }
    let rising = (0..4096).map(|i| 1000 << 32 | 16 * i).collect();
    group(rows, "group, 4,096 rising rows of 1".into(), rising);
}

fn group(rows: &mut Rows, name: String, handles: Vec<u64>) {
    let handles = kept(handles);
    let (r, l, c) = (
        buffer::<u32>(4096),
        buffer::<u32>(4096),
        buffer::<u32>(4096),
    );
    let (f, w) = (buffer::<u8>(7 * 4096), buffer::<u32>(4096));
    let m = reopened(&texts::held(256));
    let by_port = move |m| port::group(m, black_box(handles), at(r), at(l), at(c), at(f), at(w));
    let by_hand = move |m| bound::group(m, black_box(handles), at(r), at(l), at(c), at(f), at(w));
    let all = move || (copied(r), copied(l), copied(c), copied(f), copied(w));
    by_port(m);
    let made = all();
    for column in [r, l, c, w] {
        at(column).fill(0);
    }
    at(f).fill(0);
    by_hand(m);
    assert!(made == all(), "{name}: vectors differ");
    handing(rows, name, m, by_port, by_hand);
}

// The last so many epochs are pinned, the current one among them.
fn pinned_epochs(held: usize, pinned: usize) -> (port::Manager, PinBook) {
    let mut m = reopened(&texts::held(held));
    let mut book = PinBook::none();
    loop {
        let r = port::pin(m, book);
        assert!(r.answer.number == 0);
        book = r.book;
        if book.count == pinned {
            return (m, book);
        }
        m = committed(m, &[]);
    }
}

fn commit(rows: &mut Rows, name: String, m: port::Manager, ops: &[String]) {
    let lines = kept(texts::lines(ops));
    let (m, c) = (kept(m), kept(m));
    let out = buffer::<u8>(65536);
    let p = port::commit(*m, lines, at(out));
    let written = copied(out);
    at(out).fill(0);
    let b = bound::commit(*c, lines, at(out));
    equal(&name, p.answer, b.answer);
    same(&name, &p.manager, &b.manager);
    assert!(written == at(out), "{name}: appends differ");
    let mut p = Box::new(p);
    let mut b = Box::new(b);
    rows.add(
        name,
        move || {
            *p = port::commit(*black_box(m), black_box(lines), at(out));
            black_box(&p);
        },
        move || {
            *b = bound::commit(*black_box(c), black_box(lines), at(out));
            black_box(&b);
        },
    );
}

fn pin(rows: &mut Rows, name: String, m: port::Manager, book: PinBook) {
    let (m, c, book) = (kept(m), kept(m), kept(book));
    let p = port::pin(*m, *book);
    let b = bound::pin(*c, *book);
    equal(&name, p.answer, b.answer);
    assert!(p.book.same(&b.book), "{name}: books differ");
    rows.add(
        name,
        move || {
            black_box(&port::pin(*black_box(m), *black_box(book)));
        },
        move || {
            black_box(&bound::pin(*black_box(c), *black_box(book)));
        },
    );
}

// The oldest pin is taken off.
fn unpin(rows: &mut Rows, name: String, m: port::Manager, book: PinBook) {
    let (m, c, book) = (kept(m), kept(m), kept(book));
    let epoch = book.items[0].epoch;
    let p = port::unpin(*m, *book, epoch);
    let b = bound::unpin(*c, *book, epoch);
    equal(&name, p.answer, b.answer);
    assert!(p.book.same(&b.book), "{name}: books differ");
    rows.add(
        name,
        move || {
            black_box(&port::unpin(*black_box(m), *black_box(book), epoch));
        },
        move || {
            black_box(&bound::unpin(*black_box(c), *black_box(book), epoch));
        },
    );
}

fn vacuum(rows: &mut Rows, name: String, m: port::Manager) {
    let (m, c, book) = (kept(m), kept(m), kept(PinBook::none()));
    let (ts, rs) = (buffer::<u32>(MOST_HELD), buffer::<u32>(MOST_HELD));
    let mut p = Box::new(port::vacuum(*m, *book, at(ts), at(rs)));
    let listed = (copied(ts), copied(rs));
    let mut b = Box::new(bound::vacuum(*c, *book, at(ts), at(rs)));
    equal(&name, p.answer, b.answer);
    same(&name, &p.manager, &b.manager);
    assert!(listed == (copied(ts), copied(rs)), "{name}: lists differ");
    rows.add(
        name,
        move || {
            *p = port::vacuum(*black_box(m), *black_box(book), at(ts), at(rs));
            black_box(&p);
        },
        move || {
            *b = bound::vacuum(*black_box(c), *black_box(book), at(ts), at(rs));
            black_box(&b);
        },
    );
}

fn show(rows: &mut Rows, name: String, m: port::Manager) {
    let (m, c, book) = (kept(m), kept(m), kept(PinBook::none()));
    let (ts, rs) = (buffer::<u32>(MOST_HELD), buffer::<u32>(MOST_HELD));
    let p = port::show_pairs(*m, *book, c.inner.epoch, at(ts), at(rs));
    let listed = (copied(ts), copied(rs));
    let b = bound::show_pairs(*c, *book, c.inner.epoch, at(ts), at(rs));
    equal(&name, p, b);
    assert!(listed == (copied(ts), copied(rs)), "{name}: lists differ");
    rows.add(
        name,
        move || {
            black_box(port::show_pairs(
                *black_box(m),
                *black_box(book),
                c.inner.epoch,
                at(ts),
                at(rs),
            ));
        },
        move || {
            black_box(bound::show_pairs(
                *black_box(c),
                *black_box(book),
                c.inner.epoch,
                at(ts),
                at(rs),
            ));
        },
    );
}

pub fn reopens(rows: &mut Rows) {
    for (size, length) in [("1 KB", 1024), ("18 KB", 18432), ("64 KB", 65536)] {
        for each in [1, 10, 600] {
            reopen(
                rows,
                format!("reopen, {size} in commits of {each}"),
                texts::commits(length, each),
            );
        }
    }
    reopen(
        rows,
        "reopen, 64 KB of rowsets falling".into(),
        texts::falling(65536),
    );
    reopen(
        rows,
        "reopen, 64 KB of vectors falling".into(),
        texts::vectors(65536),
    );
    reopen(
        rows,
        "reopen, 64 KB of tables falling".into(),
        texts::tables(65536),
    );
    reopen(
        rows,
        "reopen, 64 KB of empty frames".into(),
        texts::empty_frames(65536),
    );
}

fn reopen(rows: &mut Rows, name: String, text: String) {
    let src = kept(text.into_bytes());
    let out = buffer::<u8>(18625);
    let mut p = Box::new(port::bootstrap(src, at(out)));
    let written = copied(out);
    at(out).fill(0);
    let mut b = Box::new(bound::bootstrap(src, at(out)));
    equal(&name, p.answer, b.answer);
    same(&name, &p.manager, &b.manager);
    assert!(p.book.same(&b.book), "{name}: books differ");
    assert!(written == at(out), "{name}: rewritten manifests differ");
    rows.add(
        name,
        move || {
            *p = port::bootstrap(black_box(src), at(out));
            black_box(&p);
        },
        move || {
            *b = bound::bootstrap(black_box(src), at(out));
            black_box(&b);
        },
    );
}

pub fn vectors(rows: &mut Rows) {
    let mut random = crate::agree::Random(88172645463325252);
    let scattered = kept(
        (0..4096)
            .map(|_| random.below(1_000_000) as u32)
            .collect::<Vec<_>>(),
    );
    let rising = kept((0..4096).map(|i| 16 * i).collect::<Vec<u32>>());
    let inside = kept(
        (0..4096)
            .map(|_| random.below(65536) as u32)
            .collect::<Vec<_>>(),
    );
    records(rows, scattered);
    for (kind, list) in [("random", scattered), ("rising", rising)] {
        let out = buffer::<u32>(4096);
        let name = format!("in memory, 4,096 {kind} rows");
        let p = port::in_memory(list, at(out));
        let held = copied(out);
        at(out).fill(0);
        equal(&name, p, bound::in_memory(list, at(out)));
        assert!(held == at(out), "{name}: rows differ");
        rows.add(
            name,
            move || {
                black_box(port::in_memory(black_box(list), at(out)));
            },
            move || {
                black_box(bound::in_memory(black_box(list), at(out)));
            },
        );
    }
    mask(rows, inside);
}

fn records(rows: &mut Rows, list: &'static [u32]) {
    let out = buffer::<u8>(7 * 4096);
    let p = port::write_all(list, at(out));
    let file = copied(out);
    at(out).fill(0);
    equal("write", p, bound::write_all(list, at(out)));
    assert!(file == at(out), "files differ");
    let file = &kept(file)[..p.values[0] as usize];
    rows.add(
        "records, 4,096 written".into(),
        move || {
            black_box(port::write_all(black_box(list), at(out)));
        },
        move || {
            black_box(bound::write_all(black_box(list), at(out)));
        },
    );
    let back = buffer::<u32>(4096);
    let p = port::read_all(file, at(back));
    assert!(list == at(back));
    at(back).fill(0);
    equal("read", p, bound::read_all(file, at(back)));
    assert!(list == at(back));
    rows.add(
        "records, 4,096 read".into(),
        move || {
            black_box(port::read_all(black_box(file), at(back)));
        },
        move || {
            black_box(bound::read_all(black_box(file), at(back)));
        },
    );
}

fn mask(rows: &mut Rows, list: &'static [u32]) {
    let bits = buffer::<u8>(65536);
    at(bits).fill(1);
    let p = port::apply_to(list, at(bits), 0);
    let masked = copied(bits);
    at(bits).fill(1);
    equal("mask", p, bound::apply_to(list, at(bits), 0));
    assert!(masked == at(bits), "masks differ");
    rows.add(
        "mask, 65,536 bits by 4,096 rows".into(),
        move || {
            black_box(port::apply_to(black_box(list), at(bits), 0));
        },
        move || {
            black_box(bound::apply_to(black_box(list), at(bits), 0));
        },
    );
}
