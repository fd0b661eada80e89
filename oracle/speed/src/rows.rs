//! The rows: each is held to equal results once, and then timed. Every timed call is an accepted one.
use std::collections::{BTreeMap, BTreeSet};
use std::fmt::Debug;
use std::fs;
use std::path::{Path, PathBuf};

use crate::histories;
use crate::port::{self, Port};
use crate::storage::drive::{self, Original};
use crate::timing::{Row, often, once};

pub const COMMIT: &str = "commit of 1 operation";
pub const OPEN: &str = "opening, vector files read";
pub const PIN: &str = "pin and unpin";
pub const VACUUM: &str = "vacuum of nothing";

const WRITES: &str = "Ends in a file";
const READS: &str = "Opens or reads files";
const MEMORY: &str = "Ends in memory";
const LOOKS: &str = "A look in a map of the original";
pub const GROUPS: [&str; 4] = [WRITES, READS, MEMORY, LOOKS];

/// Steps of what is held in the plot.
const HELD: [usize; 9] = [0, 32, 64, 96, 128, 160, 192, 224, 256];
const RECORDS: usize = 4096;
const BITS: usize = 65_536;

pub struct Bench {
    dir: PathBuf,
    wanted: String,
    folders: usize,
    pub rows: Vec<Row>,
    /// Rows whose results differ.
    pub differ: Vec<String>,
}

/// A value that lives to the end of the program, as the closures of rows do.
fn kept<T>(x: T) -> &'static T {
    Box::leak(Box::new(x))
}

fn sorted<T: Ord>(mut list: Vec<T>) -> Vec<T> {
    list.sort();
    list
}

fn last_frame(lines: &[String]) -> &[String] {
    let begin = lines.iter().rposition(|line| line == "B").unwrap();
    &lines[begin..]
}

/// The rowsets or vectors that are live after these lines, as the names of their folders or files.
fn live(lines: &[String], add: &str, delete: &str) -> BTreeSet<String> {
    let mut names = BTreeSet::new();
    for (letter, fields) in lines.iter().filter_map(|line| line.split_once(',')) {
        let name = fields.replace(',', "_");
        match letter {
            _ if letter == add => _ = names.insert(name),
            _ if letter == delete => _ = names.remove(&name),
            _ => {}
        }
    }
    names
}

fn put_live_files(dir: &Path, lines: &[String]) {
    for rowset in live(lines, "A", "D") {
        fs::create_dir(dir.join(rowset)).unwrap();
    }
    for vector in live(lines, "V", "W") {
        fs::write(dir.join(format!("dv/{vector}.dv")), "").unwrap();
    }
}

fn empty_vector_folder(dir: &Path) {
    fs::remove_dir_all(dir.join("dv")).unwrap();
    fs::create_dir(dir.join("dv")).unwrap();
}

/// The bytes of each vector's file, by its rowset: the two sides draw vector ids in another order.
fn vector_files(dir: &Path) -> BTreeMap<String, Vec<u8>> {
    let entries = fs::read_dir(dir.join("dv")).unwrap().map(Result::unwrap);
    let of = |entry: fs::DirEntry| {
        let name = entry.file_name().into_string().unwrap();
        let (rowset, _) = name.rsplit_once('_').unwrap();
        (rowset.to_string(), fs::read(entry.path()).unwrap())
    };
    entries.map(of).collect()
}

/// The two sides of a row, each with a folder of its own.
struct Sides {
    port: Port,
    original: Original,
    port_dir: PathBuf,
    original_dir: PathBuf,
}

impl Bench {
    pub fn new(dir: &Path, wanted: String) -> Self {
        Self { dir: dir.into(), wanted, folders: 0, rows: vec![], differ: vec![] }
    }

    fn sides(&mut self) -> &'static Sides {
        let dir = self.dir.join(self.folders.to_string());
        self.folders += 1;
        let (port_dir, original_dir) = (dir.join("port"), dir.join("original"));
        for side in [&port_dir, &original_dir] {
            fs::create_dir_all(side.join("dv")).unwrap();
        }
        let (port, original) = (Port::new(&port_dir), Original::new(&original_dir));
        kept(Sides { port, original, port_dir, original_dir })
    }

    fn wants(&self, name: &str) -> bool {
        name.contains(&self.wanted)
    }

    fn equal<T: PartialEq + Debug>(&mut self, name: &str, port: T, original: T) {
        if port != original {
            eprintln!("{name}: the port has {port:?}, the original {original:?}");
            self.differ.push(name.into());
        }
    }

    fn add(&mut self, row: Row) {
        if self.wants(&row.name) {
            self.rows.push(row);
        }
    }

    pub fn all(&mut self) {
        for held in HELD {
            self.commit(1, held);
        }
        for count in [10, 600] {
            [0, 128, 256].into_iter().for_each(|held| self.commit(count, held));
        }
        for length in [1 << 10, 18 << 10, 64 << 10] {
            self.reopen(length);
        }
        HELD.into_iter().for_each(|held| self.open(held));
        self.records("rising", histories::rows_rising(RECORDS));
        self.records("at random", histories::shuffled(histories::rows_rising(RECORDS)));
        for rowsets in [4, 256] {
            let handles = histories::handles_rising(RECORDS, rowsets);
            self.group(rowsets, "rising", handles.clone());
            self.group(rowsets, "at random", histories::shuffled(handles));
        }
        for rowsets in [4, 256] {
            let handles = histories::handles_rising(RECORDS, rowsets);
            self.group_in_memory(rowsets, "rising", handles.clone());
            self.group_in_memory(rowsets, "at random", histories::shuffled(handles));
        }
        self.mask();
        self.vacuum_of_256();
        HELD.into_iter().for_each(|held| self.vacuum_of_nothing(held));
        HELD.into_iter().for_each(|held| self.pin(held));
    }

    fn commit(&mut self, count: usize, held: usize) {
        let name = format!("commit of {count}, {held} held");
        if !self.wants(&name) {
            return;
        }
        let Sides { port, original, .. } = self.sides();
        let (base, ops) = (kept(histories::held(held)), kept(histories::operations(count, held)));

        let (manager, version) = (port.manager(base), original.manager(base));
        manager.commit_changes(port::operations(ops)).unwrap();
        original.commit(&version, drive::operations(ops));
        self.equal(&name, port::shown(&manager), drive::shown(&version));
        let (lines, values) = (port.manifest_lines(), original.manifest_lines());
        self.equal(&name, last_frame(&lines), last_frame(&values));
        drop(manager);

        let of_port = once(
            || (port.manager(base), port::operations(ops)),
            |(manager, ops)| manager.commit_changes(&ops).unwrap(),
        );
        let of_original = once(
            || (original.manager(base), Some(drive::operations(ops))),
            |(version, ops)| original.commit(version, ops.take().unwrap()),
        );
        let row = Row::new(WRITES, name, of_port, of_original);
        self.add(if count == 1 { row.at(COMMIT, held) } else { row });
    }

    /// Opening a store after commits of ten operations each.
    fn reopen(&mut self, length: usize) {
        let name = format!("reopen, {} KB", length >> 10);
        if !self.wants(&name) {
            return;
        }
        let Sides { port, original, port_dir, original_dir } = self.sides();
        let lines = histories::commits(length);
        let text = kept(histories::appended(&lines).into_bytes());
        let json = kept(drive::manifest_of(&lines));
        [port_dir, original_dir].into_iter().for_each(|dir| put_live_files(dir, &lines));

        port.put_manifest(text);
        original.put_manifest(json);
        let shown = (port::shown(&port.open()), original.shown(&original.open()));
        self.equal(&name, shown.0, shown.1);

        let name = format!("{name} (the original's {} KB)", json.len() >> 10);
        let of_port = once(|| port.put_manifest(text), |_| port.open());
        let of_original = once(|| original.put_manifest(json), |_| original.open());
        self.add(Row::new(READS, name, of_port, of_original));
    }

    /// Opening a store that holds so many rowsets and vectors, whose files both sides read.
    fn open(&mut self, held: usize) {
        let name = format!("opening, {held} held, vector files read");
        if !self.wants(&name) {
            return;
        }
        let Sides { port, original, port_dir, original_dir } = self.sides();
        let lines = histories::framed(&histories::held(held));
        let text = kept(histories::text(&lines).into_bytes());
        let json = kept(drive::manifest_of(&lines));
        [port_dir, original_dir].into_iter().for_each(|dir| put_live_files(dir, &lines));

        port.put_manifest(text);
        original.put_manifest(json);
        let (manager, vectors) = port.open_with_vectors();
        self.equal(&name, port::shown(&manager), original.shown(&original.open()));
        self.equal(&name, vectors.len(), held);
        drop(manager);

        let of_port = once(|| port.put_manifest(text), |_| port.open_with_vectors());
        let of_original = once(|| original.put_manifest(json), |_| original.open());
        self.add(Row::new(READS, name, of_port, of_original).at(OPEN, held));
    }

    fn pin(&mut self, held: usize) {
        let name = format!("pin and unpin, {held} held");
        if !self.wants(&name) {
            return;
        }
        let Sides { port, original, .. } = self.sides();
        let base = histories::held(held);
        let (manager, version) = (port.manager(&base), original.manager(&base));
        self.equal(&name, port::pin_and_unpin(&manager).into(), drive::pin_and_unpin(&version));
        let of_port = often(move || port::pin_and_unpin(&manager));
        let of_original = often(move || drive::pin_and_unpin(&version));
        self.add(Row::new(LOOKS, name, of_port, of_original).at(PIN, held));
    }

    fn vacuum_of_nothing(&mut self, held: usize) {
        let name = format!("vacuum of 0, {held} held");
        if !self.wants(&name) {
            return;
        }
        let Sides { port, original, .. } = self.sides();
        let base = histories::held(held);
        let (manager, version) = (port.manager(&base), original.manager(&base));
        self.equal(&name, port::find_vacuum(&manager).len(), drive::find_vacuum(&version).len());
        let of_port = often(move || port::find_vacuum(&manager));
        let of_original = often(move || drive::find_vacuum(&version));
        self.add(Row::new(LOOKS, name, of_port, of_original).at(VACUUM, held));
    }

    fn vacuum_of_256(&mut self) {
        let name = "vacuum of 256";
        if !self.wants(name) {
            return;
        }
        let Sides { port, original, .. } = self.sides();
        let (base, all) = (kept(histories::held(256)), kept(histories::deletions(0..256)));
        let deleted = || {
            let manager = port.manager(base);
            manager.commit_changes(port::operations(all)).unwrap();
            manager
        };
        let deleted_by_original = || {
            let version = original.manager(base);
            original.commit(&version, drive::operations(all));
            version
        };
        let listed = port::find_vacuum(&deleted()).into_iter().map(|(t, r)| (t.0, r.0)).collect();
        self.equal(name, sorted(listed), sorted(drive::find_vacuum(&deleted_by_original())));

        let of_port = once(deleted, |manager| port::find_vacuum(manager));
        let of_original = once(deleted_by_original, |version| drive::find_vacuum(version));
        self.add(Row::new(MEMORY, name, of_port, of_original));
    }

    fn records(&mut self, order: &str, rows: Vec<u32>) {
        let names = ["written to a file", "read from a file", "written in memory"];
        let [written, read, in_memory] = names.map(|what| format!("4,096 records {what}, rows {order}"));
        if ![&written, &read, &in_memory].into_iter().any(|name| self.wants(name)) {
            return;
        }
        let Sides { port_dir, original_dir, original, .. } = self.sides();
        let (ids, records) = (kept(port::row_ids(&rows)), kept(drive::records(&rows)));
        let (file, its_file) = (kept(port_dir.join("rows.dv")), kept(original_dir.join("rows.dv")));

        self.equal(&in_memory, port::encoded(ids), drive::encoded(records));
        port::write_records(file, ids);
        original.write_records(its_file, records);
        self.equal(&written, fs::read(file).unwrap(), fs::read(its_file).unwrap());
        let (vector, its_vector) = (port::read_records(file), original.read_records(its_file));
        self.equal(&read, vector.deletes().map(|row| row.0).collect(), its_vector.rows().to_vec());

        let (new, its_new) = (kept(port_dir.join("new.dv")), kept(original_dir.join("new.dv")));
        let of_port = once(move || fs::remove_file(new), |_| port::write_records(new, ids));
        let of_original =
            once(move || fs::remove_file(its_new), |_| original.write_records(its_new, records));
        self.add(Row::new(WRITES, written, of_port, of_original));
        let of_port = often(|| port::read_records(file));
        let of_original = often(|| original.read_records(its_file));
        self.add(Row::new(READS, read, of_port, of_original));
        let of_port = often(|| port::encoded(ids));
        let of_original = often(|| drive::encoded(records));
        self.add(Row::new(MEMORY, in_memory, of_port, of_original));
    }

    fn mask(&mut self) {
        let name = "mask, 65,536 bits by 4,096 rows";
        if !self.wants(name) {
            return;
        }
        let mut random = histories::Random(3);
        let rows: Vec<u32> = (0..RECORDS).map(|_| random.below(BITS as u32)).collect();
        let (vector, its_vector) = (port::vector(&rows), drive::vector(&rows));
        let (mut mask, mut its_mask) = (vec![true; BITS], drive::mask(BITS));
        port::apply_to(&vector, &mut mask);
        drive::apply_to(&its_vector, &mut its_mask);
        self.equal(name, &mask, &its_mask.0);
        let of_port = often(move || port::apply_to(&vector, &mut mask));
        let of_original = often(move || drive::apply_to(&its_vector, &mut its_mask));
        self.add(Row::new(MEMORY, name, of_port, of_original));
    }

    /// A transaction's deletes: grouped, a file written for each rowset, and committed.
    fn group(&mut self, rowsets: u32, order: &str, handles: Vec<(u32, u32)>) {
        let name = format!("grouping of 4,096 handles {order}, {rowsets} vector files, commit");
        if !self.wants(&name) {
            return;
        }
        let Sides { port, original, port_dir, original_dir } = self.sides();
        let base = histories::framed(&histories::one_table(rowsets as usize));
        let text = kept(histories::text(&base).into_bytes());
        let json = kept(drive::manifest_of(&base));
        let (handlers, its_handlers) = (kept(port::handlers(&handles)), kept(drive::handlers(&handles)));
        let opened = || {
            empty_vector_folder(port_dir);
            port.put_manifest(text);
            port.open()
        };
        let opened_by_original = || {
            empty_vector_folder(original_dir);
            original.put_manifest(json);
            original.open()
        };
        let (manager, engine) = (opened(), opened_by_original());
        port::delete(&manager, handlers);
        original.delete(&engine, its_handlers);
        self.equal(&name, vector_files(port_dir), vector_files(original_dir));
        drop(manager);

        let of_port = once(opened, |manager| port::delete(manager, handlers));
        let of_original = once(opened_by_original, |engine| original.delete(engine, its_handlers));
        self.add(Row::new(WRITES, name, of_port, of_original));
    }

    fn group_in_memory(&mut self, rowsets: u32, order: &str, handles: Vec<(u32, u32)>) {
        let name = format!("grouping of 4,096 handles {order}, {rowsets} vectors, no files");
        if !self.wants(&name) {
            return;
        }
        let Sides { original, .. } = self.sides();
        let (handlers, its_handlers) = (kept(port::handlers(&handles)), kept(drive::handlers(&handles)));
        let base = kept(histories::one_table(rowsets as usize).split_off(1));
        let made = move || port::in_memory(rowsets as usize);
        let made_by_original = || original.in_memory(base);

        let (manager, engine) = (made(), made_by_original());
        port::delete(&manager, handlers);
        original.delete(&engine, its_handlers);
        let (_, pairs, vectors) = port::shown(&manager);
        let (_, its_pairs, its_vectors) = original.shown(&engine);
        self.equal(&name, (pairs, vectors.len()), (its_pairs, its_vectors.len()));

        let of_port = once(made, |manager| port::delete(manager, handlers));
        let of_original = once(made_by_original, |engine| original.delete(engine, its_handlers));
        self.add(Row::new(MEMORY, name, of_port, of_original));
    }
}
