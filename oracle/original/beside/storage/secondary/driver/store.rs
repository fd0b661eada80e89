//! The original's engine over a real folder, with what the driver keeps beside it.
use std::collections::{BTreeMap, BTreeSet};
use std::panic::AssertUnwindSafe;
use std::path::{Path, PathBuf};
use std::sync::atomic::Ordering::SeqCst;

use futures::FutureExt;
use tokio::sync::OwnedMutexGuard;

use super::lines::{Next, line_of, value_of, values_of, whole_length_of};
use super::settled::{File, file_of_cut, file_of_text};
use super::{SCHEMA, scratch, shape, table_ref};
use crate::storage::secondary::*;

type Pairs = BTreeSet<(u32, u32)>;
type Vectors = BTreeSet<(u32, u32, u64)>;

/// The last append as the port's frame, the file's bytes before it, and the appended values once they are cut.
struct Append {
    frame: Vec<String>,
    before: Vec<u8>,
    values: Option<Vec<u8>>,
}

/// The file as the last reopen read it.
struct Read {
    bytes: Vec<u8>,
    next: Next,
}

pub struct Store {
    pub dir: PathBuf,
    pub engine: Arc<SecondaryStorage>,
    pub pins: BTreeMap<u64, Vec<Arc<Version>>>,
    locks: BTreeMap<u32, OwnedMutexGuard<()>>,
    /// Bytes of vector files by vector id; others are empty.
    pub contents: BTreeMap<u64, Vec<u8>>,
    append: Option<Append>,
    read: Option<Read>,
    /// What the file's `N` line says.
    next: Next,
    /// What the last opening made of the next ids, before they were raised.
    pub opened_with: Next,
    /// How long the file was when it was made: what comes after it was appended.
    made: usize,
    /// The file as it stands, where the port and the original read it differently.
    literal: Option<File>,
    /// Whether known differences are settled.
    pub settle: bool,
    /// Whether files and next ids are not, but for half a value at a file's end.
    pub own_reading: bool,
    /// Known differences that the last call met.
    pub notes: Vec<String>,
}

fn options(dir: &Path) -> StorageOptions {
    StorageOptions {
        path: dir.into(),
        io_backend: IOBackend::NormalRead,
        disable_all_disk_operation: false,
        ..StorageOptions::default_for_test()
    }
}

fn text_of(json: &[u8]) -> String {
    values_of(json).iter().map(|value| line_of(value) + "\\n").collect()
}

/// A manager at epoch 0 over an empty file: what `bootstrap` makes, without the commit that it ends with.
async fn fresh_engine(dir: &Path) -> StorageResult<Arc<SecondaryStorage>> {
    let manifest = Manifest::open(dir.join(MANIFEST_FILE_NAME), true).await?;
    let options = Arc::new(options(dir));
    Ok(Arc::new(SecondaryStorage {
        catalog: Arc::new(RootCatalog::new()),
        tables: RwLock::new(Default::default()),
        block_cache: Cache::new(0),
        options: options.clone(),
        next_id: Arc::new((AtomicU32::new(0), AtomicU64::new(0))),
        version: Arc::new(VersionManager::new(manifest, options)),
        compactor_handler: Mutex::new((None, None)),
        vacuum_handler: Mutex::new((None, None)),
        txn_mgr: Arc::new(TransactionManager::default()),
        indexes: Mutex::new(InMemoryIndexes::new()),
    }))
}

impl Store {
    pub async fn fresh(dir: PathBuf) -> StorageResult<Self> {
        let _ = std::fs::remove_dir_all(&dir);
        std::fs::create_dir_all(dir.join("dv"))?;
        let engine = fresh_engine(&dir).await?;
        Ok(Self::over(dir, engine))
    }

    /// A fresh store in the same folder.
    pub async fn anew(&mut self) -> StorageResult<()> {
        self.pins.clear();
        let fresh = Self::fresh(self.dir.clone()).await?;
        *self = Self { settle: self.settle, own_reading: self.own_reading, ..fresh };
        Ok(())
    }

    fn over(dir: PathBuf, engine: Arc<SecondaryStorage>) -> Self {
        Self {
            dir,
            engine,
            pins: Default::default(),
            locks: Default::default(),
            contents: Default::default(),
            append: None,
            read: None,
            next: Next::default(),
            opened_with: Next::default(),
            made: 0,
            literal: None,
            settle: true,
            own_reading: false,
            notes: vec![],
        }
    }

    pub fn file(&self) -> PathBuf {
        self.dir.join(MANIFEST_FILE_NAME)
    }

    pub fn bytes(&self) -> Vec<u8> {
        std::fs::read(self.file()).unwrap()
    }

    /// The file's values as the port's text; a `?` stands for what is no whole value.
    pub fn lines(&self) -> String {
        let bytes = self.bytes();
        let whole = whole_length_of(&bytes);
        text_of(&bytes[..whole]) + if whole < bytes.len() { "?" } else { "" }
    }

    /// The frames that were appended since the file was made.
    pub fn appended(&self) -> String {
        text_of(&self.bytes()[self.made..])
    }

    pub fn table(&self, engine: &SecondaryStorage, table: u32) -> SecondaryTable {
        SecondaryTable::new(
            engine.options.clone(),
            table_ref(table),
            &[],
            self.engine.next_id.clone(),
            engine.version.clone(),
            engine.block_cache.clone(),
            engine.txn_mgr.clone(),
            vec![],
        )
    }

    pub fn next_ids(&self) -> Next {
        Next {
            table: self.next_table().load(SeqCst),
            rowset: self.engine.next_id.0.load(SeqCst),
            vector: self.engine.next_id.1.load(SeqCst),
        }
    }

    fn next_table(&self) -> Arc<AtomicU32> {
        self.engine.catalog.get_schema_by_id(SCHEMA).unwrap().next_table_id
    }

    /// The tables of the catalog, as the port shows them; the engine's own map has to have the same ids.
    pub fn tables(&self) -> Vec<String> {
        let schema = self.engine.catalog.get_schema_by_id(SCHEMA).unwrap();
        let opened: BTreeSet<u32> = self.engine.tables.read().keys().map(|t| t.table_id).collect();
        assert!(schema.tables.keys().eq(&opened), "catalog and engine have other tables");
        let shown =
            |t: &Arc<crate::catalog::TableCatalog>| format!("{}:{}:{}", t.id, t.columns[0].id(), t.name);
        schema.tables.values().map(shown).collect()
    }

    pub fn now(&self) -> Arc<Snapshot> {
        match self.engine.version.epoch() {
            0 => Default::default(), // `pin` panics there
            _ => self.engine.version.pin().snapshot.clone(),
        }
    }

    pub fn at(&self, epoch: u64) -> Arc<Snapshot> {
        if epoch == self.engine.version.epoch() {
            return self.now();
        }
        match self.pins.get(&epoch).and_then(|pins| pins.last()) {
            Some(version) => version.snapshot.clone(),
            None => panic!("epoch {epoch} is neither current nor pinned"),
        }
    }

    pub fn rowsets(&self, table: u32) -> Vec<u32> {
        self.now().pairs().into_iter().filter(|pair| pair.0 == table).map(|pair| pair.1).collect()
    }

    fn vectors_over(&self, table: u32, rowsets: &[u32]) -> Vec<(u32, u32, u64)> {
        let over = |v: &(u32, u32, u64)| v.0 == table && rowsets.contains(&v.1);
        self.now().vectors().into_iter().filter(over).collect()
    }

    /// One rowset alone is enough for the specification where a vector lies over it, and for the original never.
    pub fn note_lone(&mut self, table: u32, rowset: u32) {
        if !self.vectors_over(table, &[rowset]).is_empty() {
            self.note("lone-rowset");
        }
    }
}

// Commits.
impl Store {
    /// Notes what the port appends.
    fn appending(&mut self, lines: &[String]) {
        let frame = ["B".into()].into_iter().chain(lines.iter().cloned()).chain(["E".into()]);
        self.append = Some(Append { frame: frame.collect(), before: self.bytes(), values: None });
        self.read = None;
    }

    fn put_vector_file(&self, dir: &Path, e: &AddDVEntry) -> PathBuf {
        let name = format!("dv/{}_{}_{}.dv", e.table_id.table_id, e.rowset_id, e.dv_id);
        let path = dir.join(name);
        std::fs::write(&path, self.contents.get(&e.dv_id).cloned().unwrap_or_default()).unwrap();
        path
    }

    fn put_folder(&self, e: &AddRowSetEntry) {
        let name = format!("{}_{}", e.table_id.table_id, e.rowset_id);
        std::fs::create_dir_all(self.dir.join(name)).unwrap();
    }

    async fn operation(&self, value: ManifestOperation) -> StorageResult<EpochOp> {
        Ok(match value {
            ManifestOperation::CreateTable(e) => EpochOp::CreateTable(e),
            ManifestOperation::DropTable(e) => EpochOp::DropTable(e),
            ManifestOperation::AddRowSet(e) => {
                self.put_folder(&e);
                let rowset = DiskRowset::sized(e.rowset_id, 0);
                EpochOp::AddRowSet((e, rowset))
            }
            ManifestOperation::DeleteRowSet(e) => EpochOp::DeleteRowSet(e),
            ManifestOperation::AddDV(e) => {
                let path = self.put_vector_file(&self.dir, &e);
                let dv = DeleteVector::open(e.dv_id, e.rowset_id, path).await?;
                EpochOp::AddDV((e, dv))
            }
            ManifestOperation::DeleteDV(e) => EpochOp::DeleteDV(e),
            ManifestOperation::Begin | ManifestOperation::End => panic!("no operation"),
        })
    }

    /// `commit_changes`. It leaves the catalog alone, so the driver changes that.
    pub async fn commit(&mut self, lines: Vec<String>) -> StorageResult<u64> {
        self.appending(&lines);
        let values: Vec<_> = lines.iter().map(|line| value_of(line).unwrap()).collect();
        let mut operations = vec![];
        for value in values.clone() {
            operations.push(self.operation(value).await?);
        }
        let epoch = self.engine.version.commit_changes(operations).await?;
        if self.settle {
            values.iter().try_for_each(|value| self.apply_to_catalog(value))?;
        }
        Ok(epoch)
    }

    fn apply_to_catalog(&mut self, value: &ManifestOperation) -> StorageResult<()> {
        match value {
            ManifestOperation::CreateTable(e) => {
                self.note("catalog");
                self.engine.apply_create_table(e)
            }
            ManifestOperation::DropTable(e) => {
                self.note("catalog");
                self.locks.remove(&e.table_id.table_id);
                self.engine.apply_drop_table(e)
            }
            _ => Ok(()),
        }
    }

    pub async fn create(&mut self, shape_no: u32, name: &str) -> StorageResult<(u32, u64)> {
        let table = self.next_table().load(SeqCst);
        self.appending(&[format!("T,{table},{shape_no},{name}")]);
        self.engine.create_table_inner(SCHEMA, name, &shape(shape_no), &[table]).await?;
        Ok((table, self.engine.version.epoch()))
    }

    pub async fn drop_table(&mut self, table: u32) -> StorageResult<u64> {
        let mut lines = vec![format!("X,{table}")];
        lines.extend(self.removal(table, &self.rowsets(table)));
        self.appending(&lines);
        self.engine.version.notices();
        self.engine.drop_table_inner(table_ref(table)).await?;
        if self.engine.version.notices() > 0 {
            self.note("drop-notice");
        }
        if self.settle {
            self.locks.remove(&table);
        }
        Ok(self.engine.version.epoch())
    }

    /// `W` and then `D` lines, ascending.
    fn removal(&self, table: u32, rowsets: &[u32]) -> Vec<String> {
        let vectors = self.vectors_over(table, rowsets);
        let vectors = vectors.iter().map(|(t, r, v)| format!("W,{t},{r},{v}"));
        vectors.chain(rowsets.iter().map(|r| format!("D,{table},{r}"))).collect()
    }

    /// The commit as the specification has it. The original's compactor makes its own from the same snapshot, aside.
    pub async fn compact(&mut self, table: u32, new: Option<u32>, taken: &[u32]) -> StorageResult<u64> {
        if !self.settle {
            return self.compact_in_place(table, new, taken).await;
        }
        self.compare_compactor(table, new, taken).await?;
        let mut lines: Vec<_> = new.iter().map(|r| format!("A,{table},{r}")).collect();
        lines.extend(self.removal(table, taken));
        self.commit(lines).await
    }

    /// The original's compactor on the store itself. It takes the lock and draws the id for itself.
    async fn compact_in_place(&mut self, table: u32, new: Option<u32>, taken: &[u32]) -> StorageResult<u64> {
        self.appending(&[]);
        let guard = self.locks.remove(&table);
        drop(guard);
        let next = self.engine.next_id.0.load(SeqCst);
        self.engine.next_id.0.store(new.unwrap_or(next), SeqCst);
        self.engine.version.notices();
        scratch::compact_in_place(self, table, new.is_none(), taken).await?;
        if self.engine.version.notices() > 0 {
            self.note("compactor-notice");
        }
        self.engine.next_id.0.fetch_max(next, SeqCst);
        self.lock(table);
        Ok(self.engine.version.epoch())
    }

    async fn compare_compactor(&mut self, table: u32, new: Option<u32>, taken: &[u32]) -> StorageResult<()> {
        if taken.len() < 2 {
            self.note("few-taken");
            return Ok(());
        }
        let rowsets = self.rowsets(table);
        let vectors = self.vectors_over(table, &rowsets);
        let left = scratch::compacted(table, &rowsets, &vectors, new, taken).await?;
        let mut pairs: Pairs = rowsets.iter().filter(|r| !taken.contains(r)).map(|r| (table, *r)).collect();
        pairs.extend(new.map(|r| (table, r)));
        if left.pairs() != pairs || !left.vectors().iter().eq(&vectors) {
            self.note("compactor");
        }
        if vectors.iter().any(|v| taken.contains(&v.1)) {
            self.note("vectors-left");
        }
        Ok(())
    }
}

// Locks and pins.
impl Store {
    /// Drops the version that was pinned first.
    pub fn unpin(&mut self, epoch: u64) {
        let pins = self.pins.get_mut(&epoch).unwrap();
        let first = pins.remove(0);
        if pins.is_empty() {
            self.pins.remove(&epoch);
        }
        drop(first);
    }

    /// Drops every version, in the manager that they were pinned in.
    pub fn unpin_all(&mut self) {
        self.pins.clear();
    }

    pub fn lock(&mut self, table: u32) -> &'static str {
        match self.engine.txn_mgr.try_lock_for_compaction(table) {
            Some(guard) => {
                self.locks.insert(table, guard);
                "locked"
            }
            None => "held",
        }
    }

    pub fn unlock(&mut self, table: u32) -> &'static str {
        match self.locks.remove(&table) {
            Some(_guard) => "unlocked",
            None => "free",
        }
    }
}

// The file, and opening it.
impl Store {
    pub fn note(&mut self, note: &str) {
        if !self.notes.iter().any(|n| n == note) {
            self.notes.push(note.into());
        }
    }

    fn set_file(&mut self, file: File) {
        let bytes = match (self.settle, self.own_reading) {
            (false, _) => &file.literal[..],
            (true, false) => &file.settled[..],
            (true, true) => &file.literal[..whole_length_of(&file.literal)],
        };
        std::fs::write(self.file(), bytes).unwrap();
        let settled = self.settle && !self.own_reading;
        self.literal = (settled && !file.reasons.is_empty()).then_some(file);
    }

    pub fn cut(&mut self, landed: usize) {
        let bytes = self.bytes();
        if let Some(append) = &mut self.append {
            let before = append.before.len();
            let values = append.values.get_or_insert_with(|| bytes[before..].to_vec());
            let file = file_of_cut(&append.before, values, &append.frame, landed);
            self.set_file(file);
        }
    }

    pub fn stale(&mut self) {
        if let Some(read) = &self.read {
            std::fs::write(self.file(), &read.bytes).unwrap();
            self.next = read.next;
        }
    }

    pub fn write(&mut self, text: &str) {
        let file = file_of_text(text);
        self.next = file.next;
        self.append = None;
        self.read = None;
        self.put_files_of(text);
        self.set_file(file);
        self.made = self.bytes().len();
    }

    /// A folder for each rowset and a file for each vector that the text adds.
    fn put_files_of(&self, text: &str) {
        let whole = &text[..text.rfind('\n').map_or(0, |end| end + 1)];
        for value in whole.lines().filter_map(value_of) {
            match value {
                ManifestOperation::AddRowSet(e) => self.put_folder(&e),
                ManifestOperation::AddDV(e) => _ = self.put_vector_file(&self.dir, &e),
                _ => {}
            }
        }
    }

    pub async fn reopen(&mut self) -> StorageResult<()> {
        if self.settle {
            self.pins.clear();
        }
        self.locks.clear();
        let read = Read { bytes: self.bytes(), next: self.next };
        self.engine = Arc::new(SecondaryStorage::open(options(&self.dir)).await?);
        self.compare_literal().await;
        self.compare_folders();
        self.opened_with = self.next_ids();
        self.carry_next_ids();
        self.next = self.next_ids();
        self.made = self.bytes().len();
        self.append = None;
        self.read = Some(read);
        Ok(())
    }

    fn carry_next_ids(&mut self) {
        let settled = self.settle && !self.own_reading;
        if settled && self.next_ids().raised(self.next) != self.next_ids() {
            self.note("next-ids");
            self.next_table().fetch_max(self.next.table, SeqCst);
            self.engine.next_id.0.fetch_max(self.next.rowset, SeqCst);
            self.engine.next_id.1.fetch_max(self.next.vector, SeqCst);
        }
    }

    /// Opening removes folders of rowsets that are not live, and no others.
    fn compare_folders(&mut self) {
        if self.folders() != self.now().pairs() {
            self.note("folders");
        }
    }

    pub fn folders(&self) -> Pairs {
        let names = std::fs::read_dir(&self.dir).unwrap().map(|e| e.unwrap().file_name());
        let pair = |name: std::ffi::OsString| {
            let (table, rowset) = name.to_str()?.split_once('_')?;
            Some((table.parse().ok()?, rowset.parse().ok()?))
        };
        names.filter_map(pair).collect()
    }

    /// Where the file was settled, the original opens it as it stands, aside; the reasons count if it shows
    /// something else or does not open.
    async fn compare_literal(&mut self) {
        let Some(file) = self.literal.take() else { return };
        let shown = (self.tables(), self.now().pairs(), self.now().vectors());
        if self.literal_shows(&file.literal).await.as_ref() != Some(&shown) {
            file.reasons.iter().for_each(|reason| self.note(reason));
        }
    }

    async fn literal_shows(&self, bytes: &[u8]) -> Option<(Vec<String>, Pairs, Vectors)> {
        let side = self.dir.with_extension("side");
        let _ = std::fs::remove_dir_all(&side);
        std::fs::create_dir_all(side.join("dv")).unwrap();
        let whole = serde_json::Deserializer::from_slice(bytes).into_iter::<ManifestOperation>();
        for value in whole.map_while(Result::ok) {
            if let ManifestOperation::AddDV(e) = value {
                self.put_vector_file(&side, &e);
            }
        }
        std::fs::write(side.join(MANIFEST_FILE_NAME), bytes).unwrap();
        let opening = AssertUnwindSafe(SecondaryStorage::open(options(&side))).catch_unwind();
        let opened = opening.await.ok().and_then(Result::ok);
        let _ = std::fs::remove_dir_all(&side);
        let other = Store::over(side, Arc::new(opened?));
        Some((other.tables(), other.now().pairs(), other.now().vectors()))
    }
}
