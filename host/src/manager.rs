//! The version manager: the library's manager and the manifest file, kept together behind one lock.
use crate::delete_vector::{DeleteVector, GroupedDeletes, LONGEST_RECORD, MOST_RECORDS};
use crate::error::{Refusal, StorageError, StorageResult};
use crate::files::{self, Failed, Folder, Manifest};
use crate::ids::{RowsetId, SecondaryRowHandler, TableId, VectorId};
use crate::not_live::NotLive;
use crate::ops::EpochOp;
use crate::snapshot::{Snapshot, Table};
use crate::sys;
use crate::table_lock::TableLock;
use crate::version::Version;
use std::path::{Path, PathBuf};
use std::sync::mpsc::{channel, Receiver, Sender};
use std::sync::{Arc, Condvar, Mutex, MutexGuard, PoisonError};

/// A rewritten manifest always fits.
pub(crate) const LONGEST_REWRITTEN: usize = 18_625;
/// No append is longer, since no manifest is.
const LONGEST_MANIFEST: usize = 65_536;
/// The lines `!`, `B` and `E` of every append.
const FRAME: usize = 6;
/// One `T` line, with numbers and a name as long as they come.
const LONGEST_CREATE: usize = FRAME + 57;
/// An `A` or `X` line, and a `W` and a `D` line for all that may be held.
const LONGEST_TABLE_CHANGE: usize = FRAME + 24 + sys::MOST_HELD * (45 + 24);

/// A vacuum is due: the last pin of an epoch that is not the current one is gone.
#[derive(Clone, Copy, Debug, PartialEq, Eq)]
pub struct Notice {
    /// The epoch that was unpinned.
    pub epoch: u32,
    /// How many rowsets a vacuum would list now.
    pub ready: usize,
}

/// What a vacuum lets go: their files may be removed.
#[derive(Clone, Debug, Default, PartialEq, Eq)]
pub struct Vacuumed {
    /// By the epoch of their deletion, then by their ids.
    pub rowsets: Vec<(TableId, RowsetId)>,
    pub dvs: Vec<(TableId, RowsetId, VectorId)>,
}

/// The next ids.
#[derive(Clone, Copy, Debug, PartialEq, Eq)]
pub struct NextIds {
    pub table: TableId,
    pub rowset: RowsetId,
    pub dv: VectorId,
}

/// What an opening answers.
#[derive(Debug)]
pub struct Opened {
    pub manager: VersionManager,
    pub not_live: NotLive,
}

/// Manages the epochs of a store. All calls may be made from any thread; they come one after another, and a commit or a
/// checkpoint holds the others until it is on disk.
pub struct VersionManager {
    shared: Arc<Shared>,
    notices: Mutex<Option<Receiver<Notice>>>,
}

pub(crate) struct Shared {
    // Whoever waits for `inner` holds it, so that a thread of one commit after another does not come first each time.
    next: Mutex<()>,
    inner: Mutex<Inner>,
    // Signalled when a table's lock may have become free.
    freed: Condvar,
    notices: Sender<Notice>,
    // None for a mock.
    folder: Option<Folder>,
}

struct Inner {
    manager: Box<sys::Manager>,
    book: sys::PinBook,
    manifest: Manifest,
    // Set before a change reaches the disk, and cleared when it is known how much of it is there.
    poisoned: bool,
    // Counts the reopens.
    generation: u64,
    // Of the current epoch, once somebody asked for it.
    snapshot: Option<Arc<Snapshot>>,
}

pub(crate) fn accepted(answer: sys::Answer) -> StorageResult<[u64; 3]> {
    match (answer.number, Refusal::from_number(answer.number)) {
        (0, _) => Ok(answer.values),
        (_, Some(refusal)) => Err(StorageError::Refused { refusal, place: answer.place }),
        (_, None) => Err(StorageError::Border { what: "an unknown refusal" }),
    }
}

// The bytes that an accepted call wrote: the answer says their length last.
fn handed_out<'a>(answer: &sys::Answer, out: &'a [u8]) -> StorageResult<&'a [u8]> {
    let length = answer.count.checked_sub(1).and_then(|last| answer.values.get(last));
    length.and_then(|n| out.get(..*n as usize)).ok_or(StorageError::Border { what: "the length of bytes handed out" })
}

fn guard<T>(mutex: &Mutex<T>) -> MutexGuard<'_, T> {
    mutex.lock().unwrap_or_else(PoisonError::into_inner)
}

impl Inner {
    fn may_change(&self) -> StorageResult<()> {
        match self.poisoned {
            true => Err(StorageError::Poisoned),
            false => Ok(()),
        }
    }

    // A change of the manager that leaves the manifest alone.
    fn adopt(&mut self, handed: sys::Handed) -> StorageResult<[u64; 3]> {
        let values = accepted(handed.answer)?;
        *self.manager = handed.manager;
        Ok(values)
    }

    // A change that is no change before its append is on disk. Where less than all of it is, the manager that would have
    // followed is told so and hands back the state before, whose manifest ends in what landed.
    fn land(&mut self, handed: sys::Handed, out: &[u8]) -> StorageResult<[u64; 3]> {
        let values = accepted(handed.answer)?;
        let append = handed_out(&handed.answer, out)?;
        self.poisoned = true;
        match self.manifest.append(self.manager.inner.manifest, append) {
            Ok(()) => {
                *self.manager = handed.manager;
                self.snapshot = None;
                self.poisoned = false;
                Ok(values)
            }
            Err(Failed { landed, path, source }) => match landed {
                // Nobody has seen the new epoch, so nobody has pinned it, and the report is not refused.
                Some(landed) if self.adopt(sys::report(&handed.manager, &self.book, landed)).is_ok() => {
                    self.poisoned = false;
                    Err(StorageError::NotCommitted { landed, length: append.len(), path, source })
                }
                _ => Err(StorageError::io("append to", &path)(source)),
            },
        }
    }

    // A rewritten manifest of the same sets. While it is only written beside the old one, a failure changes nothing.
    fn replace(&mut self, handed: sys::Handed, out: &[u8], folder: Option<&Folder>) -> StorageResult<usize> {
        accepted(handed.answer)?;
        let rewritten = handed_out(&handed.answer, out)?;
        self.manifest = match folder {
            None => Manifest::Memory(rewritten.to_vec()),
            Some(folder) => {
                let beside = folder.write_beside(rewritten)?;
                self.poisoned = true;
                folder.put_in_place(beside)?
            }
        };
        *self.manager = handed.manager;
        self.poisoned = false;
        Ok(rewritten.len())
    }

    fn snapshot(&mut self) -> StorageResult<Arc<Snapshot>> {
        if let Some(snapshot) = &self.snapshot {
            return Ok(snapshot.clone());
        }
        let snapshot = Arc::new(Snapshot::of(&self.manager, &self.book)?);
        self.snapshot = Some(snapshot.clone());
        Ok(snapshot)
    }

    // From the bytes of a manifest: what stands after a reopen, and the manifest rewritten.
    fn bootstrap(bytes: &[u8]) -> StorageResult<(Inner, Vec<u8>)> {
        let mut out = vec![0; LONGEST_REWRITTEN];
        let begun = sys::bootstrap(bytes, &mut out);
        let length = accepted(begun.answer)?[0] as usize;
        out.truncate(length);
        let inner = Inner {
            manager: Box::new(begun.manager),
            book: begun.book,
            manifest: Manifest::Memory(out.clone()),
            poisoned: false,
            generation: 0,
            snapshot: None,
        };
        Ok((inner, out))
    }

    // Reads the folder's manifest and puts the rewritten one in its place.
    fn load(folder: &Folder) -> StorageResult<(Inner, NotLive)> {
        let bytes = folder.read()?;
        let first = bytes.is_none();
        if first && (folder.has_json_manifest() || !NotLive::all(folder)?.is_empty()) {
            return Err(StorageError::NoManifest { path: folder.path().to_path_buf() });
        }
        let bytes = bytes.unwrap_or_default();
        let (mut inner, rewritten) = Inner::bootstrap(&bytes)?;
        // An opening leaves whole lines behind before anything is appended, so this was never a manifest of this crate.
        if !bytes.is_empty() && !bytes.contains(&b'\n') {
            return Err(StorageError::NotAManifest { path: folder.path().join(files::MANIFEST_FILE_NAME) });
        }
        let snapshot = inner.snapshot()?;
        let not_live = NotLive::find(folder, &snapshot)?;
        if first {
            folder.sync_parent()?;
        }
        inner.manifest = folder.put_in_place(folder.write_beside(&rewritten)?)?;
        Ok((inner, not_live))
    }
}

impl Shared {
    fn lock(&self) -> MutexGuard<'_, Inner> {
        let _next = guard(&self.next);
        guard(&self.inner)
    }

    pub(crate) fn unpin(&self, epoch: u32) {
        let mut inner = self.lock();
        let booked = sys::unpin(&inner.manager, &inner.book, epoch);
        let Ok([due, ready, _]) = accepted(booked.answer) else { return };
        inner.book = booked.book;
        drop(inner);
        if due == 1 {
            // Nobody may be listening, and then nobody has to know.
            let _ = self.notices.send(Notice { epoch, ready: ready as usize });
        }
    }

    pub(crate) fn unlock(&self, table: TableId, generation: u64) {
        let mut inner = self.lock();
        if inner.generation == generation {
            let handed = sys::unlock(&inner.manager, table.0);
            // Refused where the table was dropped meanwhile, which freed the lock.
            let _ = inner.adopt(handed);
        }
        drop(inner);
        self.freed.notify_all();
    }
}

impl VersionManager {
    /// Opens the store in a folder, and makes one where there is none. It says which rowset folders and delete vector
    /// files are not live, and leaves them; no file of a live one is looked for.
    pub fn open(path: impl AsRef<Path>) -> StorageResult<Opened> {
        sys::check()?;
        let folder = Folder::open(path.as_ref())?;
        let (inner, not_live) = Inner::load(&folder)?;
        Ok(Opened { manager: VersionManager::with(inner, Some(folder)), not_live })
    }

    /// An empty store without files: its manifest is in memory.
    pub fn new_mock() -> StorageResult<VersionManager> {
        sys::check()?;
        let (inner, _) = Inner::bootstrap(&[])?;
        Ok(VersionManager::with(inner, None))
    }

    fn with(inner: Inner, folder: Option<Folder>) -> VersionManager {
        let (tx, rx) = channel();
        let shared =
            Shared { next: Mutex::new(()), inner: Mutex::new(inner), freed: Condvar::new(), notices: tx, folder };
        VersionManager { shared: Arc::new(shared), notices: Mutex::new(Some(rx)) }
    }

    fn inner(&self) -> MutexGuard<'_, Inner> {
        self.shared.lock()
    }

    /// Reads the manifest again, as an opening does. Epochs start anew, so none may be pinned; locks are freed. It is
    /// the way on after [`StorageError::Poisoned`]. After [`Refusal::ManifestFull`] a
    /// [`checkpoint`](VersionManager::checkpoint) is enough.
    pub fn reopen(&self) -> StorageResult<NotLive> {
        let mut inner = self.inner();
        if inner.book.count > 0 {
            return Err(StorageError::Pinned { epochs: inner.book.count });
        }
        // Whatever fails now, the old file may be out of its place.
        inner.poisoned = true;
        let (mut anew, not_live) = match (&self.shared.folder, &inner.manifest) {
            (Some(folder), _) => Inner::load(folder)?,
            (None, Manifest::Memory(bytes)) => (Inner::bootstrap(bytes)?.0, NotLive::default()),
            (None, Manifest::File { .. }) => return Err(StorageError::Poisoned),
        };
        anew.generation = inner.generation + 1;
        *inner = anew;
        drop(inner);
        self.shared.freed.notify_all();
        Ok(not_live)
    }

    /// Replaces the manifest by a short one of what the current epoch shows, and returns its length, at most 18,625
    /// bytes. Epochs, pins, locks, drawn ids and deletions that wait go on. It is the way on after
    /// [`Refusal::ManifestFull`]: any commit has room after it.
    ///
    /// Where the new manifest cannot be written, the store goes on with the old one. Where it cannot be put in the old
    /// one's place, either may stand, and every change is refused with [`StorageError::Poisoned`] until a reopen.
    pub fn checkpoint(&self) -> StorageResult<usize> {
        let mut inner = self.inner();
        inner.may_change()?;
        let mut out = vec![0; LONGEST_REWRITTEN];
        let handed = sys::checkpoint(&inner.manager, &mut out);
        inner.replace(handed, &out, self.shared.folder.as_ref())
    }

    /// The notices of due vacuums, for the one who asks first.
    pub fn take_notices(&self) -> Option<Receiver<Notice>> {
        guard(&self.notices).take()
    }

    // One of the calls that append to the manifest.
    fn change(
        &self,
        room: usize,
        call: impl FnOnce(&sys::Manager, &mut [u8]) -> sys::Handed,
    ) -> StorageResult<[u64; 3]> {
        let mut inner = self.inner();
        inner.may_change()?;
        let mut out = vec![0; room];
        let handed = call(&inner.manager, &mut out);
        let values = inner.land(handed, &out)?;
        drop(inner);
        // A table may have been dropped, and its lock freed.
        self.shared.freed.notify_all();
        Ok(values)
    }

    /// Commits changes and returns the new epoch. All of them are on disk then, or none has happened.
    ///
    /// Where the disk does not take all of it, as where it is full, the commit is not made
    /// ([`StorageError::NotCommitted`]) and the store goes on: the same commit may be made again when there is room. So with
    /// every call that commits. Where it is not known what is on disk ([`StorageError::Io`]), a reopen finds out.
    pub fn commit_changes(&self, ops: impl AsRef<[EpochOp]>) -> StorageResult<u32> {
        let lines = EpochOp::lines(ops.as_ref());
        // Where the frame would be longer than any manifest, 23 comes before 9.
        let room = (lines.len() + FRAME).min(LONGEST_MANIFEST);
        let values = self.change(room, |m, out| sys::commit(m, &lines, out))?;
        Ok(values[0] as u32)
    }

    /// Creates a table with the next id.
    pub fn create_table(&self, table_name: &str, shape: u32) -> StorageResult<TableId> {
        let name = table_name.as_bytes();
        let values = self.change(LONGEST_CREATE, |m, out| sys::create(m, shape, name, out))?;
        Ok(TableId(values[0] as u32))
    }

    /// Drops a table with its rowsets and delete vectors, and returns the new epoch.
    pub fn drop_table(&self, table_id: TableId) -> StorageResult<u32> {
        let values = self.change(LONGEST_TABLE_CHANGE, |m, out| sys::drop_table(m, table_id.0, out))?;
        Ok(values[0] as u32)
    }

    /// Commits a compaction: the new rowset, if there is one, in place of the taken ones, whose delete vectors go with
    /// them. It needs the table's lock. The taken ones rise.
    pub fn compact(&self, lock: &TableLock, new: Option<RowsetId>, taken: &[RowsetId]) -> StorageResult<u32> {
        let taken: Vec<u32> = taken.iter().map(|r| r.0).collect();
        let mut inner = self.inner();
        inner.may_change()?;
        if !lock.is_of(&self.shared, inner.generation) {
            return Err(StorageError::refused(Refusal::LockNotHeld));
        }
        let mut out = vec![0; LONGEST_TABLE_CHANGE];
        let table = lock.table_id().0;
        let handed = sys::compact(&inner.manager, table, new.map(|r| r.0), &taken, &mut out);
        Ok(inner.land(handed, &out)?[0] as u32)
    }

    /// Pins the current epoch: what it shows stays on disk until the version is dropped.
    pub fn pin(&self) -> StorageResult<Version> {
        let mut inner = self.inner();
        let snapshot = inner.snapshot()?;
        let booked = sys::pin(&inner.manager, &inner.book);
        let epoch = accepted(booked.answer)?[0] as u32;
        inner.book = booked.book;
        Ok(Version::new(epoch, snapshot, self.shared.clone()))
    }

    /// The rowsets that no pin shows any more, each told once: their folders may be removed.
    pub fn find_vacuum(&self) -> StorageResult<Vec<(TableId, RowsetId)>> {
        self.vacuum().map(|v| v.rowsets)
    }

    /// The same, with the delete vectors that are let go with them.
    pub fn vacuum(&self) -> StorageResult<Vacuumed> {
        let mut inner = self.inner();
        inner.may_change()?;
        let (mut tables, mut rowsets) = ([0; sys::MOST_HELD], [0; sys::MOST_HELD]);
        let handed = sys::vacuum(&inner.manager, &inner.book, &mut tables, &mut rowsets);
        let dvs = let_go(&inner.manager, &handed.manager);
        let count = inner.adopt(handed)?[0] as usize;
        let listed = tables.into_iter().zip(rowsets).take(count);
        Ok(Vacuumed { rowsets: listed.map(|(t, r)| (TableId(t), RowsetId(r))).collect(), dvs })
    }

    /// Takes a table's lock; refused by [`Refusal::LockHeld`] where somebody has it.
    pub fn lock_table(&self, table_id: TableId) -> StorageResult<TableLock> {
        self.lock_in(&mut self.inner(), table_id)
    }

    /// Takes a table's lock, and waits for it where somebody has it.
    pub fn lock_table_blocking(&self, table_id: TableId) -> StorageResult<TableLock> {
        let mut inner = self.inner();
        loop {
            match self.lock_in(&mut inner, table_id) {
                Err(e) if e.refusal() == Some(Refusal::LockHeld) => {}
                taken_or_refused => return taken_or_refused,
            }
            inner = self.shared.freed.wait(inner).unwrap_or_else(PoisonError::into_inner);
        }
    }

    fn lock_in(&self, inner: &mut Inner, table_id: TableId) -> StorageResult<TableLock> {
        inner.may_change()?;
        let handed = sys::lock(&inner.manager, table_id.0);
        inner.adopt(handed)?;
        Ok(TableLock::new(table_id, inner.generation, self.shared.clone()))
    }

    /// Which of the table's rowsets a compaction is to take, given the size of each, ascending by their ids: as many as
    /// have at most `target` together, from the lowest id on. None is answered where there is nothing to do: none fits, or
    /// one alone does and no delete vector that is shown now lies over it. Refused by [`Refusal::WrongCount`] where the
    /// table's rowsets are others by now.
    pub fn select(&self, table_id: TableId, target: u64, sizes: &[(RowsetId, u64)]) -> StorageResult<Vec<RowsetId>> {
        let numbers: Vec<u64> = sizes.iter().map(|(_, size)| *size).collect();
        let mut inner = self.inner();
        let mut out = [0; sys::MOST_HELD];
        let chosen = accepted(sys::select(&inner.manager, table_id.0, target, &numbers, &mut out))?[0] as usize;
        let snapshot = inner.snapshot()?;
        let shown = snapshot.get_rowsets_of(table_id).unwrap_or_default();
        if !shown.iter().eq(sizes.iter().map(|(rowset, _)| rowset)) {
            return Err(StorageError::refused(Refusal::WrongCount));
        }
        Ok(out[..chosen].iter().copied().map(RowsetId).collect())
    }

    /// Puts handles into one delete vector a rowset, ascending, with ids drawn for them.
    pub fn group_deletes(&self, handles: &[SecondaryRowHandler]) -> StorageResult<Vec<GroupedDeletes>> {
        let packed: Vec<u64> = handles.iter().map(|h| h.packed()).collect();
        let most = packed.len().min(MOST_RECORDS);
        let mut g = sys::Grouped {
            rowsets: vec![0; most],
            lengths: vec![0; most],
            counts: vec![0; most],
            files: vec![0; most * LONGEST_RECORD],
            rows: vec![0; most],
        };
        let mut inner = self.inner();
        inner.may_change()?;
        let handed = sys::group(&inner.manager, &packed, &mut g);
        let [made, first, _] = inner.adopt(handed)?;
        drop(inner);
        let (mut files, mut rows) = (&g.files[..], &g.rows[..]);
        let mut grouped = Vec::with_capacity(made as usize);
        for i in 0..made as usize {
            let file = front(&mut files, g.lengths[i]);
            let deletes = front(&mut rows, g.counts[i]);
            let vector = DeleteVector::of_ordered(VectorId(first + i as u64), RowsetId(g.rowsets[i]), deletes);
            grouped.push(GroupedDeletes { vector, file: file.to_vec() });
        }
        Ok(grouped)
    }

    /// Writes the files of grouped vectors, all on disk when it returns. To be done before the commit that adds them. A
    /// mock writes nothing.
    pub fn write_dvs(&self, table_id: TableId, grouped: &[GroupedDeletes]) -> StorageResult<()> {
        let Some(folder) = &self.shared.folder else { return Ok(()) };
        folder.write_dvs(grouped.iter().map(|g| {
            let vector = &g.vector;
            (self.dv_path(table_id, vector.rowset_id(), vector.dv_id()), &g.file[..])
        }))
    }

    /// Reads a vector's file.
    pub fn read_dv(&self, table_id: TableId, rowset_id: RowsetId, dv_id: VectorId) -> StorageResult<DeleteVector> {
        DeleteVector::open(dv_id, rowset_id, self.dv_path(table_id, rowset_id, dv_id))
    }

    /// The next rowset id.
    pub fn draw_rowset_id(&self) -> StorageResult<RowsetId> {
        let mut inner = self.inner();
        inner.may_change()?;
        let handed = sys::draw_rowset(&inner.manager);
        Ok(RowsetId(inner.adopt(handed)?[0] as u32))
    }

    /// The next delete vector id.
    pub fn draw_dv_id(&self) -> StorageResult<VectorId> {
        let mut inner = self.inner();
        inner.may_change()?;
        let handed = sys::draw_vector(&inner.manager);
        Ok(VectorId(inner.adopt(handed)?[0]))
    }

    /// The current epoch.
    pub fn epoch(&self) -> u32 {
        self.inner().manager.inner.epoch
    }

    /// What the current epoch shows, without a pin: a vacuum may let it go.
    pub fn snapshot(&self) -> StorageResult<Arc<Snapshot>> {
        self.inner().snapshot()
    }

    /// The live tables.
    pub fn tables(&self) -> StorageResult<Vec<Table>> {
        Ok(self.snapshot()?.tables().to_vec())
    }

    pub fn next_ids(&self) -> NextIds {
        let next = self.inner().manager.inner.next;
        NextIds { table: TableId(next.table), rowset: RowsetId(next.rowset), dv: VectorId(next.vector) }
    }

    /// The pinned epochs with their counts, ascending.
    pub fn pinned(&self) -> Vec<(u32, u16)> {
        let book = self.inner().book;
        book.items.iter().take(book.count).map(|pin| (pin.epoch, pin.count)).collect()
    }

    /// How long the manifest is. A commit that would take it past 65,536 bytes is refused by
    /// [`Refusal::ManifestFull`]; a [`checkpoint`](VersionManager::checkpoint) makes it short.
    pub fn manifest_len(&self) -> usize {
        self.inner().manager.inner.manifest
    }

    /// Whether it is unknown what the manifest holds, since an append could not be synced or the manifest not replaced: every
    /// change is then refused before a reopen.
    pub fn is_poisoned(&self) -> bool {
        self.inner().poisoned
    }

    /// The store's folder; empty for a mock.
    pub fn path(&self) -> &Path {
        self.shared.folder.as_ref().map_or(Path::new(""), Folder::path)
    }

    /// Where a rowset's folder stands.
    pub fn rowset_path(&self, table_id: TableId, rowset_id: RowsetId) -> PathBuf {
        self.path().join(files::rowset_name(table_id, rowset_id))
    }

    /// Where a delete vector's file stands.
    pub fn dv_path(&self, table_id: TableId, rowset_id: RowsetId, dv_id: VectorId) -> PathBuf {
        self.path().join(files::dv_name(table_id, rowset_id, dv_id))
    }
}

impl std::fmt::Debug for VersionManager {
    fn fmt(&self, f: &mut std::fmt::Formatter<'_>) -> std::fmt::Result {
        f.debug_struct("VersionManager").field("path", &self.path()).finish_non_exhaustive()
    }
}

fn held_dvs(manager: &sys::Manager) -> impl Iterator<Item = (TableId, RowsetId, VectorId)> + '_ {
    let v = &manager.inner.vectors;
    let held = v.count.min(sys::MOST_HELD);
    (0..held).map(|i| (TableId(v.tables[i]), RowsetId(v.rowsets[i]), VectorId(v.vectors[i])))
}

// Both lists ascend, and what is left is a part of what there was.
fn let_go(before: &sys::Manager, after: &sys::Manager) -> Vec<(TableId, RowsetId, VectorId)> {
    let mut left = held_dvs(after).peekable();
    held_dvs(before).filter(|dv| left.next_if_eq(dv).is_none()).collect()
}

fn front<'a, T>(run: &mut &'a [T], length: u32) -> &'a [T] {
    let (front, rest) = run.split_at((length as usize).min(run.len()));
    *run = rest;
    front
}
