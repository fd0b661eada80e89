//! What a call answers when it does not do what it was asked.
use std::fmt;
use std::io;
use std::path::{Path, PathBuf};

pub type StorageResult<T> = Result<T, StorageError>;

macro_rules! refusals {
    ($($number:literal $name:ident $says:literal,)*) => {
        /// Why the library refuses a call. A refusal changes nothing.
        #[derive(Clone, Copy, Debug, PartialEq, Eq, PartialOrd, Ord, Hash)]
        #[repr(u32)]
        pub enum Refusal {
            $(#[doc = $says] $name = $number,)*
        }

        impl Refusal {
            pub const ALL: [Refusal; 30] = [$(Refusal::$name,)*];

            pub fn from_number(number: u32) -> Option<Refusal> {
                match number {
                    $($number => Some(Refusal::$name),)*
                    _ => None,
                }
            }

            /// One sentence for people.
            pub fn sentence(self) -> &'static str {
                match self {
                    $(Refusal::$name => $says,)*
                }
            }
        }
    };
}

refusals! {
    1 ManifestTooLong "The manifest is longer than 65,536 bytes.",
    2 Malformed "A line or an argument is not well formed.",
    3 TableConflict "A table is created whose id or name is live, or one is dropped that is not there.",
    4 OverLimit "A frame leaves more than 16 tables, 256 rowsets or 256 delete vectors.",
    5 RowsetWithoutTable "The manifest ends with a rowset whose table is not there.",
    6 TooManyOperations "There are more than 600 operations in one frame or commit.",
    7 BadRecord "A record of a delete vector's file is not one that the writer makes.",
    8 WrongCount "There are more than 4,096 handles or records, or the sizes are not one for each rowset.",
    9 OutputTooShort "The room lent for the answer is too short.",
    10 PinAtEpochZero "Nothing has been committed yet that could be pinned.",
    11 TableNotLive "The table is not live.",
    12 PairNotShown "The rowset is not shown.",
    13 VectorNotShown "The delete vector is not shown.",
    14 IdNotDrawn "The id was never drawn, or is not the next table's.",
    15 NameTaken "A live table has the name.",
    16 StillHeld "The rowset or the delete vector's id is held, shown or waiting for a vacuum.",
    17 LeftBehind "A delete vector would be left without its rowset, or a rowset without its table.",
    18 PinsFull "The epoch has 65,535 pins.",
    19 PinnedEpochsFull "64 epochs are pinned.",
    20 EpochsFull "The last epoch has been reached.",
    21 TablesFull "There are 16 tables.",
    22 HeldFull "256 rowsets or 256 delete vectors are held, those that wait for a vacuum counted.",
    23 ManifestFull "The manifest would pass 65,536 bytes; a checkpoint makes it short again.",
    24 EpochNotPinned "The epoch is not pinned.",
    25 LockHeld "The table's lock is held.",
    26 IdsUsedUp "All ids of the kind are used up.",
    27 LockNotHeld "The table's lock is not held.",
    28 BadPinBook "The pin book is none that the library hands out.",
    29 BadManager "The manager is none that the library hands out.",
    31 NotReportable "There is no short write to report: all of the append landed, its epoch is pinned, or no commit came last.",
}

impl Refusal {
    pub fn number(self) -> u32 {
        self as u32
    }
}

impl fmt::Display for Refusal {
    fn fmt(&self, f: &mut fmt::Formatter<'_>) -> fmt::Result {
        f.write_str(self.sentence())
    }
}

/// Every way in which a call can fail.
#[derive(Debug)]
pub enum StorageError {
    /// Refused, with the place: a line from 1, an operation or a byte from 0, or 0 where there is none.
    Refused { refusal: Refusal, place: usize },
    /// A file operation failed. Of a commit it is not known then whether it landed, and every change is refused with
    /// [`Poisoned`](StorageError::Poisoned) until a reopen has found out.
    Io { what: &'static str, path: PathBuf, source: io::Error },
    /// The manifest took fewer bytes of a commit than it has, as on a full disk. The commit was not made and never will be;
    /// the store goes on as before it.
    NotCommitted { landed: usize, length: usize, path: PathBuf, source: io::Error },
    /// It is not known how much of an append landed, or whether the manifest was replaced: nothing is changed before a
    /// reopen.
    Poisoned,
    /// The store's lock file is held: by another process, by another manager, or by a pin or a table's lock that outlived its manager.
    InUse { path: PathBuf },
    /// The folder has rowsets, delete vectors or a JSON manifest, and no manifest that says which of them are live.
    NoManifest { path: PathBuf },
    /// The manifest has bytes and no line. An opening would take all of it for a torn tail and replace it by an empty store's.
    NotAManifest { path: PathBuf },
    /// A reopen in place while epochs are pinned.
    Pinned { epochs: usize },
    /// The archive that was linked does not lay out or number things as this crate does.
    Border { what: &'static str },
}

impl StorageError {
    pub(crate) fn io(what: &'static str, path: &Path) -> impl FnOnce(io::Error) -> StorageError {
        let path = path.to_path_buf();
        move |source| StorageError::Io { what, path, source }
    }

    pub(crate) fn refused(refusal: Refusal) -> StorageError {
        StorageError::Refused { refusal, place: 0 }
    }

    /// The refusal, if it is one.
    pub fn refusal(&self) -> Option<Refusal> {
        match self {
            StorageError::Refused { refusal, .. } => Some(*refusal),
            _ => None,
        }
    }

    /// The refusal's number, if it is one.
    pub fn number(&self) -> Option<u32> {
        self.refusal().map(Refusal::number)
    }
}

impl fmt::Display for StorageError {
    fn fmt(&self, f: &mut fmt::Formatter<'_>) -> fmt::Result {
        match self {
            StorageError::Refused { refusal, place } => {
                write!(f, "refused ({}, place {place}): {refusal}", refusal.number())
            }
            StorageError::Io { what, path, source } => {
                write!(f, "cannot {what} {}: {source}", path.display())
            }
            StorageError::NotCommitted { landed, length, path, source } => write!(
                f,
                "not committed: {landed} of {length} bytes could be appended to {}: {source}",
                path.display()
            ),
            StorageError::Poisoned => f.write_str(
                "the manifest could not be appended to or replaced; nothing is changed before the store is reopened",
            ),
            StorageError::InUse { path } => write!(f, "the store is in use: {} is locked", path.display()),
            StorageError::NoManifest { path } => write!(
                f,
                "{} holds rowsets, delete vectors or a JSON manifest, and no manifest: it is not opened as an empty store",
                path.display()
            ),
            StorageError::NotAManifest { path } => {
                write!(f, "no line ends in {}: it is no manifest, and is left as it is", path.display())
            }
            StorageError::Pinned { epochs } => {
                write!(f, "{epochs} epochs are pinned: a reopen would forget them")
            }
            StorageError::Border { what } => write!(f, "the archive does not fit this crate: {what}"),
        }
    }
}

impl std::error::Error for StorageError {
    fn source(&self) -> Option<&(dyn std::error::Error + 'static)> {
        match self {
            StorageError::Io { source, .. } | StorageError::NotCommitted { source, .. } => Some(source),
            _ => None,
        }
    }
}
