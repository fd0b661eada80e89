//! Kinds of calls, and how often each comes: a list goes from one mood to another.

#[derive(Clone, Copy)]
pub enum Kind {
    Draw,
    Commit,
    LargeCommit,
    BadCommit,
    ManyPins,
    Pin,
    Unpin,
    Vacuum,
    Show,
    Reopen,
    Cut,
    Stale,
    Write,
    Encode,
    Decode,
    Mask,
    Scan,
    Told,
    Nonsense,
    Fresh,
    Create,
    Drop,
    Lock,
    Select,
    Compact,
    Group,
}
use Kind::*;

pub type Weights = &'static [(Kind, u64)];

#[rustfmt::skip]
const MIXED: Weights = &[
    (Draw, 20), (Commit, 30), (BadCommit, 10), (Pin, 8), (Unpin, 6), (Vacuum, 6), (Show, 8),
    (Reopen, 2), (Cut, 4), (Stale, 2), (Encode, 2), (Decode, 3), (Mask, 3), (Scan, 6), (Told, 2),
    (Nonsense, 1), (Create, 4), (Drop, 2), (Lock, 4), (Select, 6), (Compact, 6), (Group, 6),
];

#[rustfmt::skip]
const PINS: Weights = &[
    (ManyPins, 1), (Draw, 12), (Commit, 30), (Pin, 30), (Unpin, 12), (Vacuum, 8), (Show, 8), (BadCommit, 2), (Scan, 4),
    (Drop, 2), (Compact, 6), (Lock, 3), (Create, 2),
];

#[rustfmt::skip]
const RESTARTS: Weights = &[
    (Draw, 10), (Commit, 20), (Reopen, 8), (Cut, 20), (Stale, 10), (Write, 10), (Pin, 4), (Vacuum, 4),
    (Show, 4), (Told, 4), (Scan, 4), (Create, 4), (Drop, 3), (Compact, 6), (Lock, 3), (Group, 3),
];

#[rustfmt::skip]
const LARGE: Weights = &[
    (LargeCommit, 30), (Commit, 8), (Draw, 2), (Vacuum, 20), (Pin, 2), (Unpin, 3), (Drop, 2), (Show, 6),
    (BadCommit, 4), (Cut, 1), (Create, 3), (Compact, 6), (Lock, 2), (Select, 6),
];

#[rustfmt::skip]
const VECTORS: Weights = &[
    (Draw, 14), (Commit, 20), (Group, 20), (Scan, 20), (Mask, 8), (Encode, 6), (Decode, 8), (Pin, 4),
    (Unpin, 4), (Vacuum, 3), (Reopen, 2), (Cut, 2), (Compact, 4), (Lock, 2),
];

#[rustfmt::skip]
const MANIFESTS: Weights = &[
    (Write, 30), (Stale, 6), (Commit, 20), (Draw, 8), (Cut, 8), (Show, 6), (Told, 4), (Pin, 4), (Vacuum, 4),
    (Fresh, 1), (Drop, 2), (Scan, 3),
];

pub const MOODS: &[Weights] = &[MIXED, MIXED, PINS, RESTARTS, LARGE, LARGE, VECTORS, MANIFESTS];
