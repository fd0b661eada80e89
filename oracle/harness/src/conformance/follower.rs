//! The mirror beside the driver, line by line. The definitions say what a call does and where it fails; what a failed
//! call leaves done, and what orders for the driver do, is followed here.
use super::beside;
use super::read::File;
use super::verdict::Verdict::{self, *};
use super::verdict::{failed, said};
use super::versions::Version;
use crate::definitions::manifest::{Operation, Value};
use crate::definitions::maps::Ok;
use crate::definitions::run::{self, Engine};
use crate::definitions::storage::{NextId, next_id};

/// What was appended last, for `cut`.
#[derive(Default)]
pub enum Append {
    #[default]
    Nothing,
    /// What stood before it, and its operations.
    Frame(Vec<Value>, Vec<Operation>),
    /// The driver has noted something else than what was written.
    Unknown,
}

pub struct Follower {
    pub engine: Engine,
    /// Whether `#! literal` was given, or `#! own`.
    pub literal: bool,
    pub own_reading: bool,
    /// Whether the original's maps walk ascending.
    pub ordered: bool,
    /// Whether the next mask is that of a shown rowset.
    pub scan: bool,
    /// The versions that the driver holds.
    pub versions: Vec<Version>,
    pub opening: usize,
    pub append: Append,
    /// The file that the last opening read.
    pub read: Option<Vec<Value>>,
    /// Whether the file is the one that the definitions say, with half a value behind it or not.
    pub file_is_known: bool,
    pub half: bool,
    /// The file as the driver shows it.
    pub found: Option<File>,
    /// The specification's counter of table ids, which stands in the driver's catalog.
    pub next_table: u32,
    /// What the last opening made of the next ids, and whether the driver may have raised them since.
    pub opened_with: NextId,
    pub raised: bool,
    /// Whether a short write or a transaction came, which no definition follows, up to the next opening.
    pub lost: bool,
    pub disk_is_short: bool,
    pub file_is_missing: bool,
}

impl Default for Follower {
    fn default() -> Self {
        Self {
            engine: run::started(),
            literal: false,
            own_reading: false,
            ordered: false,
            scan: false,
            versions: vec![],
            opening: 0,
            append: Append::Nothing,
            read: None,
            file_is_known: true,
            half: false,
            found: None,
            next_table: 0,
            opened_with: next_id(0, 0),
            raised: false,
            lost: false,
            disk_is_short: false,
            file_is_missing: false,
        }
    }
}

impl Follower {
    pub fn verdict(&mut self, line: &str, answer: &str) -> Verdict {
        let words: Vec<&str> = line.split(' ').filter(|word| !word.is_empty()).collect();
        let Some(word) = words.first() else { return Unanswered };
        match *word {
            "#!" => self.order(&words, answer),
            "cut" | "stale" | "write" | "room" | "report" => {
                self.host(&words);
                Unanswered
            }
            "reopen" => self.reopen("reopened", answer),
            "fresh" => self.fresh(answer),
            _ if word.starts_with('#') => Unanswered,
            "encode" => beside::encode(&words, answer),
            "decode" => beside::decode(&words, answer),
            "mask" => self.mask(&words, answer),
            _ if self.lost => NotSpokenOf,
            "commit" => self.commit(&words, answer),
            "create" => self.create(&words, answer),
            "drop" => self.drop_table(&words, answer),
            "compact" => self.compact(&words, answer),
            "pin" => self.pin(answer),
            "unpin" => self.unpin(&words, answer),
            "vacuum" => self.vacuum(answer),
            "draw" if words.len() > 1 => self.draw(words.get(1) == Some(&"rowset"), answer),
            "lock" | "unlock" => self.rests(answer),
            "select" => self.select(&words, answer),
            "group" => self.group(&words, answer),
            "show" => self.show(&words, answer),
            "state" => self.state(answer),
            _ => NotSpokenOf,
        }
    }

    fn order(&mut self, words: &[&str], answer: &str) -> Verdict {
        match words.get(1).copied().unwrap_or("") {
            "literal" => self.literal = true,
            "own" => self.own_reading = true,
            "scan" => self.scan = true,
            "lines" => return self.lines(answer),
            "vector" => return beside::vector(words, answer),
            "held" | "pins" | "waiting" if self.lost => return NotSpokenOf,
            "held" => return self.held(answer),
            "pins" => return self.pins(answer),
            "waiting" => return self.waiting(answer),
            "open" => return self.reopen("epoch,1", answer),
            "unpin" => self.unpin_all(),
            "disk" => {
                self.lost = true;
                self.disk_is_short = words.get(2) != Some(&"-");
            }
            "transaction" => {
                self.lost = true;
                return NotSpokenOf;
            }
            "unlink" => self.file_is_missing = true,
            _ => {}
        }
        Unanswered
    }

    /// A version that outlives its manager may panic when it is dropped, and then there is no fresh store.
    fn fresh(&mut self, answer: &str) -> Verdict {
        let outlives = self.versions.iter().any(|version| version.opening != self.opening);
        let lost = self.disk_is_short || outlives && failed(answer);
        let Self { literal, own_reading, ordered, disk_is_short, opening, .. } = *self;
        let opening = opening + 1;
        *self = Self { literal, own_reading, ordered, disk_is_short, lost, opening, ..Self::default() };
        if lost {
            return NotSpokenOf;
        }
        said(Ok("fresh".into()), answer)
    }
}
