//! Pins, the vacuum, draws and locks.
use std::rc::Rc;

use super::follower::Follower;
use super::read::number;
use super::verdict::Verdict::{self, *};
use super::verdict::{item, listed, said};
use crate::definitions::maps::{Outcome, *};
use crate::definitions::run;
use crate::definitions::snapshot::Snapshot;
use crate::definitions::version_manager::with_counts;

/// A pin: its epoch and snapshot, and the opening whose manager made it.
pub struct Version {
    pub epoch: u64,
    pub snapshot: Rc<Snapshot>,
    pub opening: usize,
}

impl Follower {
    /// From the source: where it fails, the pin has been counted, and nobody can give it back.
    pub fn pin(&mut self, answer: &str) -> Verdict {
        match run::pins(self.engine.clone()) {
            Ok((epoch, snapshot, engine)) => {
                self.engine = engine;
                self.versions.push(Version { epoch, snapshot, opening: self.opening });
                said(Ok(format!("pinned,{epoch}")), answer)
            }
            Fails => {
                let version = self.engine.running.version.clone();
                let count = unwrap_or(0, get(version.epoch, &version.ref_cnt)) + 1;
                let counts = insert(version.epoch, count, version.ref_cnt.clone());
                self.engine.running.version = with_counts(counts, version);
                said(Fails, answer)
            }
        }
    }

    /// A version of an earlier manager unpins there, which no definition follows.
    pub fn unpin(&mut self, words: &[&str], answer: &str) -> Verdict {
        let Some(epoch) = number(words, 1) else { return NotSpokenOf };
        let Some(place) = self.versions.iter().position(|v| v.epoch == epoch) else { return NotSpokenOf };
        if self.versions.remove(place).opening != self.opening {
            return NotSpokenOf;
        }
        let notice = self.unpinned(epoch);
        let answered = answer.rsplit_once(',').map_or(answer, |parts| parts.0);
        said(and_then(notice, |notice| Ok(format!("unpinned,{}", notice as u8))), answered)
    }

    fn unpinned(&mut self, epoch: u64) -> Outcome<bool> {
        and_then(run::unpins(epoch, self.engine.clone()), |(notice, engine)| {
            self.engine = engine;
            Ok(notice)
        })
    }

    /// Before an opening: the file stays as it is, cut or not.
    pub fn unpin_all(&mut self) {
        let torn = self.engine.torn.clone();
        for version in std::mem::take(&mut self.versions) {
            if version.opening == self.opening && !self.lost {
                self.unpinned(version.epoch);
            }
        }
        self.engine.torn = torn;
    }

    pub fn vacuum(&mut self, answer: &str) -> Verdict {
        let (deletions, engine) = run::vacuums(self.engine.clone());
        self.engine = engine;
        listed("vacuumed", deletions.iter().map(|pair| item(pair)), answer)
    }

    pub fn draw(&mut self, rowset: bool, answer: &str) -> Verdict {
        let ids = self.engine.running.next;
        let (drawn, left) = match rowset {
            true => (ids.rowset, run::draw_rowset(ids)),
            false => (ids.dv, run::draw_vector(ids)),
        };
        self.engine = run::draws(left, self.engine.clone());
        said(Ok(format!("drawn,{drawn}")), answer)
    }

    /// A lock that was got or given back. Whether it was is said by no definition.
    pub fn rests(&mut self, answer: &str) -> Verdict {
        if ["locked", "unlocked"].contains(&answer) {
            self.engine = run::rests(self.engine.clone());
        }
        NotSpokenOf
    }
}
