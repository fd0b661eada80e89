//! What is shown.
use std::rc::Rc;

use super::follower::Follower;
use super::read::number;
use super::verdict::Verdict::{self, *};
use super::verdict::{failed, item, listed, said};
use crate::definitions::agreement::{pairs_of, snapshot_at, vectors_of};
use crate::definitions::maps::Ok;
use crate::definitions::snapshot::{Snapshot, has_dv, has_rowset};
use crate::definitions::storage::Table;

impl Follower {
    pub fn now(&self) -> Rc<Snapshot> {
        snapshot_at(self.epoch(), &self.engine.running.version)
    }

    /// The current epoch or a pinned one; no other is asked of the original. A version that outlives its manager has
    /// the snapshot that it was pinned with.
    fn shown_at(&self, epoch: u64) -> Option<Rc<Snapshot>> {
        let last = self.versions.iter().rev().find(|version| version.epoch == epoch);
        match last {
            Some(version) if epoch != self.epoch() && version.opening != self.opening => {
                Some(version.snapshot.clone())
            }
            None if epoch != self.epoch() => None,
            _ => Some(snapshot_at(epoch, &self.engine.running.version)),
        }
    }

    pub fn show(&self, words: &[&str], answer: &str) -> Verdict {
        let Some(epoch) = number(words, 2) else { return NotSpokenOf };
        if words[1] == "tables" {
            return listed("tables", self.tables(), answer);
        }
        let Some(snapshot) = self.shown_at(epoch) else { return NotSpokenOf };
        match words[1] {
            "pairs" => shown_pairs(&snapshot, answer),
            _ => shown_vectors(&snapshot, answer),
        }
    }

    pub fn tables(&self) -> Vec<String> {
        let table = |t: &Table| format!("{}:{}:{}", t.id, t.shape, t.name);
        self.engine.running.catalog.iter().map(table).collect()
    }

    pub fn state(&self, answer: &str) -> Verdict {
        let next = self.engine.running.next;
        said(Ok(format!("state,{},{},{},{}", self.epoch(), self.next_table, next.rowset, next.dv)), answer)
    }
}

fn numbers(item: &str) -> Vec<u64> {
    item.split(':').map(|number| number.parse().unwrap()).collect()
}

/// The same pairs, and `has_rowset` says so of each.
pub fn shown_pairs(s: &Snapshot, answer: &str) -> Verdict {
    let has = |item: &str| matches!(numbers(item)[..], [t, r] if has_rowset(t, r, s));
    match failed(answer) || answer.split(',').skip(2).all(has) {
        true => listed("pairs", pairs_of(s).iter().map(|pair| item(pair)), answer),
        false => Differs("a pair that is not there".into()),
    }
}

/// The same vectors, and `has_dv` says so of each.
pub fn shown_vectors(s: &Snapshot, answer: &str) -> Verdict {
    let has = |item: &str| matches!(numbers(item)[..], [t, r, v] if has_dv(t, r, v, s));
    match failed(answer) || answer.split(',').skip(2).all(has) {
        true => listed("vectors", vectors_of(s).iter().map(|vector| item(vector)), answer),
        false => Differs("a vector that is not there".into()),
    }
}
