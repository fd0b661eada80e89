//! Commits, and calls that make one.
use super::follower::{Append, Follower};
use super::opening::{creates_a_live_id, next_table_of};
use super::read::{number, operations_of};
use super::verdict::Verdict::{self, *};
use super::verdict::{failed, said};
use crate::definitions::manifest::Operation::{self, *};
use crate::definitions::manifest::{Value, frame};
use crate::definitions::maps::{Outcome, *};
use crate::definitions::run::{self, Engine};
use crate::definitions::snapshot::{default, has_rowset};
use crate::definitions::numbers::wrapping32;
use crate::definitions::storage::apply_table;
use crate::definitions::version_manager::{change, changing, commit_changes, latest};

impl Follower {
    pub fn epoch(&self) -> u64 {
        self.engine.running.version.epoch
    }

    fn appended(&mut self, before: Vec<Value>, os: &[Operation]) -> u64 {
        self.append = Append::Frame(before, os.to_vec());
        self.read = None;
        self.epoch()
    }

    /// By the definitions, the catalog following. From the source: where the catalog is what fails, the commit stands.
    fn commits(&mut self, os: &[Operation]) -> Outcome<u64> {
        let Ok(engine) = run::commits(os, 0, 0, self.engine.clone()) else {
            if self.commits_alone(os) != Fails {
                self.catalog_follows(os);
            }
            return Fails;
        };
        let before = std::mem::replace(&mut self.engine, engine).running.manifest;
        self.next_table = self.next_table.max(next_table_of(os));
        Ok(self.appended(before, os))
    }

    /// The driver's catalog, up to the operation that fails.
    fn catalog_follows(&mut self, os: &[Operation]) {
        for o in os {
            let catalog = &mut self.engine.running.catalog;
            let Ok(next) = apply_table(o, catalog.clone()) else { return };
            *catalog = next;
            self.next_table = self.next_table.max(next_table_of(std::slice::from_ref(o)));
        }
    }

    /// `commit_changes` by itself, which leaves the catalog alone.
    fn commits_alone(&mut self, os: &[Operation]) -> Outcome<u64> {
        let Engine { running, torn, .. } = &mut self.engine;
        let Ok(version) = commit_changes(os, running.version.clone()) else {
            self.left_by_a_failure(os);
            return Fails;
        };
        let before = running.manifest.clone();
        running.version = version;
        running.manifest.extend(frame(os));
        *torn = running.manifest.clone();
        Ok(self.appended(before, os))
    }

    /// From the source: nothing is written, but what the operations before the failing one add is in the pools.
    fn left_by_a_failure(&mut self, os: &[Operation]) {
        let version = &mut self.engine.running.version;
        let mut reached = changing(latest(version), version.rowsets.clone(), version.dvs.clone(), vec![]);
        for o in os {
            let Ok(next) = change(o, reached.clone()) else { break };
            reached = next;
        }
        (version.rowsets, version.dvs) = (reached.rowsets, reached.dvs);
        self.append = Append::Unknown;
        self.read = None;
    }

    /// Whether the catalog is no longer the original's after these.
    fn is_lost_by(&mut self, os: &[Operation]) -> bool {
        self.lost |= creates_a_live_id(&self.engine.running.catalog, os);
        self.lost
    }

    pub fn commit(&mut self, words: &[&str], answer: &str) -> Verdict {
        let Some(os) = operations_of(words[1..].iter().copied()) else { return NotSpokenOf };
        if !self.literal && self.is_lost_by(&os) {
            return NotSpokenOf;
        }
        let outcome = match self.literal {
            true => self.commits_alone(&os),
            false => self.commits(&os),
        };
        said(and_then(outcome, |epoch| Ok(format!("committed,{epoch}"))), answer)
    }

    pub fn create(&mut self, words: &[&str], answer: &str) -> Verdict {
        let (Some(shape), Some(name)) = (number(words, 1), words.get(2)) else { return NotSpokenOf };
        let table = self.next_table;
        let os = run::create_operations(table.into(), shape, name);
        if self.is_lost_by(&os) {
            return NotSpokenOf;
        }
        let outcome = self.commits(&os);
        said(and_then(outcome, |epoch| Ok(format!("created,{table},{epoch}"))), answer)
    }

    /// From the source: `drop_table_inner` takes the table out of the catalog first, and stops there if it is not in it.
    pub fn drop_table(&mut self, words: &[&str], answer: &str) -> Verdict {
        let Some(table) = number(words, 1) else { return NotSpokenOf };
        if apply_table(&DropTable(table), self.engine.running.catalog.clone()) == Fails {
            self.append = Append::Unknown;
            self.read = None;
            return said(Fails, answer);
        }
        let os = match self.literal || self.own_reading {
            true => self.dropped_by_the_original(table),
            false => run::drop_operations(table, &self.now()),
        };
        said(and_then(self.commits(&os), |epoch| Ok(format!("dropped,{epoch}"))), answer)
    }

    /// From the source: each rowset with the vectors over it. A vector without its rowset stays.
    fn dropped_by_the_original(&self, table: u64) -> Vec<Operation> {
        let now = self.now();
        let stays = |o: &Operation| matches!(*o, DeleteVector(t, r, _) if !has_rowset(t, r, &now));
        run::drop_operations(table, &now).into_iter().filter(|o| !stays(o)).collect()
    }

    pub fn compact(&mut self, words: &[&str], answer: &str) -> Verdict {
        let Some(table) = number(words, 1) else { return NotSpokenOf };
        let (new, taken) = (number(words, 2), (3..words.len()).filter_map(|i| number(words, i)));
        let taken: Vec<u64> = taken.collect();
        if self.literal {
            self.compacted_by_the_original(table, new, &taken, answer);
            return NotSpokenOf;
        }
        let outcome = self.commits(&run::compact_operations(table, new, &taken, &self.now()));
        said(and_then(outcome, |epoch| Ok(format!("compacted,{epoch}"))), answer)
    }

    /// From the source: the compactor leaves vectors and makes no commit for fewer than two rowsets. The driver lets
    /// it draw the id.
    fn compacted_by_the_original(&mut self, table: u64, new: Option<u64>, taken: &[u64], answer: &str) {
        if failed(answer) {
            self.lost = true;
            return;
        }
        let now = self.now();
        let live = self.engine.running.catalog.iter().any(|t| t.id == table);
        let selected: Vec<u64> = taken.iter().copied().filter(|r| has_rowset(table, *r, &now)).collect();
        let mut next = new.unwrap_or(0);
        if live && selected.len() > 1 {
            self.commits_alone(&run::compact_operations(table, new, &selected, &default()));
            next = wrapping32(next + u64::from(new.is_some()));
        }
        let ids = &mut self.engine.running.next;
        ids.rowset = ids.rowset.max(next);
        self.append = Append::Unknown;
        self.read = None;
    }
}
