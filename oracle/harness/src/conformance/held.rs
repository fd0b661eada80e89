//! The driver's looks at all that the original holds.
use super::follower::Follower;
use super::shown::{shown_pairs, shown_vectors};
use super::verdict::{Verdict, all, item, listed, said};
use crate::definitions::agreement::deletions_in;
use crate::definitions::maps::*;

fn section<'a>(answer: &'a str, name: &str) -> &'a str {
    let named = |section: &&str| section.split(',').next() == Some(name);
    answer.split(' ').find(named).unwrap_or("")
}

fn numbers(section: &str) -> Vec<u64> {
    section.split(',').skip(1).filter_map(|number| number.parse().ok()).collect()
}

impl Follower {
    pub fn held(&mut self, answer: &str) -> Verdict {
        self.take_raised(&numbers(section(answer, "next")));
        let of = |name: &str| section(answer, name);
        let (version, next) = (&self.engine.running.version, self.engine.running.next);
        let opened = format!("opened,{},{}", self.opened_with.rowset, self.opened_with.dv);
        all([
            said(Ok(format!("epoch,{}", self.epoch())), of("epoch")),
            listed("tables", self.tables(), of("tables")),
            shown_pairs(&self.now(), of("pairs")),
            shown_vectors(&self.now(), of("vectors")),
            self.pins(of("pins")),
            self.waiting(of("waiting")),
            listed("rowsets", version.rowsets.iter().map(|pair| item(pair)), of("rowsets")),
            listed("dvs", version.dvs.iter().map(|pair| item(pair)), of("dvs")),
            said(Ok(format!("next,{},{},{}", self.next_table, next.rowset, next.dv)), of("next")),
            said(Ok(opened), of("opened")),
        ])
    }

    /// After an opening that is not literal the driver raises the next ids to what the port's `N` line says: the
    /// original has no place for them.
    fn take_raised(&mut self, next: &[u64]) {
        let (true, [table, rowset, vector]) = (self.raised, next) else { return };
        let own = &mut self.engine.running.next;
        own.rowset = own.rowset.max(*rowset);
        own.dv = own.dv.max(*vector);
        self.next_table = self.next_table.max(*table as u32);
        self.raised = false;
    }

    pub fn pins(&self, answer: &str) -> Verdict {
        let counts = self.engine.running.version.ref_cnt.iter().map(|b| item(&[b.key, b.value]));
        listed("pins", counts, answer)
    }

    pub fn waiting(&self, answer: &str) -> Verdict {
        let waiting = deletions_in(&self.engine.running.version.rowset_deletion_to_apply);
        listed("waiting", waiting.iter().map(|deletion| item(deletion)), answer)
    }
}
