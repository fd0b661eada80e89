//! Calls beside the version manager: records, masks, selection and grouping.
use super::follower::Follower;
use super::read::{bits_of, bytes_of, handle_of, narrow_numbers, number, numbers};
use super::verdict::Verdict::{self, *};
use super::verdict::{in_order, said, said_by_one};
use crate::definitions::compactor::{Sized, get_rowsets_of, select, sized_as};
use crate::definitions::delete_vector::{apply_to, decode_all, new, open, write_all};
use crate::definitions::keyed::arranged;
use crate::definitions::maps::{Binding, Ok, and_then};
use crate::definitions::run;
use crate::definitions::transaction::{DeleteVector, Handle, dvs, split};
use crate::list::items;

/// Of more rowsets not every order is tried.
const MOST_ORDERED: usize = 6;

pub fn encode(words: &[&str], answer: &str) -> Verdict {
    let Some(rows) = narrow_numbers(&words[1..]) else { return NotSpokenOf };
    said(Ok(format!("encoded,{}", hex(&write_all(&rows)))), answer)
}

/// The rows as they stand in the file.
pub fn decode(words: &[&str], answer: &str) -> Verdict {
    let Some(bytes) = words.get(1).and_then(|word| bytes_of(word)) else { return NotSpokenOf };
    said(and_then(decode_all(&bytes), |rows| Ok(in_order("decoded", &rows))), answer)
}

/// The rows in memory.
pub fn vector(words: &[&str], answer: &str) -> Verdict {
    let Some(bytes) = words.get(2).and_then(|word| bytes_of(word)) else { return NotSpokenOf };
    said(and_then(open(&bytes), |rows| Ok(in_order("vector", &rows))), answer)
}

fn hex(bytes: &[u64]) -> String {
    let text: String = bytes.iter().map(|byte| format!("{byte:02x}")).collect();
    if text.is_empty() { "-".into() } else { text }
}

fn text_of(mask: &[bool]) -> String {
    let text: String = mask.iter().map(|bit| if *bit { '1' } else { '0' }).collect();
    if text.is_empty() { "-".into() } else { text }
}

/// All orders of the items; where they are told apart by nothing, also the same one again.
fn orders<A: Copy>(items: &[A]) -> Vec<Vec<A>> {
    let Some((first, others)) = items.split_first() else { return vec![vec![]] };
    let mut all = vec![];
    for order in orders(others) {
        for place in 0..items.len() {
            let mut order = order.clone();
            order.insert(place, *first);
            all.push(order);
        }
    }
    all
}

/// A vector as the driver shows it: `VECTOR:ROWSET:HEX:ROWS`.
fn shown(vector: &DeleteVector) -> String {
    let rows: Vec<String> = vector.deletes.iter().map(u64::to_string).collect();
    let file = hex(&write_all(&vector.records));
    format!("{}:{}:{file}:{}", vector.dv_id, vector.rowset_id, rows.join("+"))
}

impl Follower {
    /// A scan's vectors together have the rows that the line says. With `#! literal` they may have others.
    pub fn mask(&mut self, words: &[&str], answer: &str) -> Verdict {
        let scanned = std::mem::take(&mut self.scan);
        let bits = words.get(2).and_then(|word| bits_of(word));
        let (Some(offset), Some(bits)) = (number(words, 1), bits) else { return NotSpokenOf };
        let Some(rows) = narrow_numbers(&words[3..]) else { return NotSpokenOf };
        if scanned && self.literal || offset > u32::MAX.into() {
            return NotSpokenOf;
        }
        said(Ok(format!("masked,{}", text_of(&apply_to(&new(&rows), &bits, offset)))), answer)
    }

    /// In `ordered` the rowsets come ascending. In `plain` they come in some order, and where there are few each is tried.
    pub fn select(&self, words: &[&str], answer: &str) -> Verdict {
        let Some(numbers) = numbers(&words[1..]) else { return NotSpokenOf };
        let [table, target, sizes @ ..] = &numbers[..] else { return NotSpokenOf };
        let rowsets = arranged(|r| [*r], get_rowsets_of(*table, &self.now()));
        let rowsets: Vec<Sized> = rowsets.iter().zip(sizes).map(|(r, n)| sized_as(*r, *n)).collect();
        let orders = match self.ordered {
            true => vec![rowsets],
            false if rowsets.len() > MOST_ORDERED => return NotSpokenOf,
            false => orders(&rowsets),
        };
        said_by_one(orders.iter().map(|order| in_order("selected", &select(*target, order))), answer)
    }

    pub fn group(&mut self, words: &[&str], answer: &str) -> Verdict {
        let handles: Option<Vec<Handle>> = words[1..].iter().map(|word| handle_of(word)).collect();
        let Some(handles) = handles else { return NotSpokenOf };
        let ids = self.engine.running.next;
        let vectors = dvs(ids.dv, self.walked(split(&handles), answer));
        self.engine = run::draws(run::group(vectors.len() as u64, ids), self.engine.clone());
        let vectors = arranged(|vector| [vector.dv_id], vectors);
        said(Ok(in_order("grouped", &vectors.iter().map(shown).collect::<Vec<_>>())), answer)
    }

    /// The map in the order in which the original walks it: ascending, or in `plain` the one that the answer's ids say.
    fn walked(&self, mut map: Vec<Binding<Vec<u64>>>, answer: &str) -> Vec<Binding<Vec<u64>>> {
        let first = self.engine.running.next.dv;
        let told = items(answer);
        let number = |word: &str| word.parse::<u64>().unwrap_or(0);
        let drawn = |rowset: u64| {
            let vector = told.iter().find(|vector| vector.len() > 1 && number(vector[1]) == rowset);
            vector.map(|vector| number(vector[0]).wrapping_sub(first))
        };
        match self.ordered {
            true => map.sort_by_key(|b| b.key),
            false => map.sort_by_key(|b| drawn(b.key)),
        }
        map
    }
}
