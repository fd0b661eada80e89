//! An answer of the original beside what the definitions say.
use crate::definitions::maps::Outcome::{self, *};

pub enum Verdict {
    Same,
    /// What the definitions say instead.
    Differs(String),
    NotSpokenOf,
    /// A line that is answered by nothing.
    Unanswered,
}
use Verdict::*;

pub fn failed(answer: &str) -> bool {
    answer.starts_with("error,") || answer.starts_with("panic,")
}

fn same_if(same: bool, expected: impl FnOnce() -> String) -> Verdict {
    if same { Same } else { Differs(expected()) }
}

/// The call has to fail where the definitions fail, and else to answer just this.
pub fn said(expected: Outcome<String>, answer: &str) -> Verdict {
    match expected {
        Fails => same_if(failed(answer), || "fails".into()),
        Ok(expected) => same_if(answer == expected, || expected),
    }
}

/// The call has to answer one of these.
pub fn said_by_one(expected: impl IntoIterator<Item = String>, answer: &str) -> Verdict {
    let expected: Vec<String> = expected.into_iter().collect();
    same_if(expected.iter().any(|expected| expected == answer), || expected.join(" or "))
}

/// A list in its order: `NAME,COUNT,ITEM,..`.
pub fn in_order(name: &str, items: &[impl ToString]) -> String {
    let items = items.iter().map(|item| item.to_string());
    [name.to_string(), items.len().to_string()].into_iter().chain(items).collect::<Vec<_>>().join(",")
}

/// A list, in any order: `NAME,COUNT,ITEM,..`.
pub fn listed(name: &str, items: impl IntoIterator<Item = String>, answer: &str) -> Verdict {
    let mut items: Vec<String> = items.into_iter().collect();
    items.sort_unstable();
    let expected = [vec![name.to_string(), items.len().to_string()], items].concat();
    let mut found: Vec<&str> = answer.split(',').collect();
    let head = found.len().min(2);
    found[head..].sort_unstable();
    same_if(found == expected, || expected.join(","))
}

/// The first that differs.
pub fn all(verdicts: impl IntoIterator<Item = Verdict>) -> Verdict {
    verdicts.into_iter().find(|verdict| matches!(verdict, Differs(_))).unwrap_or(Same)
}

/// Numbers as an answer has them.
pub fn item(numbers: &[u64]) -> String {
    numbers.iter().map(u64::to_string).collect::<Vec<_>>().join(":")
}
