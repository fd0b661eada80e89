//! Mirrors crates/risinglight/specs/Maps.antt.
use super::keyed::{any_of, cons, keep};

/// What a call ends with: a value, or an error or a panic.
#[derive(Clone, Debug, PartialEq)]
pub enum Outcome<A> {
    Fails,
    Ok(A),
}
pub use Outcome::{Fails, Ok};

pub fn and_then<A, B>(outcome: Outcome<A>, f: impl FnOnce(A) -> Outcome<B>) -> Outcome<B> {
    match outcome {
        Fails => Fails,
        Ok(a) => f(a),
    }
}

// `Option` is Rust's own here.

pub fn unwrap<A>(option: Option<A>) -> Outcome<A> {
    match option {
        None => Fails,
        Some(a) => Ok(a),
    }
}

pub fn unwrap_or<A>(d: A, option: Option<A>) -> A {
    match option {
        None => d,
        Some(a) => a,
    }
}

// `HashSet` of numbers: in what order they stand means nothing.

pub fn contains(x: u64, s: &[u64]) -> bool {
    any_of(|y| *y == x, s)
}

pub fn without_number(x: u64, s: Vec<u64>) -> Vec<u64> {
    keep(|y| *y != x, s)
}

pub fn with_number(x: u64, s: Vec<u64>) -> Vec<u64> {
    cons(x, without_number(x, s))
}

pub fn is_empty<A>(l: &[A]) -> bool {
    l.is_empty()
}

/// `HashMap` by a number: no two bindings have one key, and their order means nothing.
#[derive(Clone, Debug, PartialEq)]
pub struct Binding<X> {
    pub key: u64,
    pub value: X,
}

pub fn binding<X>(k: u64, v: X) -> Binding<X> {
    Binding { key: k, value: v }
}

pub fn get<X: Clone>(k: u64, m: &[Binding<X>]) -> Option<X> {
    m.iter().find(|b| b.key == k).map(|b| b.value.clone())
}

pub fn remove<X>(k: u64, m: Vec<Binding<X>>) -> Vec<Binding<X>> {
    keep(|b| b.key != k, m)
}

pub fn insert<X>(k: u64, v: X, m: Vec<Binding<X>>) -> Vec<Binding<X>> {
    cons(binding(k, v), remove(k, m))
}

pub fn keys<X>(m: &[Binding<X>]) -> Vec<u64> {
    m.iter().map(|b| b.key).collect()
}
