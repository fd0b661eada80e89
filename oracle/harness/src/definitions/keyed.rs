//! Mirrors crates/lists/specs/Keyed.antt, as far as the definitions use it.

pub fn keep<A>(p: impl Fn(&A) -> bool, l: Vec<A>) -> Vec<A> {
    l.into_iter().filter(|x| p(x)).collect()
}

pub fn all_of<A>(p: impl Fn(&A) -> bool, l: &[A]) -> bool {
    l.iter().all(p)
}

pub fn any_of<A>(p: impl Fn(&A) -> bool, l: &[A]) -> bool {
    l.iter().any(p)
}

pub fn has<A, const N: usize>(key: impl Fn(&A) -> [u64; N], k: [u64; N], l: &[A]) -> bool {
    any_of(|x| key(x) == k, l)
}

pub fn without<A, const N: usize>(key: impl Fn(&A) -> [u64; N], k: [u64; N], l: Vec<A>) -> Vec<A> {
    keep(|y| key(y) != k, l)
}

/// x in front of a list, the definitions' `∷`.
pub fn cons<A>(x: A, l: Vec<A>) -> Vec<A> {
    let mut new = vec![x];
    new.extend(l);
    new
}

/// The definitions' `++`.
pub fn joined<A>(mut l: Vec<A>, more: Vec<A>) -> Vec<A> {
    l.extend(more);
    l
}

/// The entry that is its own key.
pub fn itself<const N: usize>(k: &[u64; N]) -> [u64; N] {
    *k
}

pub fn arranged<A, const N: usize>(key: impl Fn(&A) -> [u64; N], mut l: Vec<A>) -> Vec<A> {
    l.sort_by_key(key);
    l
}
