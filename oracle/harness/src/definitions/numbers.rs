//! Mirrors crates/risinglight/specs/Numbers.antt: `u64` and `u32` as a release build counts with them. What is about to wrap comes
//! as a `u128`, so that nothing has wrapped before.

/// A sum that passes 64 bits begins anew.
pub fn wrapping(n: u128) -> u64 {
    (n % 18_446_744_073_709_551_616) as u64
}

/// And one that passes 32.
pub fn wrapping32(n: u64) -> u64 {
    n % 4_294_967_296
}
