//! The definitions of crates/risinglight/specs, which state what the original does, once more in Rust: a file for each
//! file there, a function for each definition, under the same name (`-` and capitals become `_`). Numbers are `u64`
//! where those are natural, maps and sets are lists in which the order means nothing, and a function takes its
//! arguments by value, so that both texts can be held side by side. Nothing here is told by the original: what it
//! answers is compared with what these functions give (`conformance`).
//!
//! What is marked "from the source" is said by no definition, since no call that the port accepts comes there. It is
//! read off the original's own file.

pub mod agreement;
pub mod compactor;
pub mod delete_vector;
pub mod keyed;
pub mod manifest;
pub mod maps;
pub mod numbers;
pub mod run;
pub mod snapshot;
pub mod storage;
pub mod transaction;
pub mod version_manager;
