//! The standard library with a `HashMap` and a `HashSet` that walk ascending, which is one of the orders that the
//! real ones may take. The program `ordered` names this crate `std`, so that no file of the original is changed.
pub use ::std::*;

pub mod collections {
    pub use ::std::collections::*;
    pub use ::std::collections::{BTreeMap as HashMap, BTreeSet as HashSet};
}
