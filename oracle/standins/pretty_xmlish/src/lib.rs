//! What catalog/column.rs names and nothing here calls.
use std::fmt::Display;
use std::marker::PhantomData;

pub struct Pretty<'a>(PhantomData<&'a ()>);

impl<'a> Pretty<'a> {
    pub fn display(_: &impl Display) -> Self {
        Pretty(PhantomData)
    }

    pub fn childless_record(_: &'a str, _: Vec<(&'a str, Pretty<'a>)>) -> Self {
        Pretty(PhantomData)
    }
}
