//! The steps of an append and a rewrite as they are. With the feature `faults` a test may stop or fail them.
use std::fs::File;
use std::io::{self, Write};

#[inline(always)]
pub(crate) fn step(_name: &'static str) -> io::Result<()> {
    Ok(())
}

#[inline(always)]
pub(crate) fn write(_name: &'static str, file: &mut File, bytes: &[u8]) -> io::Result<()> {
    file.write_all(bytes)
}
