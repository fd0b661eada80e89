//! Rows are left out.
pub trait Array {}

pub enum ArrayImpl {
    Int64(Vec<i64>),
    Other,
}

pub struct DataChunk;

impl DataChunk {
    pub fn estimated_size(&self) -> usize {
        0
    }
}
