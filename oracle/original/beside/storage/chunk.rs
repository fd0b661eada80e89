pub struct StorageChunk;

impl StorageChunk {
    pub fn to_data_chunk(self) -> crate::array::DataChunk {
        crate::array::DataChunk
    }
}

// The driver stands inside `secondary`, and storage/mod.rs hands on what this file has.
pub use super::secondary::drive;
