include!("delete_vector.original.rs");

impl DeleteVector {
    /// The rows in memory.
    pub fn rows(&self) -> &[u32] {
        &self.deletes
    }
}
