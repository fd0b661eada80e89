use super::ColumnIndex;

pub struct Column(ColumnIndex);

impl Column {
    pub fn index(&self) -> &ColumnIndex {
        &self.0
    }
}

pub enum ColumnSeekPosition {
    RowId(u32),
}

impl ColumnSeekPosition {
    pub fn start() -> Self {
        Self::RowId(0)
    }
}
