use super::{ColumnIndex, DataValue, StatisticsGlobalAgg};

pub struct RowCountGlobalAgg;

impl RowCountGlobalAgg {
    pub fn create() -> Self {
        Self
    }
}

impl StatisticsGlobalAgg for RowCountGlobalAgg {
    fn apply_batch(&mut self, _: &ColumnIndex) {}

    fn get_output(&self) -> DataValue {
        DataValue::Int64(0)
    }
}
