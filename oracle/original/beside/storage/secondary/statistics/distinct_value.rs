use super::{ColumnIndex, DataValue, StatisticsGlobalAgg};

pub struct DistinctValueGlobalAgg;

impl DistinctValueGlobalAgg {
    pub fn create() -> Self {
        Self
    }
}

impl StatisticsGlobalAgg for DistinctValueGlobalAgg {
    fn apply_batch(&mut self, _: &ColumnIndex) {}

    fn get_output(&self) -> DataValue {
        DataValue::Int64(0)
    }
}
