//! In place of the comparison's driver; its reader and writer of lines is used here too.
use crate::catalog::ColumnDesc;
use crate::storage::secondary::*;
use crate::types::DataType;

pub mod drive;
mod lines;

/// The schema of all tables; 0 is the system's.
const SCHEMA: SchemaId = 1;

fn table_ref(table_id: u32) -> TableRefId {
    TableRefId { schema_id: SCHEMA, table_id }
}

fn shape(shape: u32) -> Vec<ColumnCatalog> {
    vec![ColumnCatalog::new(shape, ColumnDesc::new("shape", DataType::Shape, false))]
}
