//! The specification's stand-in for catalog ids: a counter that starts at 0, and on a reopen the id of the `T` line. The
//! original's create has no field for an id, so it travels as the only entry of `ordered_pk_ids`; the shape is the id
//! of the only column.
use std::collections::BTreeMap;
use std::sync::atomic::{AtomicU32, Ordering::SeqCst};

use super::function::FunctionCatalog;
use super::*;
use crate::binder::IndexType;
use crate::planner::RecExpr;

#[derive(Clone)]
pub struct SchemaCatalog {
    id: SchemaId,
    pub tables: BTreeMap<TableId, Arc<TableCatalog>>,
    /// Shared by the copies that `get_schema_by_id` hands out.
    pub next_table_id: Arc<AtomicU32>,
}

impl SchemaCatalog {
    pub fn new(id: SchemaId, _name: String) -> Self {
        Self { id, tables: BTreeMap::new(), next_table_id: Arc::default() }
    }

    pub fn id(&self) -> SchemaId {
        self.id
    }

    pub fn get_table_by_id(&self, id: TableId) -> Option<Arc<TableCatalog>> {
        self.tables.get(&id).cloned()
    }

    pub fn get_table_by_name(&self, name: &str) -> Option<Arc<TableCatalog>> {
        self.tables.values().find(|t| t.name == name).cloned()
    }

    pub fn add_table(
        &mut self,
        name: String,
        columns: Vec<ColumnCatalog>,
        ordered_pk_ids: Vec<ColumnId>,
    ) -> Result<TableId, CatalogError> {
        if self.get_table_by_name(&name).is_some() {
            return Err(CatalogError::Duplicated("table", name));
        }
        let id = ordered_pk_ids[0];
        self.next_table_id.fetch_max(id + 1, SeqCst);
        self.tables.insert(id, Arc::new(TableCatalog { id, name, columns }));
        Ok(id)
    }

    pub fn delete_table(&mut self, id: TableId) {
        self.tables.remove(&id);
    }
}

/// Named by root.rs and called by nothing here.
impl SchemaCatalog {
    pub fn add_view(
        &mut self,
        _: String,
        _: Vec<ColumnCatalog>,
        _: RecExpr,
    ) -> Result<TableId, CatalogError> {
        unimplemented!()
    }

    pub fn add_index(
        &mut self,
        _: String,
        _: TableId,
        _: Vec<ColumnId>,
        _: &IndexType,
    ) -> Result<IndexId, CatalogError> {
        unimplemented!()
    }

    pub fn get_indexes_on_table(&self, _: TableId) -> Vec<IndexId> {
        unimplemented!()
    }

    pub fn get_index_by_id(&self, _: IndexId) -> Option<Arc<IndexCatalog>> {
        unimplemented!()
    }

    pub fn get_function_by_name(&self, _: &str) -> Option<Arc<FunctionCatalog>> {
        unimplemented!()
    }

    pub fn create_function(
        &mut self,
        _: String,
        _: Vec<DataType>,
        _: Vec<String>,
        _: DataType,
        _: String,
        _: String,
    ) {
        unimplemented!()
    }
}
