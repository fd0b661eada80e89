use super::*;

pub struct TableCatalog {
    pub id: TableId,
    pub name: String,
    pub columns: Vec<ColumnCatalog>,
}

impl TableCatalog {
    pub fn id(&self) -> TableId {
        self.id
    }

    pub fn get_column_by_id(&self, id: ColumnId) -> Option<ColumnCatalog> {
        self.columns.iter().find(|c| c.id() == id).cloned()
    }
}
