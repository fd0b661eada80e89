//! The operations of a commit, and their lines in the manifest.
use crate::ids::{RowsetId, TableId, VectorId};

#[derive(Clone, Debug, PartialEq, Eq)]
pub struct CreateTableEntry {
    /// The next table id.
    pub table_id: TableId,
    /// One number that stands for the table's columns.
    pub shape: u32,
    /// 1 to 32 bytes of a-z, 0-9 and `_`.
    pub table_name: String,
}

#[derive(Clone, Debug, PartialEq, Eq)]
pub struct DropTableEntry {
    pub table_id: TableId,
}

#[derive(Clone, Debug, PartialEq, Eq)]
pub struct AddRowSetEntry {
    pub table_id: TableId,
    pub rowset_id: RowsetId,
}

#[derive(Clone, Debug, PartialEq, Eq)]
pub struct DeleteRowsetEntry {
    pub table_id: TableId,
    pub rowset_id: RowsetId,
}

#[derive(Clone, Debug, PartialEq, Eq)]
pub struct AddDVEntry {
    pub table_id: TableId,
    pub dv_id: VectorId,
    pub rowset_id: RowsetId,
}

#[derive(Clone, Debug, PartialEq, Eq)]
pub struct DeleteDVEntry {
    pub table_id: TableId,
    pub dv_id: VectorId,
    pub rowset_id: RowsetId,
}

/// One operation of a commit.
#[derive(Clone, Debug, PartialEq, Eq)]
pub enum EpochOp {
    CreateTable(CreateTableEntry),
    DropTable(DropTableEntry),
    AddRowSet(AddRowSetEntry),
    DeleteRowSet(DeleteRowsetEntry),
    AddDV(AddDVEntry),
    DeleteDV(DeleteDVEntry),
}

impl EpochOp {
    pub fn create_table(table_id: TableId, shape: u32, table_name: impl Into<String>) -> EpochOp {
        EpochOp::CreateTable(CreateTableEntry { table_id, shape, table_name: table_name.into() })
    }

    pub fn drop_table(table_id: TableId) -> EpochOp {
        EpochOp::DropTable(DropTableEntry { table_id })
    }

    pub fn add_rowset(table_id: TableId, rowset_id: RowsetId) -> EpochOp {
        EpochOp::AddRowSet(AddRowSetEntry { table_id, rowset_id })
    }

    pub fn delete_rowset(table_id: TableId, rowset_id: RowsetId) -> EpochOp {
        EpochOp::DeleteRowSet(DeleteRowsetEntry { table_id, rowset_id })
    }

    pub fn add_dv(table_id: TableId, rowset_id: RowsetId, dv_id: VectorId) -> EpochOp {
        EpochOp::AddDV(AddDVEntry { table_id, dv_id, rowset_id })
    }

    pub fn delete_dv(table_id: TableId, rowset_id: RowsetId, dv_id: VectorId) -> EpochOp {
        EpochOp::DeleteDV(DeleteDVEntry { table_id, dv_id, rowset_id })
    }

    /// The operation's line in the manifest, without its newline.
    pub fn line(&self) -> String {
        let mut line = Vec::new();
        self.write_line(&mut line);
        String::from_utf8_lossy(&line).into_owned()
    }

    // A table name with a newline in it is left out: the line stays one, and is refused as one without a name.
    fn write_line(&self, out: &mut Vec<u8>) {
        match self {
            EpochOp::CreateTable(e) => {
                fields(out, b'T', &[e.table_id.0.into(), e.shape.into()]);
                out.push(b',');
                if !e.table_name.contains('\n') {
                    out.extend_from_slice(e.table_name.as_bytes());
                }
            }
            EpochOp::DropTable(e) => fields(out, b'X', &[e.table_id.0.into()]),
            EpochOp::AddRowSet(e) => fields(out, b'A', &[e.table_id.0.into(), e.rowset_id.0.into()]),
            EpochOp::DeleteRowSet(e) => fields(out, b'D', &[e.table_id.0.into(), e.rowset_id.0.into()]),
            EpochOp::AddDV(e) => fields(out, b'V', &[e.table_id.0.into(), e.rowset_id.0.into(), e.dv_id.0]),
            EpochOp::DeleteDV(e) => fields(out, b'W', &[e.table_id.0.into(), e.rowset_id.0.into(), e.dv_id.0]),
        }
    }

    pub(crate) fn lines(ops: &[EpochOp]) -> Vec<u8> {
        let mut lines = Vec::with_capacity(ops.len() * 16);
        for op in ops {
            op.write_line(&mut lines);
            lines.push(b'\n');
        }
        lines
    }
}

fn fields(out: &mut Vec<u8>, letter: u8, numbers: &[u64]) {
    out.push(letter);
    for n in numbers {
        out.push(b',');
        decimal(out, *n);
    }
}

fn decimal(out: &mut Vec<u8>, mut n: u64) {
    let mut digits = [0; 20];
    let mut at = digits.len();
    loop {
        at -= 1;
        digits[at] = b'0' + (n % 10) as u8;
        n /= 10;
        if n == 0 {
            break;
        }
    }
    out.extend_from_slice(&digits[at..]);
}
