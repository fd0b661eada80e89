//! Ids, each of its own type, so that none is taken for another.
use std::fmt;

macro_rules! id {
    ($(#[$doc:meta])* $name:ident, $number:ty) => {
        $(#[$doc])*
        #[derive(Clone, Copy, Debug, PartialEq, Eq, PartialOrd, Ord, Hash)]
        #[repr(transparent)]
        pub struct $name(pub $number);

        impl fmt::Display for $name {
            fn fmt(&self, f: &mut fmt::Formatter<'_>) -> fmt::Result {
                self.0.fmt(f)
            }
        }
    };
}

id!(
    /// A table. Ids rise and come once in the life of a store.
    TableId,
    u32
);
id!(
    /// A rowset, drawn by [`draw_rowset_id`](crate::VersionManager::draw_rowset_id).
    RowsetId,
    u32
);
id!(
    /// A delete vector, drawn by [`draw_dv_id`](crate::VersionManager::draw_dv_id) or by grouping.
    VectorId,
    u64
);
id!(
    /// A row's number in its rowset.
    RowId,
    u32
);

/// A row: its rowset and its number there.
#[derive(Clone, Copy, Debug, PartialEq, Eq, PartialOrd, Ord, Hash)]
pub struct SecondaryRowHandler(pub RowsetId, pub RowId);

impl SecondaryRowHandler {
    pub fn rowset_id(&self) -> RowsetId {
        self.0
    }

    pub fn row_id(&self) -> RowId {
        self.1
    }

    /// The number that a column of handlers holds: the rowset above, the row in the lower 32 bits.
    pub fn as_i64(&self) -> i64 {
        self.packed() as i64
    }

    pub(crate) fn packed(&self) -> u64 {
        u64::from(self.0 .0) << 32 | u64::from(self.1 .0)
    }
}

impl From<i64> for SecondaryRowHandler {
    fn from(data: i64) -> Self {
        let bits = data as u64;
        Self(RowsetId((bits >> 32) as u32), RowId(bits as u32))
    }
}

impl From<SecondaryRowHandler> for i64 {
    fn from(handler: SecondaryRowHandler) -> Self {
        handler.as_i64()
    }
}
