//! In place of the code made from rowset.proto, which is not among the files: the record as the specification has it,
//! one uint32 as field 1, and the two enums that are named.
pub mod rowset {
    #[derive(Clone, PartialEq, ::prost::Message)]
    pub struct DeleteRecord {
        #[prost(uint32, tag = "1")]
        pub row_id: u32,
    }

    pub mod block_statistics {
        #[derive(Clone, Copy)]
        pub enum BlockStatisticsType {
            RowCount,
            DistinctValue,
        }
    }

    pub mod block_checksum {
        #[derive(Clone, Copy)]
        pub enum ChecksumType {
            None,
            Crc32,
        }
    }
}
