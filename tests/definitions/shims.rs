//! What the sources name of files that are not read here. Only the size of the index block is called by the list.

pub mod chunked_read {
    #[derive(Debug, Clone, PartialEq, Eq)]
    pub struct ChunkInfo {
        pub chunk_size: u32,
        pub filter_mask: u32,
        pub offsets: Vec<u64>,
        pub address: u64,
    }
}

pub mod chunked_write {
    use crate::extensible_array::{DataBlockGeom, SuperBlockGeom};

    pub(crate) fn aeib_size(o: u8, inline: usize, element: usize, direct: usize, supers: usize) -> usize {
        10 + o as usize + inline * element + (direct + supers) * o as usize
    }

    pub(crate) fn eadb_size(_: DataBlockGeom, _: usize, _: u8, _: usize) -> u64 {
        unreachable!()
    }

    pub(crate) fn aesb_size(_: SuperBlockGeom, _: u8, _: usize) -> u64 {
        unreachable!()
    }
}

pub mod address {
    use crate::error::FormatError;

    #[derive(Debug, Clone, Copy, PartialEq, Eq)]
    pub(crate) struct BaseAddress;

    impl BaseAddress {
        pub(crate) fn get(self) -> u64 {
            0
        }
        pub(crate) fn is_zero(self) -> bool {
            true
        }
        pub(crate) fn absolute(self, offset: u64) -> Result<u64, FormatError> {
            Ok(offset)
        }
    }
}

pub mod message_type {
    #[derive(Debug)]
    pub struct MessageType;

    impl core::fmt::Display for MessageType {
        fn fmt(&self, f: &mut core::fmt::Formatter<'_>) -> core::fmt::Result {
            f.write_str("message")
        }
    }
}
