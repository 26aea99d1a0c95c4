//! bitpack.rs as published, and its probe.

include!(concat!(env!("FIB_SRC"), "bitpack.rs"));

pub mod probe {
    use crate::answer::{refusal, Answer};

    pub fn pack_indices(indices: &[u32], width: u8) -> Answer<Vec<u8>> {
        super::pack_indices(indices, width).map_err(refusal)
    }

    pub fn unpack_indices(bytes: &[u8], count: u64, width: u8) -> Answer<Vec<u32>> {
        super::unpack_indices(bytes, count as usize, width).map_err(refusal)
    }
}
