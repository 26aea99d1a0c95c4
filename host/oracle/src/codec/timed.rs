//! The published coder, made once, so that a measurement holds encoding and decoding alone.

use super::*;
use crate::codebook::probe::codebook;
use crate::profile::probe::Profile;
use crate::standins::lend;

pub struct Coder {
    quantizer: FibQuantizer,
    profile: FibQuantProfileV1,
}

impl Coder {
    pub fn new(codewords: &[f32], matrix: &[f64], profile: &Profile) -> Coder {
        // The rotation is made twice.
        lend::matrices(vec![matrix.to_vec(); 2]);
        let quantizer = FibQuantizer::from_codebook(codebook(codewords, profile)).expect("a quantizer");
        Coder { quantizer, profile: profile.published() }
    }

    pub fn encode(&self, input: &[f32]) -> Vec<u8> {
        self.quantizer.encode(input).expect("a code").to_compact_bytes()
    }

    pub fn decode(&self, bytes: &[u8]) -> Vec<f32> {
        let code = FibCodeV1::from_compact_bytes(bytes, &self.profile).expect("a code");
        self.quantizer.decode(&code).expect("a vector")
    }

    /// The frame's parts and its indices, without the vector.
    pub fn unpack(&self, bytes: &[u8]) -> Vec<u32> {
        let code = FibCodeV1::from_compact_bytes(bytes, &self.profile).expect("a code");
        unpack_indices(&code.indices, code.block_count as usize, code.wire_index_bits).expect("indices")
    }
}
