//! codec.rs as published, and its probe.

use crate::ext::*;

include!(concat!(env!("FIB_SRC"), "codec.rs"));

pub mod timed;

/// Named by the published text and defined in none of its files.
pub struct GpuStepReport {
    pub hadamard: bool,
    pub codebook_lookup: bool,
}

pub mod probe {
    use super::*;
    use crate::answer::{refusal, refused, Answer};
    use crate::binary16;
    use crate::codebook::probe::{codebook, located};
    use crate::profile::probe::Profile;
    use crate::standins::lend;

    /// A compact frame's parts.
    #[derive(Debug, Clone)]
    pub struct Frame {
        pub width: u8,
        pub count: u32,
        pub norm: Vec<u8>,
        pub indices: Vec<u8>,
    }

    pub fn encode_norm(norm: f64) -> Answer<Vec<u8>> {
        super::encode_norm(norm, &NormFormat::Fp16Paper).map_err(refusal)
    }

    pub fn decode_norm(bytes: &[u8]) -> Answer<f64> {
        super::decode_norm(bytes, &NormFormat::Fp16Paper).map_err(refusal)
    }

    /// The same of a norm of four bytes. Both texts by which the Rust refuses one are 10's.
    pub fn decode_norm_f32(bytes: &[u8]) -> Answer<f64> {
        super::decode_norm(bytes, &NormFormat::F32Reference).map_err(|_| refused(10, &[]))
    }

    /// Writes the length of a norm above 65,535 bytes cut off, unlike document 01.
    pub fn to_compact_bytes(width: u8, count: u32, norm: &[u8], indices: &[u8]) -> Vec<u8> {
        FibCodeV1 {
            schema_version: CODE_SCHEMA.into(),
            profile_digest: String::new(),
            codebook_digest: String::new(),
            rotation_digest: String::new(),
            ambient_dim: 0,
            block_dim: 0,
            norm_format: NormFormat::Fp16Paper,
            norm_payload: norm.to_vec(),
            wire_index_bits: width,
            block_count: count,
            indices: indices.to_vec(),
        }
        .to_compact_bytes()
    }

    /// Tests the frame, then the profile.
    pub fn from_compact_bytes(bytes: &[u8], profile: &Profile) -> Answer<Frame> {
        let code = FibCodeV1::from_compact_bytes(bytes, &profile.published()).map_err(refusal)?;
        Ok(Frame {
            width: code.wire_index_bits,
            count: code.block_count,
            norm: code.norm_payload,
            indices: code.indices,
        })
    }

    /// The compact bytes of an input of d values; `matrix` holds d × d.
    pub fn encode(input: &[f32], codewords: &[f32], matrix: &[f64], profile: &Profile) -> Answer<Vec<u8>> {
        let code = quantizer(codewords, matrix, profile)?.encode(input).map_err(refusal)?;
        Ok(code.to_compact_bytes())
    }

    /// A code as documents 01 and 02 have it.
    #[derive(Debug, Clone)]
    pub struct Encoded {
        pub frame: Vec<u8>,
        /// The blocks with another codeword as near as the one chosen.
        pub tied: u32,
        /// The norm that the published encoder wrote; none where it refused it.
        pub published_norm: Option<[u8; 2]>,
        /// The values of all blocks that the published encoder searched for.
        pub blocks: Vec<f32>,
    }

    /// Where the norm stands in a frame.
    pub const NORM: std::ops::Range<usize> = 11..13;

    /// The published encoder, but for the norm and refusal 10, in which document 02 (K3) replaces it: these are `binary16`'s.
    /// It searches all blocks before it codes the norm, so the indices are its own also where it refuses that.
    pub fn encode_rounded_once(input: &[f32], codewords: &[f32], matrix: &[f64], profile: &Profile) -> Answer<Encoded> {
        let (published, searches) = gpu_backend::watching(|| encode(input, codewords, matrix, profile));
        let (mut frame, published_norm) = match published {
            Ok(frame) => {
                let norm = [frame[NORM.start], frame[NORM.start + 1]];
                (frame, Some(norm))
            }
            Err((10, _)) => (frame_of(&searches, &[0; 2], profile)?, None),
            Err(refusal) => return Err(refusal),
        };
        frame[NORM].copy_from_slice(&binary16::norm(l2_norm(input))?.to_le_bytes());
        let tied = searches.iter().filter(|search| search.tied).count() as u32;
        let blocks = searches.into_iter().flat_map(|search| search.block).collect();
        Ok(Encoded { frame, tied, published_norm, blocks })
    }

    pub fn decode(bytes: &[u8], codewords: &[f32], matrix: &[f64], profile: &Profile) -> Answer<Vec<f32>> {
        let code = FibCodeV1::from_compact_bytes(bytes, &profile.published()).map_err(refusal)?;
        quantizer(codewords, matrix, profile)?.decode(&code).map_err(refusal)
    }

    // Norms of four bytes. The Rust has their format, F32Reference, in its functions for norms alone: its encoder, decoder
    // and reader of frames ask for the profile's digest, which refuses one that names it by 6. So here the profile names
    // binary16, the norm is written and read by these functions, and all else is the encoder's and the decoder's.

    /// The published encoder, but for the norm and refusal 10, which are those of four bytes.
    pub fn encode_f32(input: &[f32], codewords: &[f32], matrix: &[f64], profile: &Profile) -> Answer<Vec<u8>> {
        let (published, searches) = gpu_backend::watching(|| encode(input, codewords, matrix, profile));
        match published {
            Ok(_) | Err((10, _)) => {}
            Err(refusal) => return Err(refusal),
        }
        let norm = super::encode_norm(l2_norm(input), &NormFormat::F32Reference).map_err(refusal)?;
        frame_of(&searches, &norm, profile)
    }

    /// The steps of the published decoder, in its order.
    pub fn decode_f32(bytes: &[u8], codewords: &[f32], matrix: &[f64], profile: &Profile) -> Answer<Vec<f32>> {
        let code = FibCodeV1::from_compact_bytes(bytes, &profile.published()).map_err(refusal)?;
        let quantizer = quantizer(codewords, matrix, profile)?;
        quantizer.validate_code_header(&code).map_err(refusal)?;
        let indices =
            unpack_indices(&code.indices, code.block_count as usize, code.wire_index_bits).map_err(refusal)?;
        let mut rotated = Vec::new();
        for index in indices {
            rotated.extend(quantizer.codebook.codeword(index as usize).map_err(refusal)?);
        }
        let norm = decode_norm_f32(&code.norm_payload)?;
        let values = quantizer.rotation.apply_inverse(&rotated).map_err(refusal)?;
        let values: Vec<f32> = values.into_iter().map(|value| (value * norm) as f32).collect();
        check_finite(&values).map_err(refusal)?;
        Ok(values)
    }

    /// The frame of the indices that were found, with this norm.
    fn frame_of(searches: &[gpu_backend::Search], norm: &[u8], profile: &Profile) -> Answer<Vec<u8>> {
        let indices: Vec<u32> = searches.iter().map(|search| search.index).collect();
        let packed = pack_indices(&indices, profile.wire_index_bits).map_err(refusal)?;
        Ok(to_compact_bytes(profile.wire_index_bits, indices.len() as u32, norm, &packed))
    }

    fn quantizer(codewords: &[f32], matrix: &[f64], profile: &Profile) -> Answer<FibQuantizer> {
        // The rotation is made twice: once to check the codebook, once to be used.
        lend::matrices(vec![matrix.to_vec(); 2]);
        FibQuantizer::from_codebook(codebook(codewords, profile)).map_err(|error| located(codewords, error))
    }
}

#[cfg(test)]
mod tests {
    use super::probe::*;
    use crate::f16;
    use crate::inputs::{fitting, Random};
    use std::collections::BTreeSet;

    /// The steps of `decode_f32` are the published decoder's: that reads the frame with the same norm in two bytes alike.
    #[test]
    fn norms_of_four_bytes_read() {
        let mut random = Random::new(1);
        let mut met = BTreeSet::new();
        for _ in 0..20_000 {
            let size = random.pick(&[1.0, 1.0, 2f64.powi(107)]);
            let codewords: Vec<f32> = random.values(6).into_iter().map(|v| (v * size) as f32).collect();
            let matrix = random.values(36);
            let width = random.pick(&[2, 2, 2, 1]);
            let packed = [random.bits() as u8 & random.pick(&[0x2a, 0x3f, 0xff])];
            let half = random.pick(&[0x3c00, 0x7bff, 0x0001, 0x4248, 0x7c00, 0x0000]);
            let old = to_compact_bytes(width, 3, &f16(half).to_f32().to_le_bytes(), &packed);
            let new = to_compact_bytes(width, 3, &half.to_le_bytes(), &packed);
            let read = decode_f32(&old, &codewords, &matrix, &fitting(6, 2, 3));
            met.insert(read.as_ref().err().map_or(0, |(number, _)| *number));
            let published = decode(&new, &codewords, &matrix, &fitting(6, 2, 3));
            assert_eq!(format!("{read:?}"), format!("{published:?}"), "{old:?}");
        }
        assert_eq!(Vec::from_iter(met), [0, 9, 10, 11, 12, 17]);
    }

    /// `encode_f32` differs from the published encoder in the norm alone, and takes norms of any size.
    #[test]
    fn norms_of_four_bytes_written() {
        let unit: Vec<f64> = (0..16).map(|i| f64::from(i % 5 == 0)).collect();
        let (codewords, profile) = ([0.5, 0.5, -0.75, 0.25], fitting(4, 2, 2));
        let written = |input: [f32; 4]| encode_f32(&input, &codewords, &unit, &profile);
        let published = encode(&[3.0, 0.0, -4.0, 0.0], &codewords, &unit, &profile).unwrap();
        for scale in [1.0, 2f32.powi(-60), 2f32.powi(60)] {
            let norm = (5.0 * scale).to_le_bytes();
            let expected = [&published[..9], &[4, 0], &norm, &published[NORM.end..]].concat();
            assert_eq!(written([3.0 * scale, 0.0, -4.0 * scale, 0.0]).unwrap(), expected);
        }
        assert_eq!(written([f32::MAX; 4]).unwrap_err().0, 10);
        assert_eq!(written([0.0; 4]).unwrap_err().0, 13);
    }
}
