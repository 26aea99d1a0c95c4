//! Profiles, and the numbers worked out from them.

use crate::call::{call, call_checked, fits, profile_export, with_profile, Real, Whole};
use crate::Refusal;

/// The schema and the rotation algorithm that a profile must name.
pub const PROFILE_SCHEMA: &[u8] = b"fib_quant_profile_v1";
pub const ROTATION_ALGORITHM: &[u8] = b"qr-gaussian-chacha8-sign-corrected-v1";

/// Norms of two bytes: the only norm format that is accepted.
pub const NORM_FP16: u8 = 0;
/// The only source mode that is accepted.
pub const SOURCE_SPHERICAL_BETA: u8 = 0;
/// An empty cell is filled by splitting the cell of largest distortion.
pub const SPLIT_HIGHEST_DISTORTION: u8 = 0;
/// An empty cell refuses the training (14).
pub const FAIL_CLOSED: u8 = 1;

/// The settings of a codebook, its training and its codes. A choice is its place in fib-quant's declaration, from 0.
#[derive(Debug, Clone, Copy, PartialEq)]
pub struct Profile<'a> {
    pub schema: &'a [u8],
    /// d: values in a vector.
    pub ambient_dim: u32,
    /// k: values in a block.
    pub block_dim: u32,
    /// N: codewords.
    pub codebook_size: u32,
    /// log2 of N, which the checks take from the caller.
    pub log2: f64,
    pub paper_rate: f64,
    pub wire_index_bits: u8,
    pub wire_rate: f64,
    pub norm_format: u8,
    pub rotation_seed: u64,
    pub rotation_algorithm: &'a [u8],
    pub codebook_seed: u64,
    pub source_mode: u8,
    pub radius_method: u8,
    pub direction_method: u8,
    /// R
    pub restarts: u32,
    /// I: rounds in a restart.
    pub iterations: u32,
    /// S
    pub training_samples: u32,
    pub empty_cell_policy: u8,
}

profile_export!(fib_validate_profile());

extern "C" {
    // The result in whole[0].
    fn fib_wire_index_bits(codebook_size: u64, whole: Whole, real: Real) -> u32;
    fn fib_block_count(ambient_dim: u32, block_dim: u32, whole: Whole, real: Real) -> u32;
    fn fib_default_training_samples(codebook_size: u64, whole: Whole, real: Real) -> u32;
    // The rates in `real`, the other fields in `fields`; a refusal leaves them as they were.
    fn fib_paper_default(
        ambient_dim: u64,
        block_dim: u64,
        codebook_size: u64,
        log2: f64,
        seed: u64,
        fields: &mut [u64; 14],
        whole: Whole,
        real: Real,
    ) -> u32;
}

impl Profile<'static> {
    /// The paper's default for d, k and N.
    pub fn paper_default(ambient_dim: u64, block_dim: u64, codebook_size: u64, seed: u64) -> Result<Self, Refusal> {
        Profile::paper_default_with(ambient_dim, block_dim, codebook_size, (codebook_size as f64).log2(), seed)
    }

    /// The same with another log2 of N.
    pub fn paper_default_with(
        ambient_dim: u64,
        block_dim: u64,
        codebook_size: u64,
        log2: f64,
        seed: u64,
    ) -> Result<Self, Refusal> {
        let mut fields = [u64::MAX; 14];
        let answer = call((0, 2), |whole, real| unsafe {
            fib_paper_default(ambient_dim, block_dim, codebook_size, log2, seed, &mut fields, whole, real)
        });
        if answer.is_err() && fields != [u64::MAX; 14] {
            return Err(Refusal::FOREIGN);
        }
        let (_, rates) = answer?;
        Ok(Profile {
            schema: PROFILE_SCHEMA,
            ambient_dim: fits(fields[0])?,
            block_dim: fits(fields[1])?,
            codebook_size: fits(fields[2])?,
            log2,
            paper_rate: rates[0],
            wire_index_bits: fits(fields[3])?,
            wire_rate: rates[1],
            norm_format: fits(fields[4])?,
            rotation_seed: fields[5],
            rotation_algorithm: ROTATION_ALGORITHM,
            codebook_seed: fields[6],
            source_mode: fits(fields[7])?,
            radius_method: fits(fields[8])?,
            direction_method: fits(fields[9])?,
            restarts: fits(fields[10])?,
            iterations: fits(fields[11])?,
            training_samples: fits(fields[12])?,
            empty_cell_policy: fits(fields[13])?,
        })
    }
}

impl Profile<'_> {
    /// All checks of a profile.
    pub fn validate(&self) -> Result<(), Refusal> {
        call_checked(|whole, real| unsafe { with_profile!(fib_validate_profile(self; whole, real)) })
    }

    /// The blocks of a vector: d / k.
    pub fn block_count(&self) -> Result<u32, Refusal> {
        block_count(self.ambient_dim, self.block_dim)
    }
}

/// The bits of an index into N codewords.
pub fn wire_index_bits(codebook_size: u64) -> Result<u8, Refusal> {
    let (whole, _) = call((1, 0), |whole, real| unsafe { fib_wire_index_bits(codebook_size, whole, real) })?;
    fits(whole[0])
}

/// d / k; k = 0 is refused by 2.
pub fn block_count(ambient_dim: u32, block_dim: u32) -> Result<u32, Refusal> {
    let (whole, _) = call((1, 0), |whole, real| unsafe { fib_block_count(ambient_dim, block_dim, whole, real) })?;
    fits(whole[0])
}

/// The number of samples that the default profile asks for.
pub fn default_training_samples(codebook_size: u64) -> Result<u32, Refusal> {
    let (whole, _) = call((1, 0), |whole, real| unsafe { fib_default_training_samples(codebook_size, whole, real) })?;
    fits(whole[0])
}
