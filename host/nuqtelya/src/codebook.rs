//! Codewords as they are stored.

use crate::call::{call_checked, Real, Whole};
use crate::Refusal;

extern "C" {
    fn fib_codeword(
        codewords: *const f32,
        codewords_len: usize,
        codebook_size: u64,
        block_dim: u64,
        index: u32,
        output: *mut f64,
        output_len: usize,
        whole: Whole,
        real: Real,
    ) -> u32;
    fn fib_check_codewords(
        codewords: *const f32,
        codewords_len: usize,
        codebook_size: u64,
        block_dim: u64,
        whole: Whole,
        real: Real,
    ) -> u32;
}

/// Codeword `index` of N codewords of k values, widened into an output of k.
pub fn codeword(
    codewords: &[f32],
    codebook_size: u64,
    block_dim: u64,
    index: u32,
    output: &mut [f64],
) -> Result<(), Refusal> {
    call_checked(|whole, real| unsafe {
        fib_codeword(
            codewords.as_ptr(),
            codewords.len(),
            codebook_size,
            block_dim,
            index,
            output.as_mut_ptr(),
            output.len(),
            whole,
            real,
        )
    })
}

/// Whether these are N codewords of k values, all finite.
pub fn check_codewords(codewords: &[f32], codebook_size: u64, block_dim: u64) -> Result<(), Refusal> {
    call_checked(|whole, real| unsafe {
        fib_check_codewords(codewords.as_ptr(), codewords.len(), codebook_size, block_dim, whole, real)
    })
}
