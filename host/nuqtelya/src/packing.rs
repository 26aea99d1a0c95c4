//! Packed indices, low bit first.

use crate::call::{call_checked, Real, Whole};
use crate::Refusal;

extern "C" {
    fn fib_pack_indices(
        indices: *const u32,
        indices_len: usize,
        width: u8,
        output: *mut u8,
        output_len: usize,
        whole: Whole,
        real: Real,
    ) -> u32;
    fn fib_unpack_indices(
        bytes: *const u8,
        bytes_len: usize,
        count: u64,
        width: u8,
        output: *mut u32,
        output_len: usize,
        whole: Whole,
        real: Real,
    ) -> u32;
}

/// Packs indices of `width` bits into as many bytes as they take.
pub fn pack_indices(indices: &[u32], width: u8, output: &mut [u8]) -> Result<(), Refusal> {
    call_checked(|whole, real| unsafe {
        fib_pack_indices(indices.as_ptr(), indices.len(), width, output.as_mut_ptr(), output.len(), whole, real)
    })
}

/// Unpacks `count` indices of `width` bits into an output of that many.
pub fn unpack_indices(bytes: &[u8], count: u64, width: u8, output: &mut [u32]) -> Result<(), Refusal> {
    call_checked(|whole, real| unsafe {
        fib_unpack_indices(bytes.as_ptr(), bytes.len(), count, width, output.as_mut_ptr(), output.len(), whole, real)
    })
}
