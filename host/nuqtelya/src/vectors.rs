//! Vectors: their mean squared error, and rotation by a matrix.

use crate::call::{call, call_checked, Real, Whole};
use crate::Refusal;

extern "C" {
    // The error in real[0].
    fn fib_mse(left: *const f32, left_len: usize, right: *const f32, right_len: usize, whole: Whole, real: Real)
        -> u32;
    fn fib_apply(
        dim: u64,
        matrix: *const f64,
        matrix_len: usize,
        input: *const f64,
        input_len: usize,
        output: *mut f64,
        output_len: usize,
        whole: Whole,
        real: Real,
    ) -> u32;
    fn fib_apply_inverse(
        dim: u64,
        matrix: *const f64,
        matrix_len: usize,
        input: *const f64,
        input_len: usize,
        output: *mut f64,
        output_len: usize,
        whole: Whole,
        real: Real,
    ) -> u32;
}

/// The mean squared error of two vectors of one length.
pub fn mse(left: &[f32], right: &[f32]) -> Result<f64, Refusal> {
    let (_, real) = call((0, 1), |whole, real| unsafe {
        fib_mse(left.as_ptr(), left.len(), right.as_ptr(), right.len(), whole, real)
    })?;
    Ok(real[0])
}

/// The product of a matrix of d × d values, stored row by row, and d values.
pub fn apply(dim: u64, matrix: &[f64], input: &[f64], output: &mut [f64]) -> Result<(), Refusal> {
    call_checked(|whole, real| unsafe {
        fib_apply(
            dim,
            matrix.as_ptr(),
            matrix.len(),
            input.as_ptr(),
            input.len(),
            output.as_mut_ptr(),
            output.len(),
            whole,
            real,
        )
    })
}

/// The product of the matrix's transpose and d values.
pub fn apply_inverse(dim: u64, matrix: &[f64], input: &[f64], output: &mut [f64]) -> Result<(), Refusal> {
    call_checked(|whole, real| unsafe {
        fib_apply_inverse(
            dim,
            matrix.as_ptr(),
            matrix.len(),
            input.as_ptr(),
            input.len(),
            output.as_mut_ptr(),
            output.len(),
            whole,
            real,
        )
    })
}
