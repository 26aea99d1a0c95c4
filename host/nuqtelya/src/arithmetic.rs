//! Arithmetic on bits: conversions between formats, and the square root.

use crate::call::{call, fits, Real, Whole};
use crate::Refusal;

extern "C" {
    // The bits of the result in whole[0].
    fn fib_f64_to_f32(x: f64, whole: Whole, real: Real) -> u32;
    fn fib_f64_to_f16(x: f64, whole: Whole, real: Real) -> u32;
    fn fib_f16_to_f32(bits: u16, whole: Whole, real: Real) -> u32;
    // The root in real[0].
    fn fib_sqrt(x: f64, whole: Whole, real: Real) -> u32;
}

/// binary64 to binary32, to the nearest, ties to even.
pub fn f64_to_f32(x: f64) -> Result<f32, Refusal> {
    let (whole, _) = call((1, 0), |whole, real| unsafe { fib_f64_to_f32(x, whole, real) })?;
    fits(whole[0]).map(f32::from_bits)
}

/// binary64 to the bits of a binary16, likewise, in one rounding.
pub fn f64_to_f16(x: f64) -> Result<u16, Refusal> {
    let (whole, _) = call((1, 0), |whole, real| unsafe { fib_f64_to_f16(x, whole, real) })?;
    fits(whole[0])
}

/// The value of a binary16.
pub fn f16_to_f32(bits: u16) -> Result<f32, Refusal> {
    let (whole, _) = call((1, 0), |whole, real| unsafe { fib_f16_to_f32(bits, whole, real) })?;
    fits(whole[0]).map(f32::from_bits)
}

/// The nearest binary64 value to the root, ties to even.
pub fn sqrt(x: f64) -> Result<f64, Refusal> {
    let (_, real) = call((0, 1), |whole, real| unsafe { fib_sqrt(x, whole, real) })?;
    Ok(real[0])
}
