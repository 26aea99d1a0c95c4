//! Norms as they are stored: binary64 to binary16, rounded once.

use crate::call::{call, fits, Real, Whole};
use crate::Refusal;

extern "C" {
    // The bits in whole[0].
    fn fib_encode_norm(norm: f64, whole: Whole, real: Real) -> u32;
    // The value in real[0].
    fn fib_decode_norm(payload: *const u8, payload_len: usize, whole: Whole, real: Real) -> u32;
}

/// The bits of the binary16 that a norm is stored as; a frame has them with the low byte first. The norm is rounded once, to
/// the nearest value, ties to even, as IEEE 754 describes a conversion; 10 where it is not above zero, or where that value
/// is zero or infinite: up to 2^-25, and from 65,520 on.
///
/// ```
/// use nuqtelya::encode_norm;
///
/// // Rounded to binary32 first, this would be the middle between two values, and become 0x3c00.
/// assert_eq!(encode_norm(1.0 + 2f64.powi(-11) + 2f64.powi(-40))?, 0x3c01);
/// // The last binary64 value below 65,520 is stored as 65,504, the largest that binary16 has.
/// assert_eq!(encode_norm(65_520f64.next_down())?, 0x7bff);
/// assert_eq!(encode_norm(65_520.0).unwrap_err().number(), 10);
/// # Ok::<(), nuqtelya::Refusal>(())
/// ```
pub fn encode_norm(norm: f64) -> Result<u16, Refusal> {
    let (whole, _) = call((1, 0), |whole, real| unsafe { fib_encode_norm(norm, whole, real) })?;
    fits(whole[0])
}

/// The norm of a frame.
pub fn decode_norm(payload: &[u8]) -> Result<f64, Refusal> {
    let (_, real) =
        call((0, 1), |whole, real| unsafe { fib_decode_norm(payload.as_ptr(), payload.len(), whole, real) })?;
    Ok(real[0])
}
