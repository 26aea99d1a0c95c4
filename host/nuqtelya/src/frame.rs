//! Compact frames: the bytes of a code.

use crate::call::{call, call_checked, fits, Real, Whole};
use crate::Refusal;

extern "C" {
    fn fib_write_frame(
        width: u8,
        count: u32,
        norm: *const u8,
        norm_len: usize,
        indices: *const u8,
        indices_len: usize,
        output: *mut u8,
        output_len: usize,
        whole: Whole,
        real: Real,
    ) -> u32;
    // Width, count, and the lengths of norm and indices in `whole`.
    fn fib_parse_frame(bytes: *const u8, bytes_len: usize, whole: Whole, real: Real) -> u32;
}

/// The bytes before the norm: magic and version (4), width (1), block count (4), norm length (2).
pub const HEADER_LEN: usize = 11;

/// A frame's parts; norm and indices are parts of the caller's bytes.
#[derive(Debug, Clone, Copy, PartialEq)]
pub struct Frame<'a> {
    pub width: u8,
    pub count: u32,
    pub norm: &'a [u8],
    pub indices: &'a [u8],
}

/// Writes a frame into an output of its length. Width, count and parts are copied as they are.
pub fn write_frame(frame: &Frame, output: &mut [u8]) -> Result<(), Refusal> {
    call_checked(|whole, real| unsafe {
        fib_write_frame(
            frame.width,
            frame.count,
            frame.norm.as_ptr(),
            frame.norm.len(),
            frame.indices.as_ptr(),
            frame.indices.len(),
            output.as_mut_ptr(),
            output.len(),
            whole,
            real,
        )
    })
}

pub fn parse_frame(bytes: &[u8]) -> Result<Frame<'_>, Refusal> {
    let (whole, _) = call((4, 0), |whole, real| unsafe { fib_parse_frame(bytes.as_ptr(), bytes.len(), whole, real) })?;
    let (norm, indices): (usize, usize) = (fits(whole[2])?, fits(whole[3])?);
    let rest = bytes.get(HEADER_LEN..).ok_or(Refusal::FOREIGN)?;
    let (norm, rest) = rest.split_at_checked(norm).ok_or(Refusal::FOREIGN)?;
    let indices = rest.get(..indices).ok_or(Refusal::FOREIGN)?;
    Ok(Frame { width: fits(whole[0])?, count: fits(whole[1])?, norm, indices })
}
