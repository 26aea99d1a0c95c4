//! Frames with their norm in the other format: from the four bytes of older collections to two, and back.

use crate::call::{call_checked, profile_export, with_profile};
use crate::{Profile, Refusal};

profile_export!(fib_frame_to_f16(bytes: *const u8, bytes_len: usize, output: *mut u8, output_len: usize));

profile_export!(fib_frame_to_f32(bytes: *const u8, bytes_len: usize, output: *mut u8, output_len: usize));

/// Writes a frame whose norm has four bytes, a binary32 as fib-quant's F32Reference stores it, anew with a norm of two
/// bytes, into an output that is two bytes shorter. The norm is never rounded: 27 unless binary16 has that very value.
/// Width, number of blocks and index bytes are carried over; that each index is below N is for [`decode`](crate::decode)
/// to test.
///
/// ```
/// use nuqtelya::{frame_to_f16, write_frame, Frame, Profile};
///
/// // Vectors of 4 values in blocks of 2, and 2 codewords, so that an index has one bit.
/// let profile = Profile::paper_default(4, 2, 2, 7)?;
/// let mut old = [0; 16];
/// write_frame(&Frame { width: 1, count: 2, norm: &5f32.to_le_bytes(), indices: &[0b10] }, &mut old)?;
/// let mut new = [0; 14];
/// frame_to_f16(&profile, &old, &mut new)?;
/// assert_eq!(new, *b"FB1\x01\x01\x02\0\0\0\x02\0\x00\x45\x02");
///
/// // 1 + 2^-11 is the middle between two values of binary16. The output keeps what it held.
/// let inexact = 1.0 + 2f32.powi(-11);
/// write_frame(&Frame { width: 1, count: 2, norm: &inexact.to_le_bytes(), indices: &[0b10] }, &mut old)?;
/// let refusal = frame_to_f16(&profile, &old, &mut new).unwrap_err();
/// assert_eq!(refusal.to_string(), "27: the norm is not exact in binary16");
/// assert_eq!(new[11..13], [0x00, 0x45]);
/// # Ok::<(), nuqtelya::Refusal>(())
/// ```
pub fn frame_to_f16(profile: &Profile, bytes: &[u8], output: &mut [u8]) -> Result<(), Refusal> {
    call_checked(|whole, real| unsafe {
        with_profile!(fib_frame_to_f16(
            profile;
            bytes.as_ptr(),
            bytes.len(),
            output.as_mut_ptr(),
            output.len(),
            whole,
            real
        ))
    })
}

/// Writes a frame whose norm has two bytes anew with one of four, into an output that is two bytes longer: the way back
/// from [`frame_to_f16`]. Binary32 has every value of binary16, so no norm of a frame is refused by 27.
///
/// ```
/// use nuqtelya::{frame_to_f16, frame_to_f32, write_frame, Frame, Profile};
///
/// let profile = Profile::paper_default(4, 2, 2, 7)?;
/// let mut old = [0; 16];
/// write_frame(&Frame { width: 1, count: 2, norm: &0.75f32.to_le_bytes(), indices: &[0b01] }, &mut old)?;
/// let (mut new, mut back) = ([0; 14], [0; 16]);
/// frame_to_f16(&profile, &old, &mut new)?;
/// frame_to_f32(&profile, &new, &mut back)?;
/// assert_eq!(back, old);
/// # Ok::<(), nuqtelya::Refusal>(())
/// ```
pub fn frame_to_f32(profile: &Profile, bytes: &[u8], output: &mut [u8]) -> Result<(), Refusal> {
    call_checked(|whole, real| unsafe {
        with_profile!(fib_frame_to_f32(
            profile;
            bytes.as_ptr(),
            bytes.len(),
            output.as_mut_ptr(),
            output.len(),
            whole,
            real
        ))
    })
}
