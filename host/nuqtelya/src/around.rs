//! The codewords within a distance of a block.

use crate::call::{call, fits, Real, Whole};
use crate::Refusal;

extern "C" {
    // How many there are in whole[0].
    fn fib_codewords_within(
        codewords: *const f32,
        codewords_len: usize,
        codebook_size: u64,
        block_dim: u64,
        block: *const f32,
        block_len: usize,
        radius: f64,
        numbers: *mut u32,
        numbers_len: usize,
        whole: Whole,
        real: Real,
    ) -> u32;
}

/// Searches N codewords of k values for all that lie within a radius of a block of k values. Their numbers fill the front
/// of a list of N numbers, each once and in no promised order, and the rest of the list is left as it was; the answer is
/// how many there are.
///
/// A codeword lies within if its squared distance, the one that [`nearest`](crate::nearest) finds for the same values, is at
/// most the radius times itself, rounded once. Radius 0 finds the codewords that equal the block, plus and minus zero being
/// equal, and no others. A radius below zero, which minus zero is not, or not finite is refused by 21, after all lengths and
/// values.
///
/// ```
/// use nuqtelya::codewords_within;
///
/// // From (1, 1) the first is at distance 5 and the last at 1; the second is farther, and the third is the block itself.
/// let codewords = [4.0, 5.0, -5.0, 1.0, 1.0, 1.0, 1.0, 2.0];
/// let mut numbers = [77; 4];
/// let count = codewords_within(&codewords, 4, 2, &[1.0, 1.0], 5.0, &mut numbers)?;
/// // Who needs an order brings one.
/// numbers[..count].sort();
/// assert_eq!((count, numbers), (3, [0, 2, 3, 77]));
///
/// let mut numbers = [77; 4];
/// assert_eq!(codewords_within(&codewords, 4, 2, &[1.0, 1.0], 5f64.next_down(), &mut numbers)?, 2);
/// assert_eq!(codewords_within(&codewords, 4, 2, &[1.0, 1.0], 0.0, &mut numbers)?, 1);
/// assert_eq!(numbers[0], 2);
///
/// let refusal = codewords_within(&codewords, 4, 2, &[1.0, 1.0], -1.0, &mut numbers).unwrap_err();
/// assert_eq!(refusal.to_string(), "21: the radius is below zero or not finite");
/// # Ok::<(), nuqtelya::Refusal>(())
/// ```
pub fn codewords_within(
    codewords: &[f32],
    codebook_size: u64,
    block_dim: u64,
    block: &[f32],
    radius: f64,
    numbers: &mut [u32],
) -> Result<usize, Refusal> {
    let (whole, _) = call((1, 0), |whole, real| unsafe {
        fib_codewords_within(
            codewords.as_ptr(),
            codewords.len(),
            codebook_size,
            block_dim,
            block.as_ptr(),
            block.len(),
            radius,
            numbers.as_mut_ptr(),
            numbers.len(),
            whole,
            real,
        )
    })?;
    fits(whole[0])
}
