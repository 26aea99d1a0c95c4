//! The search for the nearest codeword, and the mean error of a codebook.

use crate::call::{call, fits, mark, Real, Whole};
use crate::Refusal;

extern "C" {
    // The index in whole[0], in whole[1] whether another codeword has the same distance, the distance in real[0].
    fn fib_nearest(
        codewords: *const f64,
        codewords_len: usize,
        codebook_size: u64,
        block_dim: u64,
        block: *const f64,
        block_len: usize,
        whole: Whole,
        real: Real,
    ) -> u32;
    // The error in real[0].
    fn fib_mean_error(
        codewords: *const f64,
        codewords_len: usize,
        codebook_size: u64,
        block_dim: u64,
        samples: *const f64,
        samples_len: usize,
        whole: Whole,
        real: Real,
    ) -> u32;
}

/// The first codeword that none is nearer than, and its squared distance.
#[derive(Debug, Clone, Copy, PartialEq)]
pub struct Nearest {
    pub index: u32,
    pub distance: f64,
    /// Whether another codeword has the same distance, as it is rounded: the choice was a toss.
    pub tied: bool,
}

/// Searches N codewords of k values for the nearest to a block of k values.
///
/// ```
/// use nuqtelya::{nearest, Nearest};
///
/// // 1 and -1 are as near to 0 as each other; the first of them is chosen.
/// assert_eq!(nearest(&[3.0, 1.0, -1.0], 3, 1, &[0.0])?, Nearest { index: 1, distance: 1.0, tied: true });
/// // That 3 and -3 are as far as each other is no matter where 1 is nearer.
/// assert_eq!(nearest(&[3.0, -3.0, 1.0], 3, 1, &[0.0])?, Nearest { index: 2, distance: 1.0, tied: false });
/// # Ok::<(), nuqtelya::Refusal>(())
/// ```
#[inline]
pub fn nearest(codewords: &[f64], codebook_size: u64, block_dim: u64, block: &[f64]) -> Result<Nearest, Refusal> {
    let (whole, real) = call((2, 1), |whole, real| unsafe {
        fib_nearest(
            codewords.as_ptr(),
            codewords.len(),
            codebook_size,
            block_dim,
            block.as_ptr(),
            block.len(),
            whole,
            real,
        )
    })?;
    Ok(Nearest { index: fits(whole[0])?, distance: real[0], tied: mark(whole[1])? })
}

/// The mean, over samples of k values, of the distance to the nearest codeword.
pub fn mean_error(codewords: &[f64], codebook_size: u64, block_dim: u64, samples: &[f64]) -> Result<f64, Refusal> {
    let (_, real) = call((0, 1), |whole, real| unsafe {
        fib_mean_error(
            codewords.as_ptr(),
            codewords.len(),
            codebook_size,
            block_dim,
            samples.as_ptr(),
            samples.len(),
            whole,
            real,
        )
    })?;
    Ok(real[0])
}
