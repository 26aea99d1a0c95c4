//! Encoding of vectors into frames, and decoding.

use crate::call::{call, call_checked, fits, profile_export, with_profile};
use crate::frame::HEADER_LEN;
use crate::{apply, f64_to_f32, sqrt, Profile, Refusal};

// The number of tied blocks in whole[0].
profile_export!(fib_encode(
    matrix: *const f64,
    matrix_len: usize,
    codewords: *const f32,
    codewords_len: usize,
    input: *const f32,
    input_len: usize,
    output: *mut u8,
    output_len: usize,
    work: *mut f64,
    work_len: usize
));

profile_export!(fib_decode(
    matrix: *const f64,
    matrix_len: usize,
    codewords: *const f32,
    codewords_len: usize,
    bytes: *const u8,
    bytes_len: usize,
    output: *mut f32,
    output_len: usize,
    work: *mut f64,
    work_len: usize
));

/// Encodes d values into the exact frame, with a matrix of d × d, N×k codewords and 2×d floats of work; answers the
/// number of tied blocks, as [`Code`] has it.
pub fn encode(
    profile: &Profile,
    matrix: &[f64],
    codewords: &[f32],
    input: &[f32],
    output: &mut [u8],
    work: &mut [f64],
) -> Result<u32, Refusal> {
    let (whole, _) = call((1, 0), |whole, real| unsafe {
        with_profile!(fib_encode(
            profile;
            matrix.as_ptr(),
            matrix.len(),
            codewords.as_ptr(),
            codewords.len(),
            input.as_ptr(),
            input.len(),
            output.as_mut_ptr(),
            output.len(),
            work.as_mut_ptr(),
            work.len(),
            whole,
            real
        ))
    })?;
    fits(whole[0])
}

/// Decodes a frame into d values.
pub fn decode(
    profile: &Profile,
    matrix: &[f64],
    codewords: &[f32],
    bytes: &[u8],
    output: &mut [f32],
    work: &mut [f64],
) -> Result<(), Refusal> {
    call_checked(|whole, real| unsafe {
        with_profile!(fib_decode(
            profile;
            matrix.as_ptr(),
            matrix.len(),
            codewords.as_ptr(),
            codewords.len(),
            bytes.as_ptr(),
            bytes.len(),
            output.as_mut_ptr(),
            output.len(),
            work.as_mut_ptr(),
            work.len(),
            whole,
            real
        ))
    })
}

/// What a vector is stored as, and how often that was a toss.
#[derive(Debug, Clone, PartialEq, Eq)]
pub struct Code {
    /// The bytes to store.
    pub frame: Vec<u8>,
    /// How many of the d / k blocks have another codeword as near as the one chosen. The frame does not tell.
    pub tied_blocks: u32,
}

/// A profile with its matrix and codewords, and work of its own: one for each thread.
#[derive(Debug, Clone)]
pub struct Coder<'a> {
    profile: Profile<'a>,
    matrix: &'a [f64],
    codewords: &'a [f32],
    frame_len: usize,
    work: Vec<f64>,
}

impl<'a> Coder<'a> {
    /// Refuses a profile that is unfit. Matrix and codewords are tested by each call.
    pub fn new(profile: Profile<'a>, matrix: &'a [f64], codewords: &'a [f32]) -> Result<Self, Refusal> {
        profile.validate()?;
        let bits = profile.block_count()? as usize * usize::from(profile.wire_index_bits);
        // The norm has two bytes.
        let frame_len = HEADER_LEN + 2 + bits.div_ceil(8);
        Ok(Coder { profile, matrix, codewords, frame_len, work: vec![0.0; 2 * profile.ambient_dim as usize] })
    }

    /// The bytes of every frame under this profile.
    pub fn frame_len(&self) -> usize {
        self.frame_len
    }

    /// The code of d values.
    ///
    /// ```
    /// use nuqtelya::{Coder, Profile};
    ///
    /// // Vectors of 4 values in blocks of 2, which the matrix leaves as they are; the codewords (2, 0) and (-2, 0).
    /// let profile = Profile::paper_default(4, 2, 2, 7)?;
    /// let matrix = [1., 0., 0., 0., 0., 1., 0., 0., 0., 0., 1., 0., 0., 0., 0., 1.];
    /// let mut coder = Coder::new(profile, &matrix, &[2.0, 0.0, -2.0, 0.0])?;
    ///
    /// // The second block is as near to the one as to the other, and gets the first.
    /// let code = coder.encode(&[3.0, 0.0, 0.0, 4.0])?;
    /// assert_eq!(code.tied_blocks, 1);
    /// assert_eq!(coder.decode(&code.frame)?, [10.0, 0.0, 10.0, 0.0]);
    /// # Ok::<(), nuqtelya::Refusal>(())
    /// ```
    pub fn encode(&mut self, input: &[f32]) -> Result<Code, Refusal> {
        let mut frame = vec![0; self.frame_len];
        let tied_blocks = encode(&self.profile, self.matrix, self.codewords, input, &mut frame, &mut self.work)?;
        Ok(Code { frame, tied_blocks })
    }

    /// The d / k blocks of d values, one after another, as [`encode`](Coder::encode) searches for them: the values over
    /// their norm, multiplied by the matrix, and each rounded to binary32. Refuses what `encode` refuses.
    ///
    /// Each step is proved. That these steps are what `encode` searches for is not: they are put together here, in Rust,
    /// and compared with the published encoder's, but for the sign of a zero, which no distance tells. It takes the time of
    /// an encode and a rotation.
    ///
    /// ```
    /// use nuqtelya::{codewords_within, Coder, Profile};
    ///
    /// // Vectors of 4 values in blocks of 2, which the matrix leaves as they are; the codewords (2, 0) and (-2, 0).
    /// let profile = Profile::paper_default(4, 2, 2, 7)?;
    /// let matrix = [1., 0., 0., 0., 0., 1., 0., 0., 0., 0., 1., 0., 0., 0., 0., 1.];
    /// let codewords = [2.0, 0.0, -2.0, 0.0];
    /// let mut coder = Coder::new(profile, &matrix, &codewords)?;
    ///
    /// // The norm is 5, and 5 times as long a vector has the same blocks.
    /// let blocks = coder.blocks(&[3.0, 0.0, 0.0, 4.0])?;
    /// assert_eq!(blocks, [0.6, 0.0, 0.0, 0.8]);
    /// assert_eq!(coder.blocks(&[15.0, 0.0, 0.0, 20.0])?, blocks);
    ///
    /// // (2, 0) is at 1.4 from the first block; both are a little more than 2.15 from the second.
    /// let mut numbers = [0; 2];
    /// for (block, count) in blocks.chunks(2).zip([1, 0]) {
    ///     assert_eq!(codewords_within(&codewords, 2, 2, block, 1.5, &mut numbers)?, count);
    /// }
    /// # Ok::<(), nuqtelya::Refusal>(())
    /// ```
    pub fn blocks(&mut self, input: &[f32]) -> Result<Vec<f32>, Refusal> {
        // The checks are its own; the code is not needed.
        self.encode(input)?;
        let values: Vec<f64> = input.iter().map(|value| f64::from(*value)).collect();
        let norm = sqrt(values.iter().fold(0.0, |sum, value| sum + value * value))?;
        let normalized: Vec<f64> = values.iter().map(|value| value / norm).collect();
        let mut rotated = vec![0.0; values.len()];
        apply(self.profile.ambient_dim.into(), self.matrix, &normalized, &mut rotated)?;
        rotated.into_iter().map(f64_to_f32).collect()
    }

    /// The d values that a frame stands for.
    ///
    /// Each code has one frame: of those that are read here, two are equal exactly when the bits of their norms and their
    /// indices are, and none is a proper beginning of another. So who looks for doubles compares frames.
    ///
    /// ```
    /// use nuqtelya::{Coder, Profile};
    ///
    /// // Vectors of 4 values in blocks of 2, which the matrix leaves as they are; the codewords (2, 0) and (-2, 0).
    /// let profile = Profile::paper_default(4, 2, 2, 7)?;
    /// let matrix = [1., 0., 0., 0., 0., 1., 0., 0., 0., 0., 1., 0., 0., 0., 0., 1.];
    /// let mut coder = Coder::new(profile, &matrix, &[2.0, 0.0, -2.0, 0.0])?;
    /// let frame = coder.encode(&[3.0, 0.0, -4.0, 0.0])?.frame;
    ///
    /// // A vector of the same norm and the same nearest codewords is a double; one of another norm is none.
    /// assert_eq!(coder.encode(&[4.0, 0.0, -3.0, 0.0])?.frame, frame);
    /// assert_ne!(coder.encode(&[6.0, 0.0, -8.0, 0.0])?.frame, frame);
    ///
    /// // The two indices are bits 0 and 1 of the last byte. No other bit of it may be set, and no byte may follow.
    /// let mut other = frame.clone();
    /// *other.last_mut().unwrap() |= 4;
    /// assert_eq!(coder.decode(&other).unwrap_err().number(), 9);
    /// assert_eq!(coder.decode(&[&frame[..], &[0]].concat()).unwrap_err().number(), 8);
    /// # Ok::<(), nuqtelya::Refusal>(())
    /// ```
    pub fn decode(&mut self, bytes: &[u8]) -> Result<Vec<f32>, Refusal> {
        let mut output = vec![0.0; self.profile.ambient_dim as usize];
        decode(&self.profile, self.matrix, self.codewords, bytes, &mut output, &mut self.work)?;
        Ok(output)
    }
}
