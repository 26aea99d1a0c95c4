//! One update of a codebook, called alone.

use crate::call::{call, fits, Real, Whole};
use crate::Refusal;

extern "C" {
    // The number of repairs in whole[0].
    fn fib_update(
        codebook: *mut f64,
        codebook_len: usize,
        samples: *const f64,
        samples_len: usize,
        assignments: *const u32,
        assignments_len: usize,
        work: *mut f64,
        work_len: usize,
        counts: *mut u32,
        counts_len: usize,
        events: *mut Event,
        events_len: usize,
        codebook_size: u64,
        block_dim: u64,
        policy: u8,
        restart: u32,
        iteration: u32,
        whole: Whole,
        real: Real,
    ) -> u32;
}

/// The repair of an empty cell: the cell that it was split from, and the numbers of the split.
#[repr(C)]
#[derive(Debug, Clone, Copy, PartialEq, Default)]
pub struct Event {
    pub restart: u32,
    pub iteration: u32,
    pub empty_cell: u32,
    pub donor_cell: u32,
    pub donor_count_before: u32,
    pub donor_distortion: f64,
    pub residual_norm: f64,
    pub split_epsilon: f64,
}

/// The most event slots that can be lent.
pub const MAX_EVENT_SLOTS: usize = 1 << 20;

/// What an update is told beside its slices.
#[derive(Debug, Clone, Copy, PartialEq)]
pub struct UpdateTerms {
    pub codebook_size: u64,
    pub block_dim: u64,
    /// As a profile's `empty_cell_policy`.
    pub policy: u8,
    /// Both are copied to the events.
    pub restart: u32,
    pub iteration: u32,
}

/// Moves N codewords of k values to the means of their samples and repairs empty cells; answers the number of repairs,
/// whose events stand from the first slot on. Work is 2×N×k + 2×N floats and N counts, which end as zeros.
pub fn update(
    terms: UpdateTerms,
    codebook: &mut [f64],
    samples: &[f64],
    assignments: &[u32],
    work: &mut [f64],
    counts: &mut [u32],
    events: &mut [Event],
) -> Result<u32, Refusal> {
    let (whole, _) = call((1, 0), |whole, real| unsafe {
        fib_update(
            codebook.as_mut_ptr(),
            codebook.len(),
            samples.as_ptr(),
            samples.len(),
            assignments.as_ptr(),
            assignments.len(),
            work.as_mut_ptr(),
            work.len(),
            counts.as_mut_ptr(),
            counts.len(),
            events.as_mut_ptr(),
            events.len(),
            terms.codebook_size,
            terms.block_dim,
            terms.policy,
            terms.restart,
            terms.iteration,
            whole,
            real,
        )
    })?;
    fits(whole[0])
}
