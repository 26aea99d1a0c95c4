//! The published training with its inputs laid out beforehand, so that a measurement holds the published work alone.

use super::*;
use crate::profile::probe::Profile;
use crate::standins::lend;
use std::time::{Duration, Instant};

/// Samples as the published functions take them.
pub struct Samples(Vec<Vec<f64>>);

impl Samples {
    pub fn new(samples: &[f64], k: usize) -> Samples {
        Samples(samples.chunks_exact(k).map(<[f64]>::to_vec).collect())
    }
}

pub fn mean_error(codebook: &[f64], k: usize, samples: &Samples) -> f64 {
    mse_for_codebook(codebook, k, &samples.0).expect("an error")
}

/// One update that splits empty cells; the number of repairs.
pub fn update(codebook: &mut [f64], k: usize, samples: &Samples, assignments: &[usize]) -> u32 {
    let (mut repairs, mut events) = (0, Vec::new());
    let recorder = RepairRecorder { events: &mut events, restart: 0, iteration: 0 };
    let policy = EmptyCellPolicy::SplitHighestDistortion;
    update_centroids(codebook, k, &samples.0, assignments, policy, &mut repairs, recorder).expect("an update");
    repairs
}

/// How long a whole training takes, with samples and matrices lent before the clock starts; and the error it reaches.
pub fn refine(profile: &Profile, initial: &[f64], samples: &Samples, matrices: &[f64]) -> (Duration, f64) {
    let square = (profile.block_dim * profile.block_dim) as usize;
    lend::samples(samples.0.clone());
    lend::matrices(matrices.chunks_exact(square).map(<[f64]>::to_vec).collect());
    let published = profile.published();
    let start = Instant::now();
    let refined = refine_codebook(&published, initial).expect("a training");
    (start.elapsed(), refined.report.best_mse)
}

pub fn validate_report(report: &LloydReportV1, profile: &FibQuantProfileV1) {
    report.validate_against_profile(profile).expect("a report that fits");
}
