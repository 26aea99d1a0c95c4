//! lloyd.rs as published, and its probe.

use crate::ext::*;

include!(concat!(env!("FIB_SRC"), "lloyd.rs"));

pub mod timed;

pub mod probe {
    use super::*;
    use crate::answer::{refusal, refused, Answer, Refusal};
    use crate::profile::probe::{policy, Profile};
    use crate::standins::lend;

    pub use super::{LloydRepairEventV1 as Event, LloydReportV1 as Report};

    /// An accepted update: the new codebook, and its repairs with an event for each.
    #[derive(Debug, Clone)]
    pub struct Updated {
        pub codebook: Vec<f64>,
        pub repairs: u32,
        pub events: Vec<Event>,
    }

    /// A refused update or training, and the repairs that came before the refusal.
    #[derive(Debug, Clone)]
    pub struct Stopped {
        pub refusal: Refusal,
        pub repairs: usize,
    }

    pub type Attempt<T> = std::result::Result<T, Stopped>;

    /// A completed training: the codewords, and a report that holds the events.
    #[derive(Debug, Clone)]
    pub struct Refined {
        pub codewords: Vec<f32>,
        pub report: Report,
    }

    pub fn nearest_index(block: &[f64], codebook: &[f64], k: usize) -> (u64, f64) {
        let (index, distance) = super::nearest_index(block, codebook, k);
        (index as u64, distance)
    }

    /// The squared distance of a block to one codeword, as a search among it alone finds it.
    pub fn distance(block: &[f64], codeword: &[f64]) -> f64 {
        super::nearest_index(block, codeword, codeword.len()).1
    }

    /// Whether a codeword other than `index` has the same distance as it.
    pub fn tied(block: &[f64], codebook: &[f64], k: usize, index: usize) -> bool {
        let chosen = distance(block, &codebook[index * k..(index + 1) * k]);
        let same = |(other, codeword)| other != index && distance(block, codeword) == chosen;
        codebook.chunks_exact(k).enumerate().any(same)
    }

    pub fn mse_for_codebook(codebook: &[f64], k: usize, samples: &[f64]) -> Answer<f64> {
        super::mse_for_codebook(codebook, k, &split(samples, k)).map_err(refusal)
    }

    /// One update. The published function changes the codebook before it refuses; here a refusal shows none.
    pub fn update_centroids(
        codebook: &[f64],
        k: usize,
        samples: &[f64],
        assignments: &[usize],
        policy_code: u8,
        restart: u32,
        iteration: u32,
    ) -> Attempt<Updated> {
        let samples = split(samples, k);
        update(codebook, k, &samples, assignments, policy(policy_code), restart, iteration)
    }

    fn update(
        old: &[f64],
        k: usize,
        samples: &[Vec<f64>],
        assignments: &[usize],
        policy: EmptyCellPolicy,
        restart: u32,
        iteration: u32,
    ) -> Attempt<Updated> {
        let mut codebook = old.to_vec();
        let mut repairs = 0;
        let mut events = Vec::new();
        let recorder = RepairRecorder { events: &mut events, restart, iteration };
        let done = super::update_centroids(&mut codebook, k, samples, assignments, policy, &mut repairs, recorder);
        if let Err(error) = done {
            let refusal = match refusal(error) {
                // Neither error names its cell.
                (15, _) => refused(15, &[refused_cell(old.len() / k, assignments, events.len())]),
                (16, _) => refused(16, &[refused_donor(old, k, samples, assignments, &events)]),
                other => other,
            };
            return Err(Stopped { refusal, repairs: events.len() });
        }
        Ok(Updated { codebook, repairs, events })
    }

    /// The empty cell that comes after `repaired` of them.
    fn refused_cell(n: usize, assignments: &[usize], repaired: usize) -> u64 {
        let mut empty = (0..n).filter(|cell| !assignments.contains(cell));
        empty.nth(repaired).expect("an empty cell") as u64
    }

    /// The donor after these repairs, by the published rule: the last cell of largest distortion with a count above 1.
    fn refused_donor(old: &[f64], k: usize, samples: &[Vec<f64>], assignments: &[usize], events: &[Event]) -> u64 {
        let n = old.len() / k;
        let mut counts = vec![0u64; n];
        let mut distortion = vec![0.0; n];
        for (sample, &cell) in samples.iter().zip(assignments) {
            counts[cell] += 1;
            distortion[cell] += distance(sample, &old[cell * k..(cell + 1) * k]);
        }
        for event in events {
            let (donor, empty) = (event.donor_cell as usize, event.empty_cell as usize);
            counts[donor] -= 1;
            counts[empty] = 1;
            distortion[donor] = 0.0;
            distortion[empty] = 0.0;
        }
        let donors = (0..n).filter(|cell| counts[*cell] > 1);
        donors.max_by(|a, b| distortion[*a].total_cmp(&distortion[*b])).expect("a donor") as u64
    }

    /// Training with S samples of k values and R - 1 matrices of k × k, all lent one after another.
    pub fn refine_codebook(profile: &Profile, initial: &[f64], samples: &[f64], matrices: &[f64]) -> Attempt<Refined> {
        let k = profile.block_dim as usize;
        let samples = split(samples, k);
        lend::samples(samples.clone());
        lend::matrices(split(matrices, k * k));
        let published = profile.published();
        match super::refine_codebook(&published, initial) {
            Ok(refined) => {
                assert_eq!(refined.training_mse.to_bits(), refined.report.best_mse.to_bits());
                assert_eq!(refined.init_mse.to_bits(), refined.report.init_mse.to_bits());
                Ok(Refined { codewords: refined.codewords, report: refined.report })
            }
            Err(error) => Err(match refusal(error) {
                (15 | 16, _) => {
                    lend::matrices(split(matrices, k * k));
                    refused_round(&published, initial, &samples)
                }
                refusal => Stopped { refusal, repairs: 0 },
            }),
        }
    }

    /// The refusal of the update that ended a training, with its cell: the published rounds again, up to that one.
    fn refused_round(profile: &FibQuantProfileV1, initial: &[f64], samples: &[Vec<f64>]) -> Stopped {
        let k = profile.block_dim as usize;
        let mut repairs = 0;
        for restart in 0..profile.lloyd_restarts {
            let mut codebook = rotated_initial(profile, initial, restart).expect("a start");
            for iteration in 0..profile.lloyd_iterations {
                let assignments = assign_samples(&codebook, k, samples);
                let policy = profile.empty_cell_policy.clone();
                match update(&codebook, k, samples, &assignments, policy, restart, iteration) {
                    Ok(updated) => {
                        codebook = updated.codebook;
                        repairs += updated.events.len();
                    }
                    Err(stopped) => return Stopped { repairs: repairs + stopped.repairs, ..stopped },
                }
            }
        }
        unreachable!("the training was refused")
    }

    pub fn validate_report(report: &Report, profile: &Profile) -> Answer<()> {
        let published = profile.published();
        report.validate_against_profile(&published).map_err(refusal)
    }

    /// Pieces of `size` values. Size 0 is refused by the profile before a piece is used.
    fn split(values: &[f64], size: usize) -> Vec<Vec<f64>> {
        values.chunks(size.max(1)).map(<[f64]>::to_vec).collect()
    }
}
