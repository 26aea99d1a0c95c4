//! Updates alone and whole trainings, for the host's file.

use crate::answers::{answer, events, profile, report, UNFIT};
use crate::form::{Trained, Training, Update, Updated, REFINE, UPDATE};
use oracle::inputs::{fitting, Random};
use oracle::lloyd::probe;
use oracle::profile::probe::Profile;

pub fn updates(random: &mut Random) -> Vec<Update> {
    let two = [0.0, 10.0];
    let three = [0.0, 10.0, 20.0];
    let mut updates = vec![
        // Document 01's samples: a repair, 16, 15; then 15 for want of any sample, and 14.
        update(random, 1, &two, &[1.0, 3.0], &[0, 0], 0),
        update(random, 1, &two, &[2.0, 2.0], &[0, 0], 0),
        update(random, 1, &two, &[5.0], &[0], 0),
        update(random, 1, &two, &[], &[], 0),
        update(random, 1, &three, &[1.0, 3.0], &[1, 1], 1),
        // Two donors of one distortion, and two samples equally far.
        update(random, 1, &three, &[-1.0, 1.0, 9.0, 11.0], &[0, 0, 1, 1], 0),
        // A donor twice: its residual is taken from what the first gift left.
        update(random, 1, &three, &[1.0, 3.0, 8.0], &[0, 0, 0], 0),
        // A repair, then no donor.
        update(random, 1, &three, &[1.0, 3.0], &[0, 0], 0),
    ];
    while updates.len() < UPDATE.count {
        let (n, k, count) = (1 + random.index(6), 1 + random.index(3), random.index(12));
        let codebook = values(random, n * k);
        let samples = samples(random, count, k);
        let few = [random.index(n) as u32, random.index(n) as u32];
        let assignments: Vec<u32> = match random.below(3) {
            0 => (0..count).map(|_| random.index(n) as u32).collect(),
            1 => (0..count).map(|_| random.pick(&few)).collect(),
            _ => samples.chunks_exact(k).map(|sample| probe::nearest_index(sample, &codebook, k).0 as u32).collect(),
        };
        let policy = u8::from(random.one_in(8));
        updates.push(update(random, k, &codebook, &samples, &assignments, policy));
    }
    updates
}

fn update(random: &mut Random, k: usize, codebook: &[f64], samples: &[f64], assignments: &[u32], policy: u8) -> Update {
    let n = codebook.len() / k;
    let (restart, iteration) = (random.bits() as u32, random.bits() as u32);
    let cells: Vec<usize> = assignments.iter().map(|cell| *cell as usize).collect();
    let attempt = probe::update_centroids(codebook, k, samples, &cells, policy, restart, iteration);
    Update {
        codebook_size: n as u64,
        block_dim: k as u64,
        policy,
        restart,
        iteration,
        codebook: codebook.to_vec(),
        samples: samples.to_vec(),
        assignments: assignments.to_vec(),
        slots: (n + random.index(3)) as u32,
        answer: answer(attempt.map_err(|stopped| stopped.refusal), |done| Updated {
            codebook: done.codebook,
            repairs: done.repairs,
            events: events(&done.events),
        }),
    }
}

pub fn trainings(random: &mut Random) -> Vec<Training> {
    let mut trainings = Vec::new();
    let (initial, samples) = ([0.0, 1.0, 4.0, 4.0], [1.0, 1.0, 3.0, 2.0, 5.0, 4.0]);
    let good = Profile { restarts: 1, iterations: 2, training_samples: 3, ..fitting(4, 2, 2) };
    for unfit in UNFIT {
        let mut profile = good;
        unfit(&mut profile);
        trainings.push(training(random, &profile, &initial, &samples, &[]));
    }
    trainings.push(training(random, &good, &initial[1..], &samples, &[]));
    // Codewords that coincide: a repair in the first round, 14, and 16 where the samples coincide too.
    let closed = Profile { empty_cell_policy: 1, ..good };
    trainings.push(training(random, &good, &[1.0; 4], &samples, &[]));
    trainings.push(training(random, &closed, &[1.0; 4], &samples, &[]));
    trainings.push(training(random, &good, &[1.0; 4], &[2.0; 6], &[]));
    while trainings.len() < REFINE.count {
        trainings.push(random_training(random));
    }
    trainings
}

fn random_training(random: &mut Random) -> Training {
    let (n, k) = (2 + random.index(4), 1 + random.index(3));
    let count = n + random.index(10);
    let profile = Profile {
        restarts: 1 + random.index(4) as u32,
        iterations: 1 + random.index(3) as u32,
        training_samples: count as u32,
        empty_cell_policy: u8::from(random.one_in(20)),
        codebook_seed: random.bits(),
        ..fitting(2 * k as u32, k as u32, n as u32)
    };
    let samples = samples(random, count, k);
    let initial = if random.one_in(3) { samples[..n * k].to_vec() } else { values(random, n * k) };
    let len = (profile.restarts as usize - 1) * k * k;
    // Of the size of a rotation's values, or of any.
    let matrices = match random.below(3) {
        0 => values(random, len),
        _ => (0..len).map(|_| random.below(65) as f64 / 32.0 - 1.0).collect(),
    };
    training(random, &profile, &initial, &samples, &matrices)
}

fn training(random: &mut Random, p: &Profile, initial: &[f64], samples: &[f64], matrices: &[f64]) -> Training {
    let attempt = probe::refine_codebook(p, initial, samples, matrices);
    let repairs = attempt.as_ref().map_or_else(|stopped| stopped.repairs, |done| done.report.repair_events.len());
    Training {
        profile: profile(p),
        initial: initial.to_vec(),
        samples: samples.to_vec(),
        matrices: matrices.to_vec(),
        slots: (repairs + random.index(3)) as u32,
        answer: answer(attempt.map_err(|stopped| stopped.refusal), |done| Trained {
            codewords: done.codewords,
            report: report(&done.report),
            events: events(&done.report.repair_events),
        }),
    }
}

/// As `Random::values`, and now and then with differences about as large as the least residual that has a direction.
fn values(random: &mut Random, len: usize) -> Vec<f64> {
    if random.one_in(12) {
        (0..len).map(|_| random.below(9) as f64 * 2f64.powi(-54)).collect()
    } else {
        random.values(len)
    }
}

/// Samples of k values, in one of four cases a few of them again and again.
fn samples(random: &mut Random, count: usize, k: usize) -> Vec<f64> {
    let mut samples = values(random, count * k);
    let distinct = 1 + random.index(4);
    if random.one_in(4) && distinct < count {
        for place in distinct * k..count * k {
            samples[place] = samples[place - distinct * k];
        }
    }
    samples
}
