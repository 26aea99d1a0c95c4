//! One update of a codebook, called alone: its answer and every buffer.

use super::training::{Left, Lent};
use crate::inputs;
use crate::rules::{bounded, edges, grid, length, samples, shaped, shorten, values, whole_samples, with_slots, SHAPES};
use crate::run::{lent, refused, Outcome, Pattern, Run};
use beside::{event, proved};
use nuqtelya::{Event, UpdateTerms};
use oracle::lloyd::probe;
use oracle::Answer;

/// 2^48
const LIMIT: f64 = (1u64 << 48) as f64;

/// A call, with the lengths of the buffers that it writes beside the codebook.
#[derive(Clone)]
struct Call {
    terms: UpdateTerms,
    codebook: Vec<f64>,
    samples: Vec<f64>,
    assignments: Vec<u32>,
    lent: Lent,
}

pub fn run(run: &mut Run) -> Outcome {
    event_members(run)?;
    small(run)?;
    for _ in 0..run.rounds(40_000) {
        let (n, k, count) = (1 + run.random.index(10), 1 + run.random.index(5), run.random.index(40));
        random(run, n, k, count)?;
    }
    for _ in 0..run.rounds(400) {
        let (n, k, count) = (1 + run.random.index(200), 1 + run.random.index(256), run.random.index(4_000));
        random(run, n, k, count.min(2_000_000 / k))?;
    }
    wrong(run)?;
    wrong_shapes(run)?;
    largest(run)?;
    run.met(&[7, 11, 14, 15, 16, 18, 19], &["one repair", "more repairs"])
}

/// A call whose lengths are right.
fn call(n: usize, k: usize, codebook: &[f64], samples: &[f64], assignments: &[u32], policy: u8, slots: usize) -> Call {
    Call {
        terms: UpdateTerms { codebook_size: n as u64, block_dim: k as u64, policy, restart: 0, iteration: 0 },
        codebook: codebook.to_vec(),
        samples: samples.to_vec(),
        assignments: assignments.to_vec(),
        lent: Lent { work: 2 * n * k + 2 * n, counts: n, slots },
    }
}

/// An event with another value in each member, worked out by hand.
fn event_members(run: &mut Run) -> Outcome {
    let samples = [0.0, 8.0, 10.0, 18.0, 12.0, 20.0];
    let mut call = call(4, 1, &[0.0, 10.0, 20.0, 30.0], &samples, &[0, 1, 1, 1, 1, 2], 0, 2);
    call.terms.restart = 101;
    call.terms.iteration = 202;
    let repaired = Event {
        restart: 101,
        iteration: 202,
        empty_cell: 3,
        donor_cell: 1,
        donor_count_before: 4,
        donor_distortion: 72.0,
        residual_norm: 6.0,
        split_epsilon: 1e-6,
    };
    let left = leaves(&call);
    run.same("events", &vec![repaired, Event::PATTERN], &left.events, String::new)?;
    run.same("codebook", &vec![0.0, 12.0 - 1e-6, 20.0, 12.0 + 1e-6], &left.words, String::new)?;
    case(run, &call)
}

/// Few samples of small whole numbers, in every way and in every cell, with no slot, one or enough.
fn small(run: &mut Run) -> Outcome {
    for (n, most) in [(1, 3), (2, 4), (3, 3)] {
        let cells: Vec<u32> = (0..n as u32).collect();
        for codebook in [[0.0, 10.0, 20.0], [0.0, 0.0, 0.0], [1.0, -1.0, 1.0]] {
            for count in 0..=most {
                for samples in grid(&[0.0, 1.0, 2.0], count) {
                    for assignments in grid(&cells, count) {
                        let slots = run.random.index(n + 1);
                        let mut call = call(n, 1, &codebook[..n], &samples, &assignments, 0, slots);
                        case(run, &call)?;
                        if run.random.one_in(4) {
                            call.terms.policy = run.random.pick(&[1, 1, 2, 255]);
                            case(run, &call)?;
                        }
                    }
                }
            }
        }
    }
    Ok(())
}

/// Samples in any cells, in few of them, or in the nearest one.
fn random(run: &mut Run, n: usize, k: usize, count: usize) -> Outcome {
    let codebook = values(&mut run.random, n * k, LIMIT);
    let samples = samples(&mut run.random, count, k, LIMIT);
    let random = &mut run.random;
    let assignments: Vec<u32> = match random.below(3) {
        0 => (0..count).map(|_| random.index(n) as u32).collect(),
        1 => {
            let few = [random.index(n) as u32, random.index(n) as u32, random.index(n) as u32];
            (0..count).map(|_| random.pick(&few)).collect()
        }
        _ => samples.chunks_exact(k).map(|sample| probe::nearest_index(sample, &codebook, k).0 as u32).collect(),
    };
    let slots = if random.one_in(3) { random.index(n + 1) } else { n + random.index(3) };
    let policy = if random.one_in(8) { random.pick(&[1, 2, 255]) } else { 0 };
    let mut call = call(n, k, &codebook, &samples, &assignments, policy, slots);
    call.terms.restart = random.bits() as u32;
    call.terms.iteration = random.bits() as u32;
    case(run, &call)
}

/// What makes a call wrong, or right at its limit.
const FAULTS: [fn(&mut Call); 32] = [
    |c| shorten(&mut c.codebook),
    |c| c.codebook.push(0.0),
    |c| c.codebook.clear(),
    |c| shorten(&mut c.samples),
    |c| c.samples.push(0.0),
    |c| c.samples.clear(),
    |c| c.lent.work -= 1,
    |c| c.lent.work += 1,
    |c| c.lent.work = 0,
    |c| c.lent.counts -= 1,
    |c| c.lent.counts += 1,
    |c| c.lent.counts = 0,
    |c| c.lent.slots = 0,
    |c| shorten(&mut c.assignments),
    |c| c.assignments.push(0),
    |c| c.assignments.clear(),
    |c| put(&mut c.assignments, 0, c.terms.codebook_size as u32),
    |c| put(&mut c.assignments, 2, c.terms.codebook_size as u32),
    |c| put(&mut c.assignments, 1, u32::MAX),
    |c| put(&mut c.codebook, 0, f64::NAN),
    |c| put(&mut c.codebook, 1, f64::INFINITY),
    |c| put(&mut c.samples, 0, f64::NEG_INFINITY),
    |c| put(&mut c.samples, 1, f64::NAN),
    |c| put(&mut c.samples, 2, 2.0 * LIMIT),
    |c| c.terms.block_dim = 0,
    |c| c.terms.block_dim += 1,
    |c| c.terms.block_dim += 1 << 32,
    |c| c.terms.codebook_size = 0,
    |c| c.terms.codebook_size += 1,
    |c| c.terms.codebook_size += 1 << 32,
    |c| c.terms.policy = 1,
    |c| c.terms.policy = 2,
];

fn put<T>(values: &mut [T], place: usize, value: T) {
    if let Some(at) = values.get_mut(place) {
        *at = value;
    }
}

/// Every fault, every two of them, and every odd value anywhere.
fn wrong(run: &mut Run) -> Outcome {
    let good = [
        call(2, 1, &[0.0, 10.0], &[1.0, 3.0, 9.0], &[0, 0, 1], 0, 2),
        call(2, 2, &[0.0, 1.0, 5.0, 5.0], &[0.0, 0.0, 1.0, 2.0, 2.0, 1.0], &[1, 1, 1], 0, 2),
        call(3, 1, &[0.0, 10.0, 20.0], &[1.0, 3.0, 4.0, 5.0], &[1, 1, 1, 1], 0, 3),
    ];
    for good in good {
        for first in FAULTS {
            for second in FAULTS {
                let mut call = good.clone();
                first(&mut call);
                case(run, &call)?;
                // Lengths that were made 0 can't be made less.
                call.lent.work = call.lent.work.max(1);
                call.lent.counts = call.lent.counts.max(1);
                second(&mut call);
                case(run, &call)?;
            }
        }
        for edge in edges(LIMIT) {
            for place in 0..good.codebook.len() + good.samples.len() {
                let mut call = good.clone();
                *call.codebook.iter_mut().chain(&mut call.samples).nth(place).expect("a value") = edge;
                case(run, &call)?;
            }
        }
    }
    Ok(())
}

fn wrong_shapes(run: &mut Run) -> Outcome {
    for (n, k) in SHAPES {
        for len in [0, 1, 256, 257, 514] {
            let mut call = call(1, 1, &vec![1.0; len], &vec![1.0; len], &[0], 0, 1);
            call.terms.codebook_size = n;
            call.terms.block_dim = k;
            call.lent.work = 2 * len + 2;
            case(run, &call)?;
        }
    }
    Ok(())
}

/// The largest numbers of codewords, event slots and samples, and one more.
fn largest(run: &mut Run) -> Outcome {
    let n = 1 << 20;
    let codebook = vec![1.0; n + 1];
    for n in [n, n + 1] {
        case(run, &call(n, 1, &codebook[..n], &[1.0, 2.0], &[3, 5], 1, 1))?;
        case(run, &call(n, 1, &codebook[..n], &[1.0, 2.0], &[3, 3], 0, 1))?;
        case(run, &call(2, 1, &[0.0, 10.0], &[1.0, 3.0], &[0, 0], 0, n))?;
    }
    let most = 10_000_000;
    let (samples, assignments) = (vec![0.0; most + 1], vec![0; most + 1]);
    case(run, &call(1, 1, &[1.0], &samples, &assignments, 0, 1))?;
    if run.many {
        case(run, &call(1, 1, &[1.0], &samples[..most], &assignments[..most], 0, 1))?;
    }
    Ok(())
}

fn case(run: &mut Run, call: &Call) -> Outcome {
    let expected = expected(call);
    if let Ok(repairs @ 1..) = expected.answer {
        run.see(if repairs == 1 { "one repair" } else { "more repairs" });
    }
    run.same("update", &expected, &leaves(call), || {
        let Call { terms, codebook, samples, assignments, lent: Lent { work, counts, slots } } = call;
        format!("\n  terms: {terms:?}{}", inputs!(codebook, samples, assignments, work, counts, slots)())
    })
}

/// What the proved update leaves behind.
fn leaves(call: &Call) -> Left<u32, f64> {
    let mut words = call.codebook.clone();
    let Lent { work, counts, slots } = call.lent;
    let (mut work, mut counts, mut events) = (lent(work), lent(counts), lent(slots));
    let (samples, assignments) = (&call.samples, &call.assignments);
    let answer = nuqtelya::update(call.terms, &mut words, samples, assignments, &mut work, &mut counts, &mut events);
    Left { answer: proved(answer), words, work, counts, events }
}

/// What the published update makes of the codebook, and what document 01 says of the buffers.
fn expected(call: &Call) -> Left<u32, f64> {
    // A refusal leaves the codebook as it was; the published update does not.
    if let Err(refusal) = checks(call) {
        return call.lent.untouched(refusal, call.codebook.clone());
    }
    let assignments: Vec<usize> = call.assignments.iter().map(|cell| *cell as usize).collect();
    let terms = &call.terms;
    let attempt = probe::update_centroids(
        &call.codebook,
        terms.block_dim as usize,
        &call.samples,
        &assignments,
        // A code that names no policy is the one that repairs nothing.
        terms.policy.min(1),
        terms.restart,
        terms.iteration,
    );
    match with_slots(attempt, |done| done.repairs, call.lent.slots) {
        Ok(done) => call.lent.completed(done.repairs, done.codebook, done.events.iter().map(event).collect()),
        Err(refusal) => call.lent.zeroed(refusal, call.codebook.clone()),
    }
}

fn checks(call: &Call) -> Answer<()> {
    let (n, k) = (call.terms.codebook_size, call.terms.block_dim);
    length(1, shaped(call.codebook.len(), n, k))?;
    length(2, whole_samples(call.samples.len(), k))?;
    length(7, call.lent.work as u64 == 2 * n * k + 2 * n)?;
    length(8, call.lent.counts as u64 == n)?;
    length(9, call.lent.slots <= 1 << 20)?;
    length(10, call.assignments.len() == call.samples.len() / k as usize)?;
    bounded(1, &call.codebook, LIMIT)?;
    bounded(2, &call.samples, LIMIT)?;
    match call.assignments.iter().find(|cell| u64::from(**cell) >= n) {
        Some(cell) => refused(11, &[u64::from(*cell), n]),
        None => Ok(()),
    }
}
