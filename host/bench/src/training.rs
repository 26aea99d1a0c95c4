//! Nearest, mean error, update and whole refinements.

use crate::data::{wide, Shape, Training};
use crate::measure::{prepared, side, Side};
use crate::Bench;
use nuqtelya::{Event, Room, UpdateTerms, SPLIT_HIGHEST_DISTORTION};
use oracle::lloyd::{probe, timed};
use std::time::Duration;

pub fn rows(bench: &mut Bench, shape: &Shape) {
    let data = Training::new(shape, &mut bench.random);
    let name = format!("k {}, N {}, S {}", shape.k, shape.n, shape.s);
    let blocks = wide(&mut bench.random, BLOCKS * shape.k);
    let (proved, rust) = nearest(shape, &data, &blocks);
    bench.row("nearest", &format!("k {}, N {}", shape.k, shape.n), proved, rust);
    // The same search over many samples, where the codewords are tested once.
    let few = shape.s.min(1000);
    let (proved, rust) = mean_error(shape, &data, few);
    bench.row("mean error", &format!("k {}, N {}, S {few}", shape.k, shape.n), proved, rust);
    let (proved, rust) = update(shape, &data);
    bench.row("update", &name, proved, rust);
    // Rounds are all alike; at the largest shape one of them is long enough.
    let iterations = if shape.n > 1000 { 1 } else { 5 };
    let (proved, rust) = refine(shape, &data, iterations);
    bench.row("refine", &format!("{name}, R 1, I {iterations}"), proved, rust);
}

/// Many blocks, so that the processor doesn't learn by heart how each search goes.
const BLOCKS: usize = 16_384;

fn nearest<'a>(shape: &'a Shape, data: &'a Training, blocks: &'a [f64]) -> (Side<'a>, Side<'a>) {
    let each = || blocks.chunks_exact(shape.k).cycle();
    let (mut ours, mut theirs) = (each(), each());
    let (n, k) = (shape.n as u64, shape.k as u64);
    for block in each().take(20) {
        let found = nuqtelya::nearest(&data.initial, n, k, block).expect("a codeword");
        assert_eq!((found.index.into(), found.distance), probe::nearest_index(block, &data.initial, shape.k));
    }
    (
        side(move || nuqtelya::nearest(&data.initial, n, k, ours.next().expect("a block"))),
        side(move || probe::nearest_index(theirs.next().expect("a block"), &data.initial, shape.k)),
    )
}

fn mean_error<'a>(shape: &'a Shape, data: &'a Training, few: usize) -> (Side<'a>, Side<'a>) {
    let samples = &data.samples[..few * shape.k];
    let published = timed::Samples::new(samples, shape.k);
    let ours = || nuqtelya::mean_error(&data.initial, shape.n as u64, shape.k as u64, samples);
    assert_eq!(ours().ok(), Some(timed::mean_error(&data.initial, shape.k, &published)));
    (side(ours), side(move || timed::mean_error(&data.initial, shape.k, &published)))
}

fn update<'a>(shape: &'a Shape, data: &'a Training) -> (Side<'a>, Side<'a>) {
    let terms = UpdateTerms {
        codebook_size: shape.n as u64,
        block_dim: shape.k as u64,
        policy: SPLIT_HIGHEST_DISTORTION,
        restart: 0,
        iteration: 0,
    };
    let mut work = vec![0.0; 2 * shape.n * shape.k + 2 * shape.n];
    let mut counts = vec![0; shape.n];
    let mut events = vec![Event::default(); 16];
    let mut ours = move |codebook: &mut [f64]| {
        nuqtelya::update(terms, codebook, &data.samples, &data.assignments, &mut work, &mut counts, &mut events)
    };
    let samples = timed::Samples::new(&data.samples, shape.k);
    let assignments: Vec<usize> = data.assignments.iter().map(|cell| *cell as usize).collect();
    let theirs = move |codebook: &mut [f64]| timed::update(codebook, shape.k, &samples, &assignments);
    let (mut left, mut right) = (data.initial.clone(), data.initial.clone());
    assert_eq!(ours(&mut left), Ok(theirs(&mut right)));
    assert_eq!(left, right);
    (
        prepared(|| data.initial.clone(), move |mut codebook| ours(&mut codebook)),
        prepared(|| data.initial.clone(), move |mut codebook| theirs(&mut codebook)),
    )
}

/// One restart of so many rounds; both sides reach the same error.
pub fn refine<'a>(shape: &'a Shape, data: &'a Training, iterations: u32) -> (Side<'a>, Side<'a>) {
    let (profile, published) = shape.profiles(1, iterations);
    let mut codewords = vec![0.0; shape.n * shape.k];
    let room = Room::of(&profile).expect("a valid profile");
    let (mut work, mut counts) = (vec![0.0; room.floats], vec![0; room.counts]);
    let mut events = vec![Event::default(); shape.n];
    let samples = timed::Samples::new(&data.samples, shape.k);
    let reached = std::rc::Rc::new(std::cell::Cell::new(None));
    let theirs = reached.clone();
    (
        side(move || {
            let report = nuqtelya::refine(
                &profile,
                &data.initial,
                &data.samples,
                &[],
                &mut codewords,
                &mut work,
                &mut counts,
                &mut events,
            );
            reached.set(Some(report.expect("a training").best_mse));
        }),
        Box::new(move |calls| {
            let mut time = Duration::ZERO;
            for _ in 0..calls {
                let (taken, error) = timed::refine(&published, &data.initial, &samples, &[]);
                assert_eq!(theirs.get(), Some(error));
                time += taken;
            }
            time
        }),
    )
}
