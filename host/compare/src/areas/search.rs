//! The search for the nearest codeword with its mark of a tie, and the mean error of a codebook.

use crate::inputs;
use crate::rules::{bounded, edges, grid, length, samples, shaped, values, whole_samples, SHAPES};
use crate::run::{refused, Outcome, Run};
use beside::proved;
use oracle::lloyd::probe;
use oracle::Answer;

/// 2^128
const LIMIT: f64 = (1u128 << 127) as f64 * 2.0;

pub fn run(run: &mut Run) -> Outcome {
    small(run)?;
    for _ in 0..run.rounds(25_000) {
        let (n, k, count) = (1 + run.random.index(20), 1 + run.random.index(8), 1 + run.random.index(40));
        random(run, n, k, count)?;
    }
    for _ in 0..run.rounds(100) {
        let (n, k, count) = (1 + run.random.index(300), 1 + run.random.index(256), 1 + run.random.index(1000));
        random(run, n, k, count.min(4_000_000 / (n * k)))?;
    }
    wrong_shapes(run)?;
    wrong_values(run)?;
    far(run)?;
    largest(run)?;
    ties(run)?;
    copies(run)?;
    rounded(run)?;
    run.met(&[1, 7, 18], &[TIED, NOT_TIED])
}

// What a search shows.
const TIED: &str = "tied";
const NOT_TIED: &str = "not tied";

/// Small whole numbers in every way, so that most searches meet a tie.
fn small(run: &mut Run) -> Outcome {
    for n in 1..=3 {
        for codewords in grid(&[-1.0, 0.0, 1.0, 2.0], n) {
            for block in [-2.0, -0.5, 0.0, 0.5, 1.5] {
                nearest(run, &codewords, n as u64, 1, &[block])?;
            }
        }
    }
    for codewords in grid(&[-1.0, 0.0, 1.0], 4) {
        for block in grid(&[-1.0, 0.0, 1.0], 2) {
            nearest(run, &codewords, 2, 2, &block)?;
        }
        for samples in grid(&[0.0, 0.5, 1.0], 4) {
            mean_error(run, &codewords, 2, 2, &samples)?;
        }
    }
    for n in 1..=2 {
        for codewords in grid(&[-1.0, 0.0, 1.0, 3.0], n) {
            for count in 0..=4 {
                for samples in grid(&[-1.0, 0.0, 2.0, 5.0], count) {
                    mean_error(run, &codewords, n as u64, 1, &samples)?;
                }
            }
        }
    }
    Ok(())
}

fn random(run: &mut Run, n: usize, k: usize, count: usize) -> Outcome {
    let codewords = values(&mut run.random, n * k, LIMIT);
    let samples = samples(&mut run.random, count, k, LIMIT);
    nearest(run, &codewords, n as u64, k as u64, &samples[..k])?;
    mean_error(run, &codewords, n as u64, k as u64, &samples)
}

/// Lengths wrong by one, empty slices, and N and k that no codebook has.
fn wrong_shapes(run: &mut Run) -> Outcome {
    let some = vec![1.0; 600];
    for (n, k) in [(1, 1), (3, 2), (2, 3), (1, 256), (5, 4)] {
        for len in [n * k, n * k - 1, n * k + 1, 0] {
            for block in [k, k - 1, k + 1, 2 * k, 0] {
                nearest(run, &some[..len], n as u64, k as u64, &some[..block])?;
                mean_error(run, &some[..len], n as u64, k as u64, &some[..block])?;
            }
        }
    }
    for (n, k) in SHAPES {
        let right = n.wrapping_mul(k);
        for len in [0, 1, 2, 256, 257, 514] {
            nearest(run, &some[..len], n, k, &some[..len.min(300)])?;
            mean_error(run, &some[..len], n, k, &some[..len])?;
        }
        if right <= 600 {
            nearest(run, &some[..right as usize], n, k, &some[..k.min(300) as usize])?;
        }
    }
    Ok(())
}

/// NaN, infinities and values just above the limit, anywhere; two of them show the order.
fn wrong_values(run: &mut Run) -> Outcome {
    for (n, k, count) in [(1, 1, 1), (2, 1, 3), (3, 2, 2), (5, 4, 1)] {
        for edge in edges(LIMIT) {
            for place in 0..n * k + count * k {
                let mut both = values(&mut run.random, n * k + count * k, 4.0);
                both[place] = edge;
                let (codewords, samples) = both.split_at(n * k);
                nearest(run, codewords, n as u64, k as u64, &samples[..k])?;
                mean_error(run, codewords, n as u64, k as u64, samples)?;
                let second = run.random.index(both.len());
                both[second] = run.random.pick(&edges(LIMIT));
                let (codewords, samples) = both.split_at(n * k);
                nearest(run, codewords, n as u64, k as u64, &samples[..k])?;
                mean_error(run, codewords, n as u64, k as u64, samples)?;
            }
        }
    }
    Ok(())
}

/// Sizes up to just above the limit, NaN and infinities, mixed: where the distances alone no longer tell whether every
/// codeword is within its limit.
fn far(run: &mut Run) -> Outcome {
    let sizes = [0.0, 1.0, LIMIT / 16.0, LIMIT / 8.0, LIMIT / 4.0, LIMIT / 2.0, (LIMIT / 2.0).next_up(), LIMIT];
    let mut all: Vec<f64> = sizes.iter().flat_map(|size| [*size, -size]).collect();
    let within = all.len();
    all.extend(edges(LIMIT));
    all.extend([1e200, -1e200, f64::MAX]);
    for _ in 0..run.rounds(10_000) {
        let (n, k) = (1 + run.random.index(9), 1 + run.random.index(5));
        // All but two of the values are within.
        let mut both: Vec<f64> = (0..(n + 1) * k).map(|_| run.random.pick(&all[..within])).collect();
        for _ in 0..2 {
            let place = run.random.index(both.len());
            both[place] = run.random.pick(&all);
        }
        let (codewords, block) = both.split_at(n * k);
        nearest(run, codewords, n as u64, k as u64, block)?;
        mean_error(run, codewords, n as u64, k as u64, block)?;
    }
    Ok(())
}

/// The largest codebook, and one sample more than is allowed.
fn largest(run: &mut Run) -> Outcome {
    let n = 1 << 20;
    let mut codewords = vec![2.0; n + 1];
    codewords[n - 1] = 1.0;
    nearest(run, &codewords[..n], n as u64, 1, &[0.0])?;
    mean_error(run, &codewords[..n], n as u64, 1, &[0.0, 3.0])?;
    nearest(run, &codewords, n as u64 + 1, 1, &[0.0])?;
    let most = 10_000_000;
    let samples = vec![0.0; most + 1];
    mean_error(run, &[1.0], 1, 1, &samples)?;
    if run.many {
        mean_error(run, &[1.0], 1, 1, &samples[..most])?;
    }
    Ok(())
}

/// Up to nine codewords, each 1, 2 or -2, in every order around 0: ties of the nearest and of others, side by side and
/// apart, in the fours and after them, undone by one that is nearer or not. The values stand at different coordinates.
fn ties(run: &mut Run) -> Outcome {
    for (n, k) in (1..=9).flat_map(|n| (1..=4).map(move |k| (n, k))) {
        for values in grid(&[1.0, 2.0, -2.0], n) {
            let mut codewords = vec![0.0; n * k];
            values.iter().enumerate().for_each(|(m, value)| codewords[m * k + m % k] = *value);
            nearest(run, &codewords, n as u64, k as u64, &[0.0; 4][..k])?;
        }
    }
    Ok(())
}

/// A codeword that stands at any two of up to 40 places, and the block there or elsewhere; and any number of copies.
fn copies(run: &mut Run) -> Outcome {
    for n in 2..=40 {
        for (first, second) in pairs(n) {
            let k = 1 + run.random.index(8);
            let mut codewords = values(&mut run.random, n * k, LIMIT);
            copy(&mut codewords, k, first, second);
            let block = codewords[first * k..(first + 1) * k].to_vec();
            nearest(run, &codewords, n as u64, k as u64, &block)?;
            let block = values(&mut run.random, k, LIMIT);
            nearest(run, &codewords, n as u64, k as u64, &block)?;
        }
    }
    for _ in 0..run.rounds(20_000) {
        let (n, k) = (1 + run.random.index(40), 1 + run.random.index(8));
        let mut codewords = values(&mut run.random, n * k, LIMIT);
        for _ in 0..run.random.index(n + 1) {
            copy(&mut codewords, k, run.random.index(n), run.random.index(n));
        }
        let block = values(&mut run.random, k, LIMIT);
        nearest(run, &codewords, n as u64, k as u64, &block)?;
    }
    Ok(())
}

fn copy(codewords: &mut [f64], k: usize, from: usize, to: usize) {
    codewords.copy_within(from * k..(from + 1) * k, to * k);
}

/// Two different places below n, in either order.
fn pairs(n: usize) -> impl Iterator<Item = (usize, usize)> {
    (0..n * n).map(move |pair| (pair / n, pair % n)).filter(|(first, second)| first != second)
}

/// A block and two codewords in units of 2^scale.
struct Units<'a> {
    scale: i32,
    block: &'a [i64],
    one: &'a [i64],
    other: &'a [i64],
}

/// Two exact distances that differ and become the same.
const BECOME_TIED: [Units; 10] = [
    // The smaller square is lost in the sum, before the larger or after it.
    Units { scale: 0, block: &[0, 0], one: &[1 << 53, 1], other: &[1 << 53, 2] },
    Units { scale: -53, block: &[0, 0], one: &[-3, 1 << 53], other: &[0, 1 << 53] },
    Units { scale: 20, block: &[1, 1, 1], one: &[5, 1, 1 << 60], other: &[4, -3, 1 << 60] },
    Units { scale: 7, block: &[0; 4], one: &[2, 1 << 60, 3, 1], other: &[1, 1 << 60, 1, 0] },
    // The square is rounded, and with it what was added to it.
    Units { scale: -60, block: &[0, 0], one: &[(1 << 53) - 1, 7], other: &[1 - (1 << 53), 1 << 20] },
    // The difference is rounded.
    Units { scale: 0, block: &[1 << 60], one: &[1], other: &[2] },
    Units { scale: -60, block: &[1, 1 << 60], one: &[1, -1], other: &[1, 5] },
    // The squares are too small for any value but 0, or for all their bits: at -540 the least value is 64.
    Units { scale: -600, block: &[0], one: &[1], other: &[-2] },
    Units { scale: -540, block: &[0], one: &[8], other: &[9] },
    Units { scale: -540, block: &[0, 0], one: &[8, 1], other: &[-8, 0] },
];

/// Two exact distances that are the same and become different: the sums go in another order, or the squares lose bits.
const BECOME_DIFFERENT: [Units; 2] = [
    Units {
        scale: 0,
        block: &[0; 4],
        one: &[1 << 53, 1 << 26, 1 << 26, 1 << 26],
        other: &[1 << 26, 1 << 26, 1 << 26, 1 << 53],
    },
    Units { scale: -540, block: &[0; 2], one: &[9, 12], other: &[15, 0] },
];

/// The mark is of the distances as they are rounded.
fn rounded(run: &mut Run) -> Outcome {
    for case in &BECOME_TIED {
        becomes_tied(run, case)?;
    }
    for _ in 0..run.rounds(100) {
        // A value of 53 bits beside one of at most 20, whose square is lost in the sum.
        let large = (1 << 52 | run.random.below(1 << 52)) as i64;
        let small = run.random.below(1 << 19) as i64;
        let larger = small + 1 + run.random.below(1 << 19) as i64;
        let other = run.random.pick(&[[large, larger], [-large, -larger], [larger, large]]);
        let scale = run.random.below(300) as i32 - 280;
        becomes_tied(run, &Units { scale, block: &[0, 0], one: &[large, small], other: &other })?;
    }
    for case in &BECOME_DIFFERENT {
        assert_eq!(exact(case.block, case.one), exact(case.block, case.other));
        everywhere(run, case, false)?;
    }
    Ok(())
}

fn becomes_tied(run: &mut Run, case: &Units) -> Outcome {
    assert_ne!(exact(case.block, case.one), exact(case.block, case.other));
    everywhere(run, case, true)
}

/// The squared distance of whole numbers below 2^61.
fn exact(block: &[i64], codeword: &[i64]) -> u128 {
    block.iter().zip(codeword).map(|(a, b)| u128::from(a.abs_diff(*b)).pow(2)).sum()
}

/// 2^100
const FAR: f64 = (1u128 << 100) as f64;

/// Both codewords at any two of up to nine places, among others that are farther.
fn everywhere(run: &mut Run, case: &Units, tied: bool) -> Outcome {
    let reals = |units: &[i64]| -> Vec<f64> {
        assert!(units.iter().all(|unit| *unit as f64 as i64 == *unit));
        units.iter().map(|unit| *unit as f64 * 2f64.powi(case.scale)).collect()
    };
    let (block, one, other) = (reals(case.block), reals(case.one), reals(case.other));
    assert_eq!(probe::distance(&block, &one) == probe::distance(&block, &other), tied);
    let k = block.len();
    for n in 2..=9 {
        for (first, second) in pairs(n) {
            let mut codewords = vec![FAR; n * k];
            codewords[first * k..(first + 1) * k].copy_from_slice(&one);
            codewords[second * k..(second + 1) * k].copy_from_slice(&other);
            nearest(run, &codewords, n as u64, k as u64, &block)?;
        }
    }
    Ok(())
}

fn nearest(run: &mut Run, codewords: &[f64], n: u64, k: u64, block: &[f64]) -> Outcome {
    let expected = nearest_expected(codewords, n, k, block);
    if let Ok((_, tied)) = expected {
        run.see(if tied { TIED } else { NOT_TIED });
    }
    let found = proved(nuqtelya::nearest(codewords, n, k, block));
    let found = found.map(|nearest| ((u64::from(nearest.index), nearest.distance), nearest.tied));
    run.same("nearest", &expected, &found, inputs!(codewords, n, k, block))
}

fn nearest_expected(codewords: &[f64], n: u64, k: u64, block: &[f64]) -> Answer<((u64, f64), bool)> {
    length(4, shaped(codewords.len(), n, k))?;
    length(5, block.len() as u64 == k)?;
    bounded(5, block, LIMIT)?;
    bounded(4, codewords, LIMIT)?;
    let found = probe::nearest_index(block, codewords, k as usize);
    Ok((found, probe::tied(block, codewords, k as usize, found.0 as usize)))
}

fn mean_error(run: &mut Run, codewords: &[f64], n: u64, k: u64, samples: &[f64]) -> Outcome {
    let expected = mean_error_expected(codewords, n, k, samples);
    let found = proved(nuqtelya::mean_error(codewords, n, k, samples));
    run.same("mean_error", &expected, &found, inputs!(codewords, n, k, samples))
}

fn mean_error_expected(codewords: &[f64], n: u64, k: u64, samples: &[f64]) -> Answer<f64> {
    length(4, shaped(codewords.len(), n, k))?;
    length(2, whole_samples(samples.len(), k))?;
    if samples.is_empty() {
        return refused(1, &[]);
    }
    bounded(2, samples, LIMIT)?;
    bounded(4, codewords, LIMIT)?;
    probe::mse_for_codebook(codewords, k as usize, samples)
}
