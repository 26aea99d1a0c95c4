//! Document 01's checks that the Rust lacks, and values on which ties, repairs and refusals are common.

use crate::run::refused;
use oracle::inputs::Random;
use oracle::lloyd::probe::Attempt;
use oracle::Answer;

/// 7 with this slice, unless it is as long as it has to be.
pub fn length(slice: u64, right: bool) -> Answer<()> {
    if right {
        Ok(())
    } else {
        refused(7, &[slice])
    }
}

/// Whether this many values are N codewords of k values, with k from 1 to 256 and N from 1 to 2^20.
pub fn shaped(len: usize, n: u64, k: u64) -> bool {
    (1..=256).contains(&k) && (1..=1 << 20).contains(&n) && len as u64 == n * k
}

/// Whether this many values are whole samples of k values, 10,000,000 at most.
pub fn whole_samples(len: usize, k: u64) -> bool {
    len as u64 % k == 0 && len as u64 / k <= 10_000_000
}

/// 18 with this slice, at the first value that is not finite or above the limit in size.
pub fn bounded(slice: u64, values: &[f64], limit: f64) -> Answer<()> {
    match values.iter().position(|v| !v.is_finite() || v.abs() > limit) {
        Some(place) => refused(18, &[slice, place as u64]),
        None => Ok(()),
    }
}

/// What an update or a training comes to with so many event slots: a repair is tested by 15 and 16 before it takes a
/// slot, and one that finds none left is refused by 19.
pub fn with_slots<T>(attempt: Attempt<T>, repairs: impl Fn(&T) -> u32, slots: usize) -> Answer<T> {
    let made = match &attempt {
        Ok(done) => repairs(done) as usize,
        Err(stopped) => stopped.repairs,
    };
    if made > slots {
        return refused(19, &[slots as u64]);
    }
    attempt.map_err(|stopped| stopped.refusal)
}

/// Values of one kind. Most kinds lie near 1; two reach the limit, which is a power of two.
pub fn values(random: &mut Random, len: usize, limit: f64) -> Vec<f64> {
    let kind = random.below(10);
    let mut value = || match kind {
        0..=2 => random.below(5) as f64 - 2.0,
        3 => random.below(33) as f64 / 8.0 - 2.0,
        4 | 5 => random.near_one(),
        6 => random.pick(&[0.0, -0.0, 1.0]),
        // Differences about as large as the least residual that has a direction, 2^-52.
        7 => random.below(9) as f64 * 2f64.powi(-54),
        8 => limit * random.pick(&[1.0, -1.0, 0.5, 1.0 - f64::EPSILON, 0.0]),
        // Any size: the exponent's part of the bits is at most the limit's.
        _ => {
            let sign = random.bits() << 63;
            let size = random.below(limit.to_bits() + 1);
            f64::from_bits(sign | size)
        }
    };
    (0..len).map(|_| value()).collect()
}

/// Samples of k values: of one kind, or a few of them again and again.
pub fn samples(random: &mut Random, count: usize, k: usize, limit: f64) -> Vec<f64> {
    let distinct = if random.one_in(3) { 1 + random.index(4) } else { count };
    let pool = values(random, distinct.min(count) * k, limit);
    let mut samples = pool.clone();
    while samples.len() < count * k {
        let place = k * random.index(pool.len() / k);
        samples.extend(&pool[place..place + k]);
    }
    samples
}

/// All lists of so many of these values.
pub fn grid<T: Copy>(values: &[T], len: usize) -> impl Iterator<Item = Vec<T>> + '_ {
    let power = |place: usize| values.len().pow(place as u32);
    let list = move |code| (0..len).map(|place| values[code / power(place) % values.len()]).collect();
    (0..power(len)).map(list)
}

/// What a value must not be under a limit, and what it may just be.
pub fn edges(limit: f64) -> [f64; 8] {
    let above = f64::from_bits(limit.to_bits() + 1);
    let below = f64::from_bits(limit.to_bits() - 1);
    [f64::NAN, f64::INFINITY, f64::NEG_INFINITY, above, -above, limit, -limit, below]
}

/// A slice that is one too short.
pub fn shorten<T>(values: &mut Vec<T>) {
    values.pop();
}

/// Values of N and k that no codebook has, or at the ends of what one may have.
pub const SHAPES: [(u64, u64); 20] = [
    (0, 0),
    (0, 1),
    (1, 0),
    (1, 1),
    (1, 256),
    (1, 257),
    (2, 257),
    ((1 << 20) + 1, 1),
    (1 << 20, 257),
    (1 << 32, 1),
    (1, 1 << 32),
    ((1 << 32) + 1, 1),
    (1, (1 << 32) + 1),
    (1 << 32, 1 << 32),
    (1 << 63, 2),
    (2, 1 << 63),
    (u64::MAX, 1),
    (1, u64::MAX),
    (u64::MAX, u64::MAX),
    (1 << 20, 256),
];
