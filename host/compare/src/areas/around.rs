//! The codewords within a distance of a block (document 02, K1), and the blocks of a vector. The Rust has no such search:
//! what lies within is told by the distances that its own search finds for each codeword alone. The order of the list is
//! free, so its front is sorted before it is compared. The blocks are those that the published encoder searches for.

use super::codes::{faulty, Setup};
use super::encode::{self, vector};
use crate::inputs;
use crate::rules::{bounded, grid, length, shaped, shorten, values, SHAPES};
use crate::run::{refused, Outcome, Run};
use beside::proved;
use nuqtelya::{Coder, HEADER_LEN};
use oracle::bitpack::probe::unpack_indices;
use oracle::inputs::Random;
use oracle::lloyd::probe;
use oracle::Answer;

pub fn run(run: &mut Run) -> Outcome {
    small(run)?;
    tiny(run)?;
    huge(run)?;
    for _ in 0..run.rounds(40_000) {
        let (n, k) = (1 + run.random.index(20), 1 + run.random.index(8));
        random(run, n, k)?;
    }
    for _ in 0..run.rounds(2_000) {
        let (n, k) = (1 + run.random.index(300), 1 + run.random.index(16));
        random(run, n, k)?;
    }
    for _ in 0..run.rounds(200) {
        let (n, k) = (1 + run.random.index(40), 1 + run.random.index(256));
        random(run, n, k)?;
    }
    wrong_lengths(run)?;
    wrong_values(run)?;
    two_faults(run)?;
    largest(run)?;
    for _ in 0..run.rounds(8_000) {
        let (blocks, k, n) = (2 + run.random.index(8), 1 + run.random.index(4), 2 + run.random.index(20));
        let setup = Setup::random(&mut run.random, blocks, k, n);
        let input = vector(&mut run.random, setup.dim());
        encoded(run, &setup, &input)?;
    }
    refused_vectors(run)?;
    let radii = [VANISHES, OVERFLOWS, AT_RADIUS, ROUNDED_UP, BY_ROOT_ALONE, OTHER_ZERO];
    run.met(&[1, 2, 3, 4, 6, 7, 10, 12, 13, 18, 21], &[&[EMPTY, SOME, FULL, CHOSEN, NOT_CHOSEN], &radii[..]].concat())
}

// What a search shows,
const EMPTY: &str = "empty lists";
const SOME: &str = "lists of some";
const FULL: &str = "full lists";
const VANISHES: &str = "radii above zero with square zero";
const OVERFLOWS: &str = "radii with an infinite square";
// a codeword,
const AT_RADIUS: &str = "codewords exactly at the radius";
const ROUNDED_UP: &str = "codewords within since the square is rounded up";
const BY_ROOT_ALONE: &str = "codewords outside whose distance's root is within";
const OTHER_ZERO: &str = "exact hits by the other zero";
// and a block that was encoded.
const CHOSEN: &str = "encoded blocks with the chosen codeword within";
const NOT_CHOSEN: &str = "encoded blocks with none within";

/// The value, with both neighbours.
fn neighbours(value: f64) -> [f64; 3] {
    [value.next_down(), value, value.next_up()]
}

/// Few codewords of small values in every way, among them equal ones, and radii at which many lie exactly.
fn small(run: &mut Run) -> Outcome {
    let mut radii = vec![0.0, -0.0, 0.5, 1.0, 1.5, 2.0, 3.0];
    radii.extend([2.0, 3.0, 5.0].map(f64::sqrt).into_iter().flat_map(neighbours));
    every(run, 1, 3, &[-1.0, -0.0, 0.0, 0.5, 2.0], &radii)?;
    every(run, 2, 2, &[-1.0, 0.0, 0.5, 1.0], &radii)?;
    every(run, 2, 3, &[-1.0, 0.0, 1.0], &radii)?;
    every(run, 3, 2, &[-1.0, 0.0, 1.0], &radii)
}

/// Few multiples of the least value of binary32, whose square is far above the least of binary64; and radii about the one
/// whose square is the middle from zero to that.
fn tiny(run: &mut Run) -> Outcome {
    let least = f64::from(f32::from_bits(1));
    let mut radii = vec![0.0, -0.0, f64::from_bits(1), f64::MIN_POSITIVE, 2f64.powi(-540)];
    radii.extend([2f64.powi(-538), 2f64.sqrt() * 2f64.powi(-538), 2f64.powi(-537)].into_iter().flat_map(neighbours));
    let units = [0.5, 1.0, 2f64.sqrt(), 2.0, 5f64.sqrt(), 3.0];
    radii.extend(units.into_iter().flat_map(|units| neighbours(units * least)));
    let [one, two, three] = [1, 2, 3].map(f32::from_bits);
    every(run, 1, 2, &[-two, -one, -0.0, 0.0, one, three], &radii)?;
    every(run, 2, 2, &[-one, 0.0, two], &radii)
}

/// The largest values, and radii about their distances and about the least whose square is infinite.
fn huge(run: &mut Run) -> Outcome {
    let most = f64::from(f32::MAX);
    let mut radii = vec![0.0, 1.0, 1e200, f64::MAX];
    radii.extend([most / 2.0, most, 2.0 * most, 8f64.sqrt() * most, 2f64.powi(512)].into_iter().flat_map(neighbours));
    every(run, 1, 2, &[f32::MAX, -f32::MAX, f32::MAX / 2.0, 0.0, 1.0], &radii)?;
    every(run, 2, 2, &[f32::MAX, -f32::MAX, 1.0], &radii)?;
    let codewords = [[f32::MAX; 256], [-f32::MAX; 256]].concat();
    for radius in neighbours(32.0 * most).into_iter().chain(radii) {
        right(run, &codewords, 256, &[f32::MAX; 256], radius)?;
    }
    Ok(())
}

/// Up to `most` codewords and a block, of these values in every way, with each radius.
fn every(run: &mut Run, k: usize, most: usize, values: &[f32], radii: &[f64]) -> Outcome {
    for n in 1..=most {
        for codewords in grid(values, n * k) {
            for block in grid(values, k) {
                for radius in radii {
                    right(run, &codewords, k, &block, *radius)?;
                }
            }
        }
    }
    Ok(())
}

/// Values of one kind, some codewords equal; radii at a codeword's distance and beside it, and others.
fn random(run: &mut Run, n: usize, k: usize) -> Outcome {
    let random = &mut run.random;
    let mut codewords = singles(random, (n + 1) * k, 2f64.powi(127));
    let mut block = codewords.split_off(n * k);
    for _ in 0..random.index(n) / 2 {
        let from = k * random.index(n);
        codewords.copy_within(from..from + k, k * random.index(n));
    }
    let place = k * random.index(n);
    match random.below(8) {
        0 => block.copy_from_slice(&codewords[place..place + k]),
        1 => {
            block.copy_from_slice(&codewords[place..place + k]);
            let place = random.index(k);
            block[place] = random.pick(&[block[place].next_up(), -block[place]]);
        }
        _ => {}
    }
    let distance = probe::distance(&wide(&block), &wide(&codewords[place..place + k]));
    let other = match random.below(4) {
        0 => random.f64(),
        1 => random.below(5) as f64 / 2.0,
        _ => random.near_one().abs(),
    };
    for radius in neighbours(distance.sqrt()).into_iter().chain([other]) {
        right(run, &codewords, k, &block, radius)?;
    }
    Ok(())
}

/// Values of one kind, as binary32.
fn singles(random: &mut Random, len: usize, limit: f64) -> Vec<f32> {
    values(random, len, limit).into_iter().map(|value| value as f32).collect()
}

/// Lengths wrong by one or by a codeword, empty slices, and N and k that no codebook has.
fn wrong_lengths(run: &mut Run) -> Outcome {
    let some = vec![1.0; 600];
    for (n, k) in [(1, 1), (3, 2), (2, 3), (1, 256), (5, 4)] {
        for len in [n * k, n * k - 1, n * k + 1, (n - 1) * k, (n + 1) * k, 0] {
            for block in [k, k - 1, k + 1, 2 * k, 0] {
                for room in [n, n - 1, n + 1, n * k, 0] {
                    case(run, &some[..len], n as u64, k as u64, &some[..block], 1.0, room)?;
                }
            }
        }
    }
    for (n, k) in SHAPES {
        let right = n.wrapping_mul(k).min(600) as usize;
        for len in [0, 1, 2, 256, 257, 514, right] {
            for room in [0, 1, n.min(600) as usize] {
                case(run, &some[..len], n, k, &some[..k.min(300) as usize], 1.0, room)?;
            }
        }
    }
    Ok(())
}

const ODD: [f32; 3] = [f32::NAN, f32::INFINITY, f32::NEG_INFINITY];

/// What a radius must not be, or may just be.
const RADII: [f64; 12] = [
    f64::NAN,
    -f64::NAN,
    f64::INFINITY,
    f64::NEG_INFINITY,
    -1.0,
    -f64::MAX,
    -f64::MIN_POSITIVE,
    -f64::from_bits(1),
    -0.0,
    0.0,
    f64::from_bits(1),
    f64::MAX,
];

/// NaN and infinities anywhere; two of them show the order. Each with every radius.
fn wrong_values(run: &mut Run) -> Outcome {
    for (n, k) in [(1, 1), (2, 1), (3, 2), (5, 4)] {
        for odd in ODD {
            for place in 0..(n + 1) * k {
                let mut both = singles(&mut run.random, (n + 1) * k, 4.0);
                every_radius(run, &both, k)?;
                both[place] = odd;
                every_radius(run, &both, k)?;
                let second = run.random.index(both.len());
                both[second] = run.random.pick(&ODD);
                every_radius(run, &both, k)?;
            }
        }
    }
    Ok(())
}

/// A block, and the codewords after it.
fn every_radius(run: &mut Run, both: &[f32], k: usize) -> Outcome {
    RADII.into_iter().try_for_each(|radius| right(run, &both[k..], k, &both[..k], radius).map(drop))
}

/// All that a search is handed.
struct Handed {
    codewords: Vec<f32>,
    n: u64,
    k: u64,
    block: Vec<f32>,
    radius: f64,
    room: usize,
}

/// What makes it wrong, each refusal in several ways.
const FAULTS: [fn(&mut Handed); 24] = [
    |h| shorten(&mut h.codewords),
    |h| h.codewords.push(0.0),
    |h| h.codewords.clear(),
    |h| h.n = 0,
    |h| h.n += 1,
    |h| h.n = (1 << 20) + 1,
    |h| h.k = 0,
    |h| h.k += 1,
    |h| h.k = 257,
    |h| shorten(&mut h.block),
    |h| h.block.push(0.0),
    |h| h.block.clear(),
    |h| h.room = h.room.saturating_sub(1),
    |h| h.room += 1,
    |h| h.room = 0,
    |h| h.block.iter_mut().for_each(|v| *v = f32::NAN),
    |h| h.block.last_mut().into_iter().for_each(|v| *v = f32::INFINITY),
    |h| h.codewords.iter_mut().for_each(|v| *v = f32::NEG_INFINITY),
    |h| h.codewords.last_mut().into_iter().for_each(|v| *v = f32::NAN),
    |h| h.radius = f64::NAN,
    |h| h.radius = f64::INFINITY,
    |h| h.radius = f64::NEG_INFINITY,
    |h| h.radius = -1.0,
    |h| h.radius = -f64::from_bits(1),
];

/// Every two faults.
fn two_faults(run: &mut Run) -> Outcome {
    for (n, k) in [(1, 1), (2, 1), (1, 3), (3, 2)] {
        for first in FAULTS {
            for second in FAULTS {
                let (codewords, block) = (vec![0.5; n * k], vec![0.5; k]);
                let mut handed = Handed { codewords, n: n as u64, k: k as u64, block, radius: 1.0, room: n };
                first(&mut handed);
                second(&mut handed);
                let Handed { codewords, n, k, block, radius, room } = handed;
                case(run, &codewords, n, k, &block, radius, room)?;
            }
        }
    }
    Ok(())
}

/// The largest codebook, and one codeword more than is allowed.
fn largest(run: &mut Run) -> Outcome {
    let n = 1 << 20;
    let codewords: Vec<f32> = (0..=n).map(|m| (m % 5) as f32).collect();
    for radius in [0.0, 1.0, 2f64.powi(512), f64::NAN] {
        right(run, &codewords[..n], 1, &[0.0], radius)?;
    }
    right(run, &codewords, 1, &[0.0], 1.0).map(drop)
}

/// A vector whose blocks are those that the published encoder searches for. What is nearest to each stands in the frame, and
/// is within wherever any codeword is.
fn encoded(run: &mut Run, setup: &Setup, input: &[f32]) -> Outcome {
    let Some(blocks) = blocks(run, setup, input)? else { return Ok(()) };
    let (_, (frame, _)) = encode::call(setup, input, setup.frame_len(), 2 * setup.dim());
    let indices = unpack_indices(&frame[HEADER_LEN + 2..], setup.blocks() as u64, setup.profile.wire_index_bits);
    let (codewords, k) = (&setup.codewords, setup.profile.block_dim as usize);
    for (block, index) in blocks.chunks_exact(k).zip(indices.expect("a frame")) {
        let (nearest, distance) = probe::nearest_index(&wide(block), &wide(codewords), k);
        run.same("the index of a block", &(nearest as u32), &index, inputs!(codewords, block))?;
        let [before, root, after] = neighbours(distance.sqrt());
        let radius = run.random.pick(&[before.max(0.0), root, after, 0.9 * root, 1.5 * root]);
        let within = right(run, codewords, k, block, radius)?;
        run.see(if within.is_empty() { NOT_CHOSEN } else { CHOSEN });
        if !within.is_empty() && !within.contains(&index) {
            return Err(format!("the chosen codeword {index} is not within{}", inputs!(codewords, block, radius)()));
        }
    }
    Ok(())
}

/// One case of `Coder::blocks`; none where it is refused.
fn blocks(run: &mut Run, setup: &Setup, input: &[f32]) -> Result<Option<Vec<f32>>, String> {
    let Setup { profile, log2, matrix, codewords } = setup;
    let expected = encode::expected(setup, input, setup.frame_len(), 2 * setup.dim());
    let coder = Coder::new(beside::profile(profile, *log2), matrix, codewords);
    let blocks = proved(coder.and_then(|mut coder| coder.blocks(input)));
    // The sign of a zero is not compared, as in `apply`: releases of Rust differ in where a sum starts.
    let unsigned = |blocks: Vec<f32>| -> Vec<f32> { blocks.into_iter().map(|value| value + 0.0).collect() };
    let (expected, found) = (expected.map(|code| unsigned(code.blocks)), blocks.clone().map(unsigned));
    run.same("blocks", &expected, &found, inputs!(profile, log2, matrix, codewords, input))?;
    Ok(blocks.ok())
}

/// Every two faults of the coder beside vectors that are sound, of a wrong length, or refused by 13, 12 and 10.
fn refused_vectors(run: &mut Run) -> Outcome {
    let matrix = (0..16).map(|i| f64::from(i % 5)).collect();
    let good = Setup::new(4, 2, 3, matrix, vec![0.5, 0.5, -0.5, 0.5, 1.0, 0.0]);
    let inputs: [&[f32]; 6] =
        [&[1.0, 2.0, 3.0, 4.0], &[1.0; 3], &[], &[0.0; 4], &[0.0, f32::NAN, 1.0, 1.0], &[1e-9, 0.0, 0.0, 0.0]];
    for input in inputs {
        for setup in faulty(&good) {
            blocks(run, &setup, input)?;
        }
    }
    Ok(())
}

/// With the right lengths.
fn right(run: &mut Run, codewords: &[f32], k: usize, block: &[f32], radius: f64) -> Result<Vec<u32>, String> {
    let n = codewords.len() / k;
    case(run, codewords, n as u64, k as u64, block, radius, n)
}

/// One case: the numbers of those within, none where it is refused. The rest of the list is left as it was, and of a refusal
/// all of it.
fn case(
    run: &mut Run,
    codewords: &[f32],
    n: u64,
    k: u64,
    block: &[f32],
    radius: f64,
    room: usize,
) -> Result<Vec<u32>, String> {
    let expected = distances(codewords, n, k, block, radius, room).map(|distances| {
        let within = numbers(distances.iter().map(|distance| *distance <= radius * radius));
        shows(run, codewords, block, radius, &distances, &within);
        within
    });
    // Numbers that no codeword has.
    let before: Vec<u32> = (0..room as u32).map(|place| !place).collect();
    let mut list = before.clone();
    let answer = proved(nuqtelya::codewords_within(codewords, n, k, block, radius, &mut list));
    let found = answer.as_ref().map_or(0, |count| room.min(*count));
    list[..found].sort_unstable();
    let within = expected.clone().unwrap_or_default();
    let after = [&within[..], &before[within.len()..]].concat();
    let expected = (expected.map(|within| within.len()), after);
    run.same("codewords_within", &expected, &(answer, list), inputs!(codewords, n, k, block, radius, room))?;
    Ok(within)
}

/// Every check, and then the distance to each codeword.
fn distances(codewords: &[f32], n: u64, k: u64, block: &[f32], radius: f64, room: usize) -> Answer<Vec<f64>> {
    length(4, shaped(codewords.len(), n, k))?;
    length(5, block.len() as u64 == k)?;
    length(6, room as u64 == n)?;
    let (block, codewords) = (wide(block), wide(codewords));
    bounded(5, &block, f64::MAX)?;
    bounded(4, &codewords, f64::MAX)?;
    if radius < 0.0 || !radius.is_finite() {
        return refused(21, &[]);
    }
    Ok(codewords.chunks_exact(k as usize).map(|codeword| probe::distance(&block, codeword)).collect())
}

fn wide(values: &[f32]) -> Vec<f64> {
    values.iter().map(|value| f64::from(*value)).collect()
}

/// The numbers of those of which it holds.
fn numbers(holds: impl Iterator<Item = bool>) -> Vec<u32> {
    (0..).zip(holds).filter(|(_, holds)| *holds).map(|(number, _)| number).collect()
}

fn shows(run: &mut Run, codewords: &[f32], block: &[f32], radius: f64, distances: &[f64], within: &[u32]) {
    run.see(match within.len() {
        0 => EMPTY,
        count if count == distances.len() => FULL,
        _ => SOME,
    });
    let square = radius * radius;
    if square == 0.0 {
        // Different values of binary32 are too far from each other for the square of their distance to become zero.
        let equal = |codeword: &[f32]| codeword == block;
        assert_eq!(within, numbers(codewords.chunks_exact(block.len()).map(equal)));
        let bits = |values: &[f32]| values.iter().map(|value| value.to_bits()).collect::<Vec<_>>();
        let other = |codeword: &&[f32]| equal(codeword) && bits(codeword) != bits(block);
        codewords.chunks_exact(block.len()).filter(other).for_each(|_| run.see(OTHER_ZERO));
        if radius != 0.0 {
            run.see(VANISHES);
        }
    }
    if square.is_infinite() {
        run.see(OVERFLOWS);
    }
    // The sign of what the rounding of the square took away.
    let lost = radius.mul_add(radius, -square);
    for distance in distances {
        if *distance == square {
            run.see(AT_RADIUS);
            if lost < 0.0 {
                run.see(ROUNDED_UP);
            }
        } else if *distance > square && distance.sqrt() <= radius {
            run.see(BY_ROOT_ALONE);
        }
    }
}
