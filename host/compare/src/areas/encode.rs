//! Encoding of vectors: the frame, the number of tied blocks, and every buffer. The norm's two bytes and refusal 10 are
//! document 02's (K3), from the conversion on whole numbers; all else is the Rust's.

use super::codes::{faulty, largest, Setup, FAULTS};
use super::norm::{ANOTHER_BIT, NOT_REFUSED};
use super::profile::{published, validity};
use crate::inputs;
use crate::rules::{grid, length};
use crate::run::{lent, Outcome, Run};
use beside::proved;
use oracle::binary16::middle;
use oracle::codec::probe::{self, Encoded};
use oracle::inputs::Random;
use oracle::Answer;

pub fn run(run: &mut Run) -> Outcome {
    small(run)?;
    for _ in 0..run.rounds(9_000) {
        let (blocks, k, n) = (2 + run.random.index(10), 1 + run.random.index(8), 2 + run.random.index(40));
        random(run, blocks, k, n, 4)?;
    }
    for _ in 0..run.rounds(8) {
        let (blocks, k, n) = (2 + run.random.index(10), 1 + run.random.index(100), 2 + run.random.index(1_000));
        random(run, blocks, k, n, 4)?;
    }
    for (blocks, k, n) in largest(&mut run.random) {
        let setup = Setup::random(&mut run.random, blocks, k, n);
        let input: Vec<f32> = (0..setup.dim()).map(|_| 1.0 + run.random.below(9) as f32).collect();
        right(run, &setup, &input)?;
    }
    wrong(run)?;
    tied(run)?;
    for _ in 0..run.rounds(2_000) {
        repeated(run)?;
    }
    // Every middle and, more often, the two beside which there is no pattern.
    for bits in (0..0x7c00).chain([0, 0x7bff].repeat(200)) {
        beside_middle(run, bits)?;
    }
    run.met(&[2, 6, 7, 10, 12, 13, 18], &[NO_BLOCK, SOME_BLOCKS, EVERY_BLOCK, ANOTHER_BIT, NOT_REFUSED])
}

// What a code shows.
const NO_BLOCK: &str = "no block tied";
const SOME_BLOCKS: &str = "some blocks tied";
const EVERY_BLOCK: &str = "every block tied";

/// Small whole numbers in every way, so that most searches meet a tie.
fn small(run: &mut Run) -> Outcome {
    let matrix = vec![1.0, 0.0, 0.0, 0.0, 0.0, -1.0, 0.0, 0.0, 0.0, 0.0, 0.0, 1.0, 0.0, 0.0, 1.0, 0.0];
    let codewords = [[0.5, 0.5, -0.5, 0.5, 0.5, 0.5], [0.0, 0.0, 1.0, 0.0, 0.0, 1.0], [-1.0, 1.0, 0.0, 0.0, 1.0, -1.0]];
    for codewords in codewords {
        let setup = Setup::new(4, 2, 3, matrix.clone(), codewords.to_vec());
        for input in grid(&[-1.0, -0.0, 0.0, 1.0, 2.0], 4) {
            right(run, &setup, &input)?;
        }
    }
    Ok(())
}

/// Every choice of tied blocks among 2 to 11: those that lie between two opposite codewords, which stand anywhere among
/// others that are farther and as far as each other.
fn tied(run: &mut Run) -> Outcome {
    for blocks in 2..=11 {
        let d = 2 * blocks;
        let unit: Vec<f64> = (0..d * d).map(|i| f64::from(i % (d + 1) == 0)).collect();
        for choice in 0..1 << blocks {
            let n = 2 + run.random.index(8);
            let mut codewords = vec![[5.0, 5.0]; n];
            let first = run.random.index(n);
            let second = (first + 1 + run.random.index(n - 1)) % n;
            (codewords[first], codewords[second]) = ([1.0, 0.0], [-1.0, 0.0]);
            let setup = Setup::new(d, 2, n, unit.clone(), codewords.concat());
            let block = |place| if choice >> place & 1 == 1 { [0.0, 1.0] } else { [1.0, 0.0] };
            let input: Vec<[f32; 2]> = (0..blocks).map(block).collect();
            right(run, &setup, &input.concat())?;
        }
    }
    Ok(())
}

/// Codewords of which some stand twice or more, or also with the other sign.
fn repeated(run: &mut Run) -> Outcome {
    let random = &mut run.random;
    let (blocks, k, n) = (2 + random.index(10), 1 + random.index(4), 2 + random.index(12));
    let mut setup = Setup::random(random, blocks, k, n);
    for _ in 0..random.index(n) {
        let (from, to, sign) = (k * random.index(n), k * random.index(n), random.pick(&[1.0, 1.0, -1.0]));
        (0..k).for_each(|j| setup.codewords[to + j] = sign * setup.codewords[from + j]);
    }
    encodings(run, &setup, 4)
}

/// A norm beside the middle from a binary16 to the next, mostly nearer to it than binary32 can tell: a first value that is
/// hardly less, and a small one that makes up the rest.
fn beside_middle(run: &mut Run, bits: u16) -> Outcome {
    let random = &mut run.random;
    let (blocks, k, n) = (2 + random.index(3), 1 + random.index(3), 2 + random.index(6));
    let setup = Setup::random(random, blocks, k, n);
    let target = middle(bits) * (1.0 + (random.below(7) as f64 - 3.0) * 2f64.powi(-26));
    let first = (target as f32).next_down();
    let second = (target * target - f64::from(first) * f64::from(first)).sqrt() as f32;
    let mut input = vec![0.0; setup.dim()];
    let place = random.index(input.len());
    let other = (place + 1 + random.index(input.len() - 1)) % input.len();
    (input[place], input[other]) = (first, random.pick(&[second, -second]));
    right(run, &setup, &input)
}

fn random(run: &mut Run, blocks: usize, k: usize, n: usize, inputs: usize) -> Outcome {
    let setup = Setup::random(&mut run.random, blocks, k, n);
    encodings(run, &setup, inputs)
}

fn encodings(run: &mut Run, setup: &Setup, inputs: usize) -> Outcome {
    for _ in 0..inputs {
        let input = vector(&mut run.random, setup.dim());
        right(run, setup, &input)?;
    }
    Ok(())
}

/// An input of one kind: small whole numbers, near 1, norms at both ends of what can be coded, or any values.
pub fn vector(random: &mut Random, d: usize) -> Vec<f32> {
    let kind = random.below(12);
    let mut value = || match kind {
        0..=3 => random.below(5) as f32 - 2.0,
        4 => random.near_one() as f32,
        5..=7 => random.near_one() as f32 * 2f32.powi(-8),
        8 => random.near_one() as f32 * 2f32.powi(-24),
        9 => random.near_one() as f32 * 2f32.powi(10),
        10 => random.pick(&[0.0, -0.0]),
        _ => random.f32(),
    };
    (0..d).map(|_| value()).collect()
}

/// Inputs that are sound, of a wrong length, or refused by 13, 12 and 10.
const INPUTS: [&[f32]; 10] = [
    &[1.0, 2.0, 3.0, 4.0],
    // Norms just above 1 + 2^-11 and just under 65,520, which two roundings would take to 1 and to infinity.
    &[1.0 + 1.0 / 2048.0, 1.0 / 524_288.0, 0.0, 0.0],
    &[65_519.996, 22.62, 0.0, 0.0],
    &[1.0, 2.0, 3.0],
    &[1.0, 2.0, 3.0, 4.0, 5.0],
    &[],
    &[0.0; 4],
    &[0.0, f32::NAN, 1.0, f32::INFINITY],
    &[1e-9, 0.0, 0.0, 0.0],
    &[65_504.0, 65_504.0, 0.0, 0.0],
];

/// Every two faults of the setup, the input, the output's length and the work's; odd values anywhere.
fn wrong(run: &mut Run) -> Outcome {
    let matrix = (0..16).map(|i| f64::from(i % 5)).collect();
    let good = Setup::new(4, 2, 3, matrix, vec![0.5, 0.5, -0.5, 0.5, 1.0, 0.0]);
    for input in INPUTS {
        for setup in faulty(&good) {
            case(run, &setup, input, good.frame_len(), 2 * good.dim())?;
        }
        wrong_lengths(run, &good, input)?;
    }
    for place in 0..4 {
        for odd in [f32::NAN, f32::INFINITY, f32::NEG_INFINITY, f32::MAX, -f32::MAX, 1e-45] {
            let mut input = [1.0, 2.0, 3.0, 4.0];
            input[place] = odd;
            right(run, &good, &input)?;
        }
    }
    Ok(())
}

/// Lengths of output and work wrong by one or 0, alone and with each fault.
fn wrong_lengths(run: &mut Run, good: &Setup, input: &[f32]) -> Outcome {
    let (frame, work) = (good.frame_len(), 2 * good.dim());
    for output in [frame, frame - 1, frame + 1, 0] {
        for work in [work, work - 1, work + 1, 0] {
            case(run, good, input, output, work)?;
            for fault in FAULTS {
                let mut setup = good.clone();
                fault(&mut setup);
                case(run, &setup, input, output, work)?;
            }
        }
    }
    Ok(())
}

/// With the right lengths.
fn right(run: &mut Run, setup: &Setup, input: &[f32]) -> Outcome {
    case(run, setup, input, setup.frame_len(), 2 * setup.dim())
}

fn case(run: &mut Run, setup: &Setup, input: &[f32], output_len: usize, work_len: usize) -> Outcome {
    // Completed, the output holds the frame and the work zeros; refused, both hold what they held.
    let expected = match expected(setup, input, output_len, work_len) {
        Ok(Encoded { frame, tied, published_norm, .. }) => {
            match published_norm {
                Some(norm) if norm != frame[probe::NORM] => run.see(ANOTHER_BIT),
                Some(_) => {}
                None => run.see(NOT_REFUSED),
            }
            run.see(match tied {
                0 => NO_BLOCK,
                _ if tied == setup.profile.ambient_dim / setup.profile.block_dim => EVERY_BLOCK,
                _ => SOME_BLOCKS,
            });
            (Ok(tied), (frame, vec![0.0; work_len]))
        }
        Err(refusal) => (Err(refusal), (lent(output_len), lent(work_len))),
    };
    let Setup { profile, log2, matrix, codewords } = setup;
    let shown = inputs!(profile, log2, matrix, codewords, input, output_len, work_len);
    run.same("encode", &expected, &call(setup, input, output_len, work_len), shown)
}

/// The proved answer, and the buffers after it.
pub fn call(setup: &Setup, input: &[f32], output_len: usize, work_len: usize) -> (Answer<u32>, (Vec<u8>, Vec<f64>)) {
    let Setup { profile, log2, matrix, codewords } = setup;
    let given = beside::profile(profile, *log2);
    let (mut output, mut work) = (lent(output_len), lent(work_len));
    let answer = proved(nuqtelya::encode(&given, matrix, codewords, input, &mut output, &mut work));
    (answer, (output, work))
}

pub fn expected(setup: &Setup, input: &[f32], output: usize, work: usize) -> Answer<Encoded> {
    validity(&setup.profile, setup.log2)?;
    setup.lengths()?;
    length(5, input.len() == setup.dim())?;
    length(6, output == setup.frame_len())?;
    length(7, work == 2 * setup.dim())?;
    setup.values()?;
    probe::encode_rounded_once(input, &setup.codewords, &setup.matrix, &published(&setup.profile))
}
