//! Decoding of frames, sound and damaged: the values, and every buffer.

use super::codes::{faulty, frame, largest, Setup, FAULTS};
use super::profile::{published, validity};
use crate::inputs;
use crate::rules::length;
use crate::run::{lent, Outcome, Run};
use beside::proved;
use oracle::codec::probe;
use oracle::inputs::{fitting, Random};
use oracle::Answer;

pub fn run(run: &mut Run) -> Outcome {
    small(run)?;
    for _ in 0..run.rounds(4_000) {
        let (blocks, k, n) = (2 + run.random.index(10), 1 + run.random.index(8), 2 + run.random.index(40));
        random(run, blocks, k, n, 12)?;
    }
    for _ in 0..run.rounds(8) {
        let (blocks, k, n) = (2 + run.random.index(10), 1 + run.random.index(100), 2 + run.random.index(1_000));
        random(run, blocks, k, n, 4)?;
    }
    for (blocks, k, n) in largest(&mut run.random) {
        random(run, blocks, k, n, 2)?;
    }
    wrong(run)?;
    run.met(&[2, 6, 7, 8, 9, 10, 11, 12, 17, 18], &[])
}

/// d = 4, k = 2 and N = 3, so that an index can be 3 and there are bits of padding.
fn small_setup() -> Setup {
    let matrix = (0..16).map(|i| f64::from(i % 5) - 2.0).collect();
    Setup::new(4, 2, 3, matrix, vec![0.5, 0.25, -0.5, 1.0, 2.0, 0.0])
}

/// A small frame cut at every length, with every bit flipped, every two bits, every norm and every byte of indices.
fn small(run: &mut Run) -> Outcome {
    let setup = small_setup();
    let good = frame(&setup, &[1, 2], &[0x00, 0x3c]);
    right(run, &setup, &good)?;
    for len in 0..=good.len() {
        right(run, &setup, &good[..len])?;
        let longer = [&good[..], &vec![0; len]].concat();
        right(run, &setup, &longer)?;
    }
    for first in 0..8 * good.len() {
        for second in 0..=first {
            let mut flipped = good.clone();
            flipped[first / 8] ^= 1 << (first % 8);
            if second < first {
                flipped[second / 8] ^= 1 << (second % 8);
            }
            right(run, &setup, &flipped)?;
            if second % 8 == 0 {
                right(run, &setup, &flipped[..second / 8])?;
            }
        }
    }
    for norm in (0..=u16::MAX).step_by(if run.many { 1 } else { 7 }) {
        right(run, &setup, &frame(&setup, &[0, 2], &norm.to_le_bytes()))?;
    }
    for byte in 0..=u8::MAX {
        let mut damaged = good.clone();
        damaged[13] = byte;
        right(run, &setup, &damaged)?;
    }
    // Norms of other lengths, with sound indices and with one at N.
    for len in 0..6 {
        for index in [2, 3] {
            right(run, &setup, &frame(&setup, &[0, index], &vec![0x3c; len]))?;
        }
    }
    Ok(())
}

/// A sound frame, one with any norm, and damaged ones.
fn random(run: &mut Run, blocks: usize, k: usize, n: usize, damages: usize) -> Outcome {
    let setup = Setup::random(&mut run.random, blocks, k, n);
    let random = &mut run.random;
    let indices: Vec<u32> = (0..blocks).map(|_| random.index(n) as u32).collect();
    let any = random.below(0x7c00) as u16;
    let norm = random.pick(&[0x3c00, 0x4248, 0x0001, 0x03ff, 0x7bff, any]);
    let good = frame(&setup, &indices, &norm.to_le_bytes());
    right(run, &setup, &good)?;
    for _ in 0..damages {
        let damaged = damage(&mut run.random, good.clone());
        right(run, &setup, &damaged)?;
    }
    Ok(())
}

/// A few bits flipped, most often in the norm and the indices; now and then cut, or longer.
pub fn damage(random: &mut Random, mut bytes: Vec<u8>) -> Vec<u8> {
    for _ in 0..1 + random.below(3) {
        let place = if random.one_in(4) { random.index(bytes.len()) } else { 11 + random.index(bytes.len() - 11) };
        bytes[place] ^= 1 << random.below(8);
    }
    if random.one_in(8) {
        bytes.truncate(random.index(bytes.len()));
    } else if random.one_in(8) {
        bytes.push(0);
    }
    bytes
}

/// Frames that are sound, or refused by 8, 11, 10, 17 and 9, some by several.
fn frames(setup: &Setup) -> Vec<Vec<u8>> {
    let norm = [0x00, 0x3c];
    let sound = frame(setup, &[1, 2], &norm);
    vec![
        sound[..10].to_vec(),
        sound[..13].to_vec(),
        sound,
        frame(setup, &[1, 3], &norm),
        frame(setup, &[3, 2], &[0xff, 0xff]),
        frame(setup, &[1, 2], &[0x00, 0xbc]),
        frame(setup, &[1], &norm),
        frame(setup, &[1, 2, 0, 0, 0], &norm),
        probe::to_compact_bytes(2, 2, &norm, &[0xf9]),
        probe::to_compact_bytes(0, 2, &norm, &[]),
        probe::to_compact_bytes(3, 2, &norm, &[0x11]),
        Vec::new(),
    ]
}

/// Every two faults of the setup, the frame, the output's length and the work's; odd values anywhere.
fn wrong(run: &mut Run) -> Outcome {
    let good = small_setup();
    for bytes in frames(&good) {
        for setup in faulty(&good) {
            case(run, &setup, &bytes, 4, 8)?;
        }
        for output in [4, 3, 5, 0] {
            for work in [8, 7, 9, 0] {
                case(run, &good, &bytes, output, work)?;
                for fault in FAULTS {
                    let mut setup = good.clone();
                    fault(&mut setup);
                    case(run, &setup, &bytes, output, work)?;
                }
            }
        }
        // Codewords so large that some outputs are not finite in binary32, the first of them at another place each.
        for place in 0..16 {
            let mut setup = good.clone();
            setup.codewords = vec![1.0, 0.5, f32::MAX, -f32::MAX, f32::MAX, 1.0];
            setup.matrix.fill(0.0);
            setup.matrix[place] = 2.0;
            case(run, &setup, &bytes, 4, 8)?;
        }
    }
    Ok(())
}

/// With the right lengths.
fn right(run: &mut Run, setup: &Setup, bytes: &[u8]) -> Outcome {
    case(run, setup, bytes, setup.dim(), 2 * setup.dim())
}

fn case(run: &mut Run, setup: &Setup, bytes: &[u8], output_len: usize, work_len: usize) -> Outcome {
    // The work holds zeros once the values were worked out, also where one of them is not finite.
    let expected = match expected(setup, bytes, output_len, work_len) {
        Ok(values) => (Ok(()), (values, vec![0.0; work_len])),
        Err((12, place)) => (Err((12, place)), (lent(output_len), vec![0.0; work_len])),
        Err(refusal) => (Err(refusal), (lent(output_len), lent(work_len))),
    };
    let Setup { profile, log2, matrix, codewords } = setup;
    let shown = inputs!(profile, log2, matrix, codewords, bytes, output_len, work_len);
    run.same("decode", &expected, &call(setup, bytes, output_len, work_len), shown)
}

/// The proved answer, and the buffers after it.
pub fn call(setup: &Setup, bytes: &[u8], output_len: usize, work_len: usize) -> (Answer<()>, (Vec<f32>, Vec<f64>)) {
    let Setup { profile, log2, matrix, codewords } = setup;
    let given = beside::profile(profile, *log2);
    let (mut output, mut work) = (lent(output_len), lent(work_len));
    let answer = proved(nuqtelya::decode(&given, matrix, codewords, bytes, &mut output, &mut work));
    (answer, (output, work))
}

pub fn expected(setup: &Setup, bytes: &[u8], output: usize, work: usize) -> Answer<Vec<f32>> {
    // The frame is tested before the profile; this one is good.
    probe::from_compact_bytes(bytes, &fitting(4, 2, 3))?;
    validity(&setup.profile, setup.log2)?;
    setup.lengths()?;
    length(6, output == setup.dim())?;
    length(7, work == 2 * setup.dim())?;
    setup.values()?;
    probe::decode(bytes, &setup.codewords, &setup.matrix, &published(&setup.profile))
}
