//! Compact frames, written and parsed.

use crate::inputs;
use crate::run::{lent, refused, with_buffer, Outcome, Run, Same};
use beside::proved;
use oracle::codec::probe::{self, Frame};
use oracle::inputs::fitting;

pub fn run(run: &mut Run) -> Outcome {
    for _ in 0..run.rounds(300) {
        random(run)?;
    }
    // Every width, with a count whose indices end on a byte, one after, one before.
    for width in 0..=u8::MAX {
        for count in [0, 1, 2, 7, 8, 9] {
            let right = (count as usize * usize::from(width)).div_ceil(8);
            for len in [right, right + 1, right.saturating_sub(1)] {
                let bytes = probe::to_compact_bytes(width, count, &[0, 0x3c], &vec![0; len]);
                parse(run, &bytes)?;
            }
        }
    }
    // Counts whose indices could never be held.
    for width in [0, 1, 32, 255] {
        for count in [u32::MAX, u32::MAX - 7, 1 << 31, 1 << 29] {
            for len in 0..3 {
                let bytes = probe::to_compact_bytes(width, count, &[0, 0x3c], &vec![0; len]);
                parse(run, &bytes)?;
            }
        }
    }
    // Norms at the longest that can be written.
    for norm in [65_534, 65_535, 65_536, 65_537, 65_538, 70_000] {
        let norm = run.random.bytes(norm);
        for indices in [0, 5] {
            write(run, 8, indices, &norm, &vec![1; indices as usize])?;
        }
    }
    noise(run)
}

/// A random frame: written, parsed, cut at every length, with every bit flipped, and damaged further.
fn random(run: &mut Run) -> Outcome {
    let width = if run.random.one_in(4) { run.random.bits() as u8 } else { 1 + run.random.below(32) as u8 };
    let count = run.random.below(12) as u32;
    let norm_len = run.random.pick(&[2, 2, 2, 0, 1, 3, 4, 20]);
    let norm = run.random.bytes(norm_len);
    let right = (count as usize * usize::from(width)).div_ceil(8);
    let indices = run.random.bytes(right);
    write(run, width, count, &norm, &indices)?;
    // Writing takes width, count and parts as they are.
    let (any_width, any_count) = (run.random.bits() as u8, run.random.bits() as u32);
    write(run, any_width, any_count, &norm, &indices)?;

    let good = probe::to_compact_bytes(width, count, &norm, &indices);
    for len in 0..=good.len() {
        parse(run, &good[..len])?;
    }
    for bit in 0..8 * good.len() {
        let mut flipped = good.clone();
        flipped[bit / 8] ^= 1 << (bit % 8);
        parse(run, &flipped)?;
        // Two faults at once show the order of the checks.
        let cut = run.random.below(good.len() as u64 + 1) as usize;
        parse(run, &flipped[..cut])?;
    }
    for _ in 0..50 {
        let mut damaged = good.clone();
        for _ in 0..1 + run.random.below(4) {
            let place = run.random.below(good.len() as u64) as usize;
            damaged[place] = run.random.bits() as u8;
        }
        if run.random.one_in(3) {
            let more = run.random.below(5) as usize;
            damaged.extend(run.random.bytes(more));
        }
        parse(run, &damaged)?;
    }
    Ok(())
}

/// Any bytes, most of them after a right beginning.
fn noise(run: &mut Run) -> Outcome {
    for _ in 0..run.rounds(20_000) {
        let len = run.random.below(40) as usize;
        let mut bytes = run.random.bytes(len);
        let begin = run.random.below(5) as usize;
        for (byte, right) in bytes.iter_mut().zip([0x46, 0x42, 0x31, 0x01]).take(begin) {
            *byte = right;
        }
        // Small counts and norms, so that some lengths are right.
        for place in [6, 7, 8, 10] {
            if place < len && !run.random.one_in(8) {
                bytes[place] = 0;
            }
        }
        for place in [4, 5, 9] {
            if place < len && !run.random.one_in(8) {
                bytes[place] %= 8;
            }
        }
        parse(run, &bytes)?;
    }
    Ok(())
}

/// Writes to an output of the right length and to ones that are wrong by one.
fn write(run: &mut Run, width: u8, count: u32, norm: &[u8], indices: &[u8]) -> Outcome {
    let right = 11 + norm.len() + indices.len();
    for len in [right, right - 1, right + 1, 0] {
        let expected = if norm.len() > 65_535 {
            refused(7, &[11])
        } else if len != right {
            refused(7, &[6])
        } else {
            Ok(probe::to_compact_bytes(width, count, norm, indices))
        };
        let mut out = lent(len);
        let answer = proved(nuqtelya::write_frame(&nuqtelya::Frame { width, count, norm, indices }, &mut out));
        let shown = inputs!(width, count, norm, indices, len);
        run.same("write_frame", &with_buffer(expected, len), &(answer, out), shown)?;
    }
    Ok(())
}

fn parse(run: &mut Run, bytes: &[u8]) -> Outcome {
    // The profile is tested after the frame and is a good one.
    let expected = probe::from_compact_bytes(bytes, &fitting(8, 4, 4));
    run.same("parse_frame", &expected, &beside::parse_frame(bytes), inputs!(bytes))
}

impl Same for Frame {
    fn same(&self, other: &Self) -> bool {
        self.width == other.width
            && self.count == other.count
            && self.norm == other.norm
            && self.indices == other.indices
    }
    fn hex(&self) -> String {
        format!(
            "width {}, count {}, norm {}, indices {}",
            self.width.hex(),
            self.count.hex(),
            self.norm.hex(),
            self.indices.hex()
        )
    }
}
