//! Packing and unpacking of indices.

use crate::inputs;
use crate::run::{lent, refused, with_buffer, Outcome, Run};
use beside::proved;
use oracle::bitpack::probe;

pub fn run(run: &mut Run) -> Outcome {
    small(run)?;
    single_bits(run)?;
    for width in 1..=32 {
        for count in 0..40 {
            for _ in 0..run.rounds(20) {
                random(run, width, count)?;
            }
        }
    }
    for _ in 0..run.rounds(2_000) {
        let width = 1 + run.random.below(32) as u8;
        let count = run.random.below(500) as usize;
        random(run, width, count)?;
    }
    wrong_widths(run)?;
    large_counts(run)
}

/// All indices of one bit more than the width, up to four of them, and all bytes of up to two.
fn small(run: &mut Run) -> Outcome {
    for width in 1..=3u8 {
        let values = 1u32 << (width + 1);
        for count in 0..=4usize {
            for code in 0..values.pow(count as u32) {
                let indices: Vec<u32> = (0..count as u32).map(|i| code / values.pow(i) % values).collect();
                pack(run, &indices, width, packed_len(count, width))?;
            }
        }
    }
    for width in 1..=17u8 {
        for count in 0..=(17 / u64::from(width)) {
            unpack(run, &[], count, width, count as usize)?;
            for code in 0..=u16::MAX {
                unpack(run, &code.to_le_bytes(), count, width, count as usize)?;
            }
            for byte in 0..=u8::MAX {
                unpack(run, &[byte], count, width, count as usize)?;
            }
        }
    }
    Ok(())
}

/// Each bit of a packing alone, padding bits too, and all but it: at every width, of one to nine indices, so that they start
/// at every bit of a byte at which an index of that width can.
fn single_bits(run: &mut Run) -> Outcome {
    for width in 1..=32u8 {
        for count in 1..=9usize {
            let len = packed_len(count, width);
            for bit in 0..8 * len {
                let mut bytes = vec![0u8; len];
                bytes[bit / 8] = 1 << (bit % 8);
                unpack(run, &bytes, count as u64, width, count)?;
                // All others, but no padding.
                let mut others: Vec<u8> = bytes.iter().map(|byte| !byte).collect();
                let used = count * usize::from(width) - 8 * (len - 1);
                others[len - 1] &= u8::MAX >> (8 - used);
                unpack(run, &others, count as u64, width, count)?;
            }
        }
    }
    Ok(())
}

/// A random list of indices: packed, unpacked, damaged, and with lengths wrong by one.
fn random(run: &mut Run, width: u8, count: usize) -> Outcome {
    let mut indices: Vec<u32> = (0..count).map(|_| (run.random.bits() as u32) >> (32 - u32::from(width))).collect();
    let len = packed_len(count, width);
    pack(run, &indices, width, len)?;
    pack(run, &indices, width, len + 1)?;
    if len > 0 {
        pack(run, &indices, width, len - 1)?;
    }

    let good = probe::pack_indices(&indices, width).expect("these fit");
    unpack(run, &good, count as u64, width, count)?;
    unpack(run, &good, count as u64, width, count + 1)?;
    unpack(run, &good, count as u64 + 1, width, count + 1)?;
    if count > 0 {
        unpack(run, &good, count as u64, width, count - 1)?;
        unpack(run, &good, count as u64 - 1, width, count - 1)?;
        unpack(run, &good[..len - 1], count as u64, width, count)?;
        // A bit flipped, most often among the last: there the padding is.
        let mut damaged = good.clone();
        let bit = if run.random.one_in(3) {
            run.random.below(8 * len as u64)
        } else {
            8 * len as u64 - 1 - run.random.below(8)
        };
        damaged[bit as usize / 8] ^= 1 << (bit % 8);
        unpack(run, &damaged, count as u64, width, count)?;
        unpack(run, &damaged, count as u64, width, count - 1)?;
    }
    let mut longer = good.clone();
    longer.push(0);
    unpack(run, &longer, count as u64, width, count)?;
    let noise = run.random.bytes(len);
    unpack(run, &noise, count as u64, width, count)?;

    // Some indices too large, by one or by much.
    if count > 0 && width < 32 {
        for _ in 0..1 + run.random.below(2) {
            let place = run.random.below(count as u64) as usize;
            let large = (run.random.bits() as u32).max(1 << width);
            indices[place] = run.random.pick(&[1 << width, large, u32::MAX]);
        }
        pack(run, &indices, width, len)?;
        pack(run, &indices, width, len + 1)?;
    }
    Ok(())
}

fn wrong_widths(run: &mut Run) -> Outcome {
    for width in (33..=u8::MAX).chain([0]) {
        for count in 0..4usize {
            let indices = vec![u32::MAX; count];
            for len in [0, 1, packed_len(count, width)] {
                pack(run, &indices, width, len)?;
                unpack(run, &vec![0xff; len], count as u64, width, count)?;
                unpack(run, &vec![0xff; len], count as u64, width, len)?;
            }
            unpack(run, &[], u64::MAX, width, 0)?;
        }
    }
    Ok(())
}

/// Counts around each at which the bits no longer fit 64 bits, and around the powers of two.
fn large_counts(run: &mut Run) -> Outcome {
    for width in 1..=32u8 {
        let limit = u64::MAX / u64::from(width);
        let below = (u64::MAX - 7) / u64::from(width);
        let powers = (20..64).map(|i| 1u64 << i);
        for center in powers.chain([limit, below, u64::MAX]) {
            for step in 0..9 {
                let count = center.wrapping_add(step).wrapping_sub(4);
                // From there on the counts are small, and the bytes could fit.
                if count < 1 << 16 {
                    continue;
                }
                for len in [0, 1, 8] {
                    unpack(run, &vec![0; len], count, width, len)?;
                }
            }
        }
    }
    Ok(())
}

fn packed_len(count: usize, width: u8) -> usize {
    (count * usize::from(width)).div_ceil(8)
}

/// Packs into `len` bytes. The published function makes its own output, so its length is compared here.
fn pack(run: &mut Run, indices: &[u32], width: u8, len: usize) -> Outcome {
    let mut expected = probe::pack_indices(indices, width);
    // Width and size are tested before the output, the indices after it.
    if !matches!(expected, Err((9 | 5, _))) && len != packed_len(indices.len(), width) {
        expected = refused(7, &[6]);
    }
    let mut out = lent(len);
    let answer = proved(nuqtelya::pack_indices(indices, width, &mut out));
    run.same("pack", &with_buffer(expected, len), &(answer, out), inputs!(indices, width, len))
}

/// Unpacks into `len` indices.
fn unpack(run: &mut Run, bytes: &[u8], count: u64, width: u8, len: usize) -> Outcome {
    let mut expected = probe::unpack_indices(bytes, count, width);
    if expected.is_ok() && len as u64 != count {
        expected = refused(7, &[6]);
    }
    let mut out = lent(len);
    let answer = proved(nuqtelya::unpack_indices(bytes, count, width, &mut out));
    run.same("unpack", &with_buffer(expected, len), &(answer, out), inputs!(bytes, count, width, len))
}
