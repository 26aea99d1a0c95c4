//! Frames with the norm in the other format (document 02, K9): the new frame or the refusal, and every byte of the output;
//! and that a converted code is read as the Rust would read the one that it comes from.

use super::codes::{frame, Setup};
use super::decode::{self, damage};
use super::profile::validity;
use crate::inputs;
use crate::rules::length;
use crate::run::{lent, refused, with_buffer, Outcome, Run};
use beside::proved;
use oracle::binary16::{self, middle, value};
use oracle::codec::probe::{self, Frame};
use oracle::inputs::{fitting, Random};
use oracle::Answer;
use std::ops::Range;

pub fn run(run: &mut Run) -> Outcome {
    two_bytes(run)?;
    four_bytes(run)?;
    small(run)?;
    wrong(run)?;
    long(run)?;
    for _ in 0..run.rounds(10_000) {
        random(run)?;
    }
    for _ in 0..run.rounds(4_000) {
        live(run)?;
    }
    let seen = [TO_TWO, TO_FOUR, LIVE_CONVERTED, LIVE_INEXACT, LIVE_READ];
    run.met(&[1, 2, 3, 4, 5, 6, 7, 8, 9, 10, 11, 12, 17, 27], &seen)
}

// What a case shows.
const TO_TWO: &str = "norms written in two bytes";
const TO_FOUR: &str = "norms written in four bytes";
const LIVE_CONVERTED: &str = "live codes converted";
const LIVE_INEXACT: &str = "live codes refused by 27";
const LIVE_READ: &str = "converted live codes read";

/// A direction: how many bytes a norm has before and after, what is written of one, and the proved function.
pub struct Way {
    name: &'static str,
    from: usize,
    to: usize,
    shows: &'static str,
    norm: fn(&[u8]) -> Answer<Vec<u8>>,
    proved: fn(&nuqtelya::Profile, &[u8], &mut [u8]) -> Result<(), nuqtelya::Refusal>,
}

pub const TO_F16: Way =
    Way { name: "frame_to_f16", from: 4, to: 2, shows: TO_TWO, norm: two_bytes_of, proved: nuqtelya::frame_to_f16 };
const TO_F32: Way =
    Way { name: "frame_to_f32", from: 2, to: 4, shows: TO_FOUR, norm: four_bytes_of, proved: nuqtelya::frame_to_f32 };

impl Way {
    /// How long the new frame is, where the old one's norm has the right length.
    pub fn len(&self, bytes: &[u8]) -> usize {
        (bytes.len() + self.to).saturating_sub(self.from)
    }

    fn back(&self) -> Way {
        if self.to == 2 {
            TO_F32
        } else {
            TO_F16
        }
    }
}

/// A norm of four bytes in two: 10 as the published reader has it, then 27 unless binary16 has the very value.
fn two_bytes_of(norm: &[u8]) -> Answer<Vec<u8>> {
    let value = probe::decode_norm_f32(norm)?;
    let single = u32::from_le_bytes(norm.try_into().expect("four bytes"));
    let Some(half) = binary16::exact(single) else { return refused(27, &[]) };
    let half = half.to_le_bytes();
    let read = probe::decode_norm(&half)?;
    assert_eq!(read, value, "the Rust reads the two bytes as it reads the four");
    Ok(half.to_vec())
}

/// A norm of two bytes in four: 10 unless the two are those of a finite value above zero.
fn four_bytes_of(norm: &[u8]) -> Answer<Vec<u8>> {
    let half = norm.try_into().map(u16::from_le_bytes);
    match half.ok().and_then(binary16::to_binary32) {
        Some(single) => Ok(single.to_le_bytes().to_vec()),
        None => refused(10, &[]),
    }
}

/// The new frame: 8, the profile, 17, 9, 10, 27 and, at last, 7. Nothing asks whether an index is below N.
pub fn expected(way: &Way, setup: &Setup, bytes: &[u8], output_len: usize) -> Answer<Vec<u8>> {
    // The frame is tested before the profile; this one is good.
    let Frame { width, count, norm, indices } = probe::from_compact_bytes(bytes, &fitting(4, 2, 3))?;
    validity(&setup.profile, setup.log2)?;
    let p = &setup.profile;
    if (width, count) != (p.wire_index_bits, p.ambient_dim / p.block_dim) {
        return refused(17, &[]);
    }
    if padded(&indices, count as usize * usize::from(width)) {
        return refused(9, &[3]);
    }
    let norm = (way.norm)(&norm)?;
    let frame = probe::to_compact_bytes(width, count, &norm, &indices);
    length(6, output_len == frame.len())?;
    Ok(frame)
}

/// Whether a bit is set after so many, in as many bytes as these take.
fn padded(indices: &[u8], bits: usize) -> bool {
    let spare = 8 * indices.len() - bits;
    indices.last().is_some_and(|last| last.leading_zeros() < spare as u32)
}

fn case(run: &mut Run, way: &Way, setup: &Setup, bytes: &[u8], output_len: usize) -> Outcome {
    answered(run, way, setup, bytes, output_len, expected(way, setup, bytes, output_len))
}

/// One call with this answer. A refusal leaves the output as it was.
fn answered(
    run: &mut Run,
    way: &Way,
    setup: &Setup,
    bytes: &[u8],
    output_len: usize,
    answer: Answer<Vec<u8>>,
) -> Outcome {
    if answer.is_ok() {
        run.see(way.shows);
    }
    let expected = with_buffer(answer, output_len);
    let Setup { profile, log2, .. } = setup;
    let given = beside::profile(profile, *log2);
    let mut output = lent(output_len);
    let answer = proved((way.proved)(&given, bytes, &mut output));
    run.same(way.name, &expected, &(answer, output), inputs!(profile, log2, bytes, output_len))
}

/// Into an output of the right length, and then back to the same bytes.
fn right(run: &mut Run, way: &Way, setup: &Setup, bytes: &[u8]) -> Outcome {
    let len = way.len(bytes);
    case(run, way, setup, bytes, len)?;
    match expected(way, setup, bytes, len) {
        Ok(new) => answered(run, &way.back(), setup, &new, bytes.len(), Ok(bytes.to_vec())),
        Err(_) => Ok(()),
    }
}

/// Both ways: a frame whose norm has four bytes is refused by the one, and one whose norm has two by the other.
fn both(run: &mut Run, setup: &Setup, bytes: &[u8]) -> Outcome {
    right(run, &TO_F16, setup, bytes)?;
    right(run, &TO_F32, setup, bytes)
}

/// A profile alone: a conversion has no matrix and no codewords.
fn setup(blocks: usize, k: usize, n: usize) -> Setup {
    Setup::new(blocks * k, k, n, Vec::new(), Vec::new())
}

/// d = 4, k = 2 and N = 3, so that an index can be 3 and there are bits of padding.
fn small_setup() -> Setup {
    setup(2, 2, 3)
}

/// Every norm of two bytes.
fn two_bytes(run: &mut Run) -> Outcome {
    let setup = small_setup();
    for half in 0..=u16::MAX {
        right(run, &TO_F32, &setup, &frame(&setup, &[1, 2], &half.to_le_bytes()))?;
    }
    Ok(())
}

/// Norms of four bytes: every value of binary16, every middle from one to the next, subnormal ones and the ends of both
/// formats, with their neighbours and of both signs; and any.
fn four_bytes(run: &mut Run) -> Outcome {
    let setup = small_setup();
    for half in 0..0x7c00 {
        for center in [value(half), middle(half)] {
            near(run, &setup, (center as f32).to_bits(), 1)?;
        }
    }
    for place in 0..23 {
        near(run, &setup, 1 << place, 2)?;
    }
    let powers = [-149, -126, -25, -24, -15, -14, 0, 15, 16, 127].map(|power| 2f64.powi(power) as f32);
    for center in [0.0, 65_504.0, 65_520.0, f32::MAX, f32::INFINITY, f32::NAN].into_iter().chain(powers) {
        near(run, &setup, center.to_bits(), 200)?;
        near(run, &setup, (-center).to_bits(), 200)?;
    }
    near(run, &setup, u32::MAX, 200)?;
    for _ in 0..run.rounds(250_000) {
        let any = run.random.bits() as u32;
        near(run, &setup, any, 0)?;
        // Of a size that binary16 has, or a little beyond, and mostly with no more digits than it has.
        let exponent = 127 - 27 + run.random.below(45) as u32;
        let cut = run.random.pick(&[13, 13, 13, 14, 18, 12, 0]);
        near(run, &setup, exponent << 23 | any & 0x7f_ffff & u32::MAX << cut, 0)?;
    }
    Ok(())
}

/// The norm of this binary32 pattern, and so many before and after it.
fn near(run: &mut Run, setup: &Setup, center: u32, steps: u32) -> Outcome {
    for single in center.saturating_sub(steps)..=center.saturating_add(steps) {
        right(run, &TO_F16, setup, &frame(setup, &[2, 1], &single.to_le_bytes()))?;
    }
    Ok(())
}

/// Norms of two bytes; of four that binary16 has; and of four that it has not.
const NORMS: [&[u8]; 3] = [&[0x00, 0x3c], &1f32.to_le_bytes(), &0.1f32.to_le_bytes()];

/// Small frames cut at every length, with every byte changed, every two bits flipped, and norms of any length.
fn small(run: &mut Run) -> Outcome {
    let setup = small_setup();
    for norm in NORMS {
        let good = frame(&setup, &[1, 2], norm);
        for len in 0..=good.len() {
            both(run, &setup, &good[..len])?;
            both(run, &setup, &[&good[..], &vec![0; len]].concat())?;
        }
        for place in 0..good.len() {
            for byte in 0..=u8::MAX {
                let mut changed = good.clone();
                changed[place] = byte;
                both(run, &setup, &changed)?;
            }
        }
        flipped(run, &setup, &good)?;
        wrong_lengths(run, &setup, &good)?;
    }
    // With sound indices, and with two that are not below N.
    for len in (0..=6).chain([65_534, 65_535]) {
        for byte in [0, 0x3c, 0x7c, 0xff] {
            for indices in [[1, 2], [3, 3]] {
                both(run, &setup, &frame(&setup, &indices, &vec![byte; len]))?;
            }
        }
    }
    Ok(())
}

/// Every bit and every two bits flipped, whole and cut.
fn flipped(run: &mut Run, setup: &Setup, good: &[u8]) -> Outcome {
    for first in 0..8 * good.len() {
        for second in 0..=first {
            let mut flipped = good.to_vec();
            flipped[first / 8] ^= 1 << (first % 8);
            if second < first {
                flipped[second / 8] ^= 1 << (second % 8);
            }
            both(run, setup, &flipped)?;
            if second % 8 == 0 {
                both(run, setup, &flipped[..second / 8])?;
            }
        }
    }
    Ok(())
}

/// Into no output, into outputs that are wrong by one, and into one that is as long as the old frame.
fn wrong_lengths(run: &mut Run, setup: &Setup, bytes: &[u8]) -> Outcome {
    for way in [TO_F16, TO_F32] {
        let right = way.len(bytes);
        for output_len in [0, right - 1, right + 1, bytes.len()] {
            case(run, &way, setup, bytes, output_len)?;
        }
    }
    Ok(())
}

/// All that a call is given, the frame by its parts.
struct Call {
    setup: Setup,
    magic: [u8; 4],
    width: u8,
    count: u32,
    norm: Vec<u8>,
    /// What the frame says of the norm's length, if not the truth.
    norm_len: Option<u16>,
    indices: Vec<u8>,
    /// At most so many bytes of the frame are handed in.
    kept: usize,
    /// By how much the output is longer than it has to be.
    longer: isize,
}

impl Call {
    fn new(norm: &[u8]) -> Call {
        Call {
            setup: small_setup(),
            magic: *b"FB1\x01",
            width: 2,
            count: 2,
            norm: norm.to_vec(),
            norm_len: None,
            indices: vec![0b1001],
            kept: usize::MAX,
            longer: 0,
        }
    }

    fn bytes(&self) -> Vec<u8> {
        let mut bytes = probe::to_compact_bytes(self.width, self.count, &self.norm, &self.indices);
        bytes[..4].copy_from_slice(&self.magic);
        if let Some(len) = self.norm_len {
            bytes[9..11].copy_from_slice(&len.to_le_bytes());
        }
        bytes.truncate(self.kept);
        bytes
    }

    /// The norm's last bytes, where either format has sign and exponent, if there are so many.
    fn top(&mut self, top: [u8; 2]) {
        if let Some(last) = self.norm.last_chunk_mut() {
            *last = top;
        }
    }
}

/// What makes a call wrong, or another that is right, in the order of the checks.
const FAULTS: [fn(&mut Call); 62] = [
    |c| c.kept = 0,
    |c| c.kept = 10,
    |c| c.magic[0] = b'f',
    |c| c.magic[2] = b'2',
    |c| c.magic[3] = 0,
    |c| c.magic[3] = 2,
    |c| c.kept = 11,
    |c| c.kept = 12,
    |c| c.norm_len = Some(0),
    |c| c.norm_len = Some(2),
    |c| c.norm_len = Some(4),
    |c| c.norm_len = Some(65_535),
    |c| c.indices.clear(),
    |c| c.indices.push(0),
    |c| c.setup.profile.schema = "",
    |c| c.setup.profile.ambient_dim = 0,
    |c| c.setup.profile.block_dim = 0,
    |c| c.setup.profile.block_dim = 4,
    |c| c.setup.profile.ambient_dim += 1,
    |c| c.setup.profile.ambient_dim = 1 << 15,
    |c| (c.setup.profile.ambient_dim, c.setup.profile.block_dim) = (514, 257),
    |c| c.setup.profile.codebook_size = 1,
    |c| c.setup.profile.codebook_size = (1 << 20) + 1,
    |c| c.setup.profile.norm_format = 1,
    |c| c.setup.profile.source_mode = 1,
    |c| c.setup.profile.rotation_algorithm = "",
    |c| c.setup.profile.wire_index_bits += 1,
    |c| c.setup.profile.paper_rate = f64::NAN,
    |c| c.setup.log2 = 7.0,
    |c| c.setup.profile.wire_rate = f64::INFINITY,
    |c| c.setup.profile.radius_method = 2,
    |c| c.setup.profile.restarts = 0,
    |c| c.setup.profile.iterations = 0,
    |c| c.setup.profile.training_samples = 2,
    |c| c.setup.profile.empty_cell_policy = 77,
    |c| c.setup.profile.ambient_dim = 8,
    |c| c.width = 0,
    |c| c.width = 1,
    |c| c.width = 3,
    |c| c.width = 255,
    |c| c.count = 0,
    |c| c.count = 1,
    |c| c.count = 3,
    |c| c.count = u32::MAX,
    |c| c.indices.fill(0b1_1001),
    |c| c.indices.fill(0b1000_1001),
    |c| c.indices.fill(0b1111),
    |c| c.norm.clear(),
    |c| c.norm.push(0x3c),
    |c| c.norm.insert(0, 0),
    |c| c.norm.truncate(1),
    |c| c.norm.fill(0),
    |c| c.norm.fill(0xff),
    |c| c.top([0x00, 0x80]),
    |c| c.top([0x00, 0xbc]),
    |c| c.top([0x00, 0x7c]),
    |c| c.top([0x80, 0x7f]),
    |c| c.norm.iter_mut().take(1).for_each(|low| *low |= 1),
    |c| c.longer = 1,
    |c| c.longer = -1,
    |c| c.longer = 2,
    |c| c.longer = isize::MIN,
];

/// Every two faults, in either order.
fn wrong(run: &mut Run) -> Outcome {
    for norm in NORMS {
        for first in FAULTS {
            for second in FAULTS {
                let mut call = Call::new(norm);
                first(&mut call);
                second(&mut call);
                let bytes = call.bytes();
                for way in [TO_F16, TO_F32] {
                    let output_len = way.len(&bytes).saturating_add_signed(call.longer);
                    case(run, &way, &call.setup, &bytes, output_len)?;
                }
            }
        }
    }
    Ok(())
}

/// A frame under any profile, with any indices of its width, also into outputs of wrong lengths; and damaged ones.
fn random(run: &mut Run) -> Outcome {
    let random = &mut run.random;
    let most = 2 << random.below(20);
    let setup = setup(2 + random.index(10), 1 + random.index(8), 2 + random.index(most - 1));
    let indices = any_indices(random, &setup);
    let good = frame(&setup, &indices, &norm(random));
    both(run, &setup, &good)?;
    wrong_lengths(run, &setup, &good)?;
    for _ in 0..4 {
        let damaged = damage(&mut run.random, good.clone());
        both(run, &setup, &damaged)?;
    }
    Ok(())
}

/// As many blocks as a profile allows, and so many that their number has two bytes.
fn long(run: &mut Run) -> Outcome {
    for (blocks, k, n) in [(4_096, 1, 300), (300, 2, 1_000)] {
        let setup = setup(blocks, k, n);
        for _ in 0..20 {
            let indices = any_indices(&mut run.random, &setup);
            let good = frame(&setup, &indices, &norm(&mut run.random));
            both(run, &setup, &good)?;
            let damaged = damage(&mut run.random, good);
            both(run, &setup, &damaged)?;
        }
    }
    Ok(())
}

/// Indices that the profile's width has room for, below N or not.
pub fn any_indices(random: &mut Random, setup: &Setup) -> Vec<u32> {
    (0..setup.blocks()).map(|_| random.below(1 << setup.profile.wire_index_bits) as u32).collect()
}

/// A norm of two bytes or of four, seldom one that is refused.
pub fn norm(random: &mut Random) -> Vec<u8> {
    let half = random.below(0x7c00) as u16;
    match random.below(7) {
        0..=2 => half.to_le_bytes().to_vec(),
        3..=5 => (value(half) as f32).to_le_bytes().to_vec(),
        _ => random.bytes(4),
    }
}

/// Vectors that the published encoder stores with norms of four bytes, as they are and with other indices.
fn live(run: &mut Run) -> Outcome {
    let (blocks, k, n) = (2 + run.random.index(10), 1 + run.random.index(8), 2 + run.random.index(40));
    let setup = Setup::random(&mut run.random, blocks, k, n);
    let Setup { profile, matrix, codewords, .. } = &setup;
    for _ in 0..4 {
        let input = vector(&mut run.random, setup.dim());
        let old = probe::encode_f32(&input, codewords, matrix, profile).expect("a code");
        run.see(if sound(&old).is_ok() { LIVE_CONVERTED } else { LIVE_INEXACT });
        converted(run, &setup, &old)?;
        let indices = any_indices(&mut run.random, &setup);
        converted(run, &setup, &frame(&setup, &indices, &old[OLD_NORM]))?;
    }
    Ok(())
}

/// Where a norm of four bytes stands in a frame.
const OLD_NORM: Range<usize> = 11..15;

/// What a code that was written with a norm of four bytes becomes: the same bytes around the norm and its length.
fn sound(old: &[u8]) -> Answer<Vec<u8>> {
    let norm = two_bytes_of(&old[OLD_NORM])?;
    Ok([&old[..9], &[2, 0], &norm, &old[OLD_NORM.end..]].concat())
}

/// A code converted, back again, and read.
fn converted(run: &mut Run, setup: &Setup, old: &[u8]) -> Outcome {
    let new = sound(old);
    answered(run, &TO_F16, setup, old, old.len() - 2, new.clone())?;
    let Ok(new) = new else { return Ok(()) };
    answered(run, &TO_F32, setup, &new, old.len(), Ok(old.to_vec()))?;
    read(run, setup, old, &new)
}

/// The new frame is read as the Rust would read the old one.
fn read(run: &mut Run, setup: &Setup, old: &[u8], new: &[u8]) -> Outcome {
    let Setup { profile, log2, matrix, codewords } = setup;
    let expected = with_buffer(probe::decode_f32(old, codewords, matrix, profile), setup.dim());
    if expected.0.is_ok() {
        run.see(LIVE_READ);
    }
    let (answer, (output, _)) = decode::call(setup, new, setup.dim(), 2 * setup.dim());
    run.same("decode", &expected, &(answer, output), inputs!(profile, log2, matrix, codewords, old, new))
}

/// Whole numbers whose squares add up to a square.
const WHOLE: [&[f32]; 12] = [
    &[3.0, 4.0],
    &[5.0, 12.0],
    &[8.0, 15.0],
    &[20.0, 21.0],
    &[1.0, 2.0, 2.0],
    &[2.0, 3.0, 6.0],
    &[4.0, 4.0, 7.0],
    &[1.0, 4.0, 8.0],
    &[1.0, 1.0, 1.0, 1.0],
    &[1.0, 1.0, 3.0, 5.0],
    &[2.0, 4.0, 5.0, 6.0],
    &[2.0, 2.0, 2.0, 2.0, 3.0],
];

/// An input whose norm is a value of binary16, a whole number times a power of two that may be too small or too large, or
/// anything.
fn vector(random: &mut Random, d: usize) -> Vec<f32> {
    let kind = random.below(4);
    if kind == 0 {
        return (0..d).map(|_| random.near_one() as f32).collect();
    }
    let lists: Vec<&[f32]> = WHOLE.into_iter().filter(|list| list.len() <= d).collect();
    let single = [value(1 + random.below(0x7bff) as u16) as f32];
    let (list, scale) = match kind {
        1 => (&single[..], 1.0),
        _ => (random.pick(&lists), 2f32.powi(random.below(40) as i32 - 26)),
    };
    let mut input = vec![0.0; d];
    let first = random.index(d);
    for (place, value) in list.iter().enumerate() {
        input[(first + place) % d] = value * scale * random.pick(&[1.0, -1.0]);
    }
    input
}
