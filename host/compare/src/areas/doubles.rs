//! One frame for one code (document 02, K13): what the frames have to be that are accepted up to and including norm and
//! indices. The proved functions accept; a frame's norm and indices, and the frame that is written for these, are the
//! published Rust's.

use super::codes::{frame, Setup};
use super::convert::{self, any_indices, norm, TO_F16};
use super::decode::{self, damage};
use super::encode::{self, vector};
use crate::inputs;
use crate::run::{lent, Outcome, Run, Same};
use beside::proved;
use nuqtelya::HEADER_LEN;
use oracle::bitpack::probe::unpack_indices;
use oracle::codec::probe::{self, Frame};
use oracle::inputs::Random;
use oracle::profile::probe::Profile;
use oracle::Answer;
use std::collections::{BTreeMap, BTreeSet};

pub fn run(run: &mut Run) -> Outcome {
    for (blocks, k, n, norms) in SHAPES {
        grid(run, &small_setup(blocks, k, n), norms)?;
    }
    for _ in 0..run.rounds(600) {
        random(run)?;
    }
    for _ in 0..run.rounds(4_000) {
        live(run)?;
    }
    let [[decoded, no_values], [converted, inexact]] = KINDS.map(|kind| kind.shows);
    let live = [LIVE_DOUBLES, LIVE_TWO_VECTORS, LIVE_OTHER_NORM, LIVE_OTHER_INDICES];
    run.met(&[8, 9, 10, 11, 17], &[&[decoded, no_values, converted, inexact], &live[..]].concat())
}

// What two live codes show.
const LIVE_DOUBLES: &str = "live doubles of one vector";
const LIVE_TWO_VECTORS: &str = "live doubles of two vectors";
const LIVE_OTHER_NORM: &str = "live codes apart in the norm alone";
const LIVE_OTHER_INDICES: &str = "live codes apart in the indices alone";
const LIVE_APART: &str = "live codes apart in both";

/// A format of norms: the frames that have it, and what accepts them.
struct Kind {
    name: &'static str,
    norm_len: usize,
    /// The refusal that comes after norm and indices.
    later: u32,
    /// What a frame shows that passes altogether, and one that this refuses.
    shows: [&'static str; 2],
    proved: fn(&Setup, &[u8]) -> Answer<()>,
    published: fn(&Setup, &[u8]) -> Answer<()>,
    norm: fn(&[u8]) -> Answer<f64>,
    /// How many indices there are.
    indices: fn(&Profile) -> usize,
    /// The frame of a vector.
    encoded: fn(&Setup, &[f32]) -> Answer<Vec<u8>>,
}

const KINDS: [Kind; 2] = [
    Kind {
        name: "decode",
        norm_len: 2,
        later: 12,
        shows: ["frames decoded", "frames refused by 12"],
        proved: |setup, bytes| decode::call(setup, bytes, setup.dim(), 2 * setup.dim()).0,
        published: |setup, bytes| decode::expected(setup, bytes, setup.dim(), 2 * setup.dim()).map(drop),
        norm: probe::decode_norm,
        indices: |profile| profile.codebook_size as usize,
        encoded,
    },
    // Nothing asks whether an index is below N.
    Kind {
        name: "frame_to_f16",
        norm_len: 4,
        later: 27,
        shows: ["frames converted", "frames refused by 27"],
        proved: converted,
        published: |setup, bytes| convert::expected(&TO_F16, setup, bytes, TO_F16.len(bytes)).map(drop),
        norm: probe::decode_norm_f32,
        indices: |profile| 1 << profile.wire_index_bits,
        encoded: |setup, input| probe::encode_f32(input, &setup.codewords, &setup.matrix, &setup.profile),
    },
];

fn converted(setup: &Setup, bytes: &[u8]) -> Answer<()> {
    let given = beside::profile(&setup.profile, setup.log2);
    proved(nuqtelya::frame_to_f16(&given, bytes, &mut lent(TO_F16.len(bytes))))
}

fn encoded(setup: &Setup, input: &[f32]) -> Answer<Vec<u8>> {
    let (answer, (frame, _)) = encode::call(setup, input, setup.frame_len(), 2 * setup.dim());
    answer.map(|_| frame)
}

/// A norm's bits and a list of indices.
type Code = (u32, Vec<u32>);

/// What the Rust reads in a frame: as many indices as the profile has blocks, of its width.
fn read(setup: &Setup, bytes: &[u8]) -> Answer<Code> {
    let Frame { norm, indices, .. } = probe::from_compact_bytes(bytes, &setup.profile)?;
    let bits = norm.iter().rev().fold(0, |bits, byte| bits << 8 | u32::from(*byte));
    Ok((bits, unpack_indices(&indices, setup.blocks() as u64, setup.profile.wire_index_bits)?))
}

impl Kind {
    /// One case: an accepted frame is what the Rust writes for the code that it reads there, and another is refused as the
    /// Rust refuses it. Answers the code, if there is one.
    fn case(&self, run: &mut Run, setup: &Setup, bytes: &[u8]) -> Result<Option<Code>, String> {
        let answer = (self.proved)(setup, bytes);
        match &answer {
            Ok(()) => run.see(self.shows[0]),
            Err((number, _)) if *number == self.later => run.see(self.shows[1]),
            Err(_) => {}
        }
        let answer = self.so_far(answer).map(|()| bytes.to_vec());
        let code = self.so_far((self.published)(setup, bytes)).and_then(|()| read(setup, bytes));
        let expected = code.clone().map(|code| self.frame(setup, &code));
        let Setup { profile, log2, matrix, codewords } = setup;
        run.same(self.name, &expected, &answer, inputs!(profile, log2, matrix, codewords, bytes))?;
        Ok(code.ok())
    }

    /// An answer up to and including norm and indices.
    fn so_far(&self, answer: Answer<()>) -> Answer<()> {
        match answer {
            Err((number, _)) if number == self.later => Ok(()),
            answer => answer,
        }
    }

    fn frame(&self, setup: &Setup, (norm, indices): &Code) -> Vec<u8> {
        frame(setup, indices, &norm.to_le_bytes()[..self.norm_len])
    }
}

/// The frames that are accepted under one profile, each kind's by their codes.
struct Archive<'a> {
    setup: &'a Setup,
    codes: [BTreeMap<Code, Vec<u8>>; 2],
}

impl Archive<'_> {
    fn new(setup: &Setup) -> Archive<'_> {
        Archive { setup, codes: Default::default() }
    }

    /// Puts a frame to both kinds, and answers whether one accepts it. No code may have two frames.
    fn put(&mut self, run: &mut Run, bytes: &[u8]) -> Result<bool, String> {
        let mut accepted = false;
        for (kind, codes) in KINDS.iter().zip(&mut self.codes) {
            let Some(code) = kind.case(run, self.setup, bytes)? else { continue };
            accepted = true;
            if let Some(other) = codes.insert(code, bytes.to_vec()).filter(|other| other != bytes) {
                return Err(format!("{}: one code of {} and {}", kind.name, other.hex(), bytes.hex()));
            }
        }
        Ok(accepted)
    }

    fn put_all(&mut self, run: &mut Run, header: Header, norms: &[Vec<u8>], strings: &[Vec<u8>]) -> Outcome {
        let (width, count, _) = header;
        for norm in norms {
            for indices in strings {
                self.put(run, &probe::to_compact_bytes(width, count as u32, norm, indices))?;
            }
        }
        Ok(())
    }

    /// Each kind has as many as there are codes with these norms.
    fn complete(&self, norms: &[Vec<u8>]) -> Outcome {
        for (kind, codes) in KINDS.iter().zip(&self.codes) {
            let norms = norms.iter().filter(|norm| (kind.norm)(norm).is_ok()).count();
            let there_are = norms * (kind.indices)(&self.setup.profile).pow(self.setup.blocks() as u32);
            if codes.len() != there_are {
                return Err(format!("{}: {} frames of {there_are} codes", kind.name, codes.len()));
            }
        }
        Ok(())
    }

    /// Both kinds' frames, sorted. None begins another: it would also begin all between the two.
    fn apart(&self) -> Result<Vec<Vec<u8>>, String> {
        let mut frames: Vec<Vec<u8>> = self.codes.iter().flat_map(|codes| codes.values().cloned()).collect();
        frames.sort();
        match frames.windows(2).find(|pair| pair[1].starts_with(&pair[0])) {
            Some(pair) => Err(format!("{} begins {}", pair[0].hex(), pair[1].hex())),
            None => Ok(frames),
        }
    }

    /// And none is accepted any more when it is cut or goes on, or when a bit of its header is changed.
    fn alone(&mut self, run: &mut Run) -> Outcome {
        let frames = self.apart()?;
        // Many begin alike.
        let cuts: BTreeSet<&[u8]> = frames.iter().flat_map(|frame| (0..frame.len()).map(|len| &frame[..len])).collect();
        for cut in cuts {
            self.refused(run, cut)?;
        }
        for frame in &frames {
            for byte in 0..=u8::MAX {
                self.refused(run, &[&frame[..], &[byte]].concat())?;
            }
            let more = 2 + run.random.index(4);
            for more in [vec![0; more], run.random.bytes(more), frame.clone()] {
                self.refused(run, &[&frame[..], &more].concat())?;
            }
            for bit in 0..8 * HEADER_LEN {
                let mut flipped = frame.clone();
                flipped[bit / 8] ^= 1 << (bit % 8);
                self.refused(run, &flipped)?;
            }
        }
        Ok(())
    }

    fn refused(&mut self, run: &mut Run, bytes: &[u8]) -> Outcome {
        if self.put(run, bytes)? {
            return Err(format!("accepted beside a frame that it was made from: {}", bytes.hex()));
        }
        Ok(())
    }
}

/// Blocks, k, N, and how many norms of each format: widths of one to three bits, in one byte and in two, with padding and
/// without; with numbers that are no index, and without.
const SHAPES: [(usize, usize, usize, usize); 10] = [
    (2, 1, 2, 8),
    (2, 2, 3, 8),
    (2, 2, 5, 8),
    (3, 2, 2, 8),
    (3, 1, 4, 8),
    (3, 1, 5, 4),
    (4, 2, 2, 8),
    (4, 1, 3, 8),
    (4, 2, 4, 8),
    (4, 1, 5, 4),
];

/// The last codeword is so large that norms above 1 take it out of binary32.
fn small_setup(blocks: usize, k: usize, n: usize) -> Setup {
    let d = blocks * k;
    let unit = (0..d * d).map(|i| f64::from(i % (d + 1) == 0)).collect();
    let mut codewords = vec![0.5; (n - 1) * k];
    codewords.resize(n * k, f32::MAX);
    Setup::new(d, k, n, unit, codewords)
}

// Norms of two bytes and of four, sound and not, the more telling ones first. Some have the same bytes in another order,
// or are what others begin with.
const HALVES: [u16; 8] = [0x3c00, 0x003c, 0x0000, 0x7c00, 0x0001, 0x7bff, 0x7e00, 0x8001];
const SINGLES: [u32; 8] = [0x3c00, 0x3c00_0000, 0, 0x7f80_0000, 1, 0x7f7f_ffff, 0x7fc0_0000, 0x8000_0001];

/// The width and the number of blocks that a frame names, and how many bytes of indices it has.
type Header = (u8, usize, usize);

/// Every frame with so many norms of either format under the right header, and many under others. Each code has its frame,
/// and nothing else is accepted.
fn grid(run: &mut Run, setup: &Setup, norms: usize) -> Outcome {
    let right = (setup.profile.wire_index_bits, setup.blocks(), setup.frame_len() - 13);
    let halves = HALVES.map(|half| half.to_le_bytes().to_vec());
    let singles = SINGLES.map(|single| single.to_le_bytes().to_vec());
    let norms = [&halves[..norms], &singles[..norms]].concat();
    // The low byte of the last of these lengths is right.
    let others = [0, 1, 3, 5, 256, 258].map(|len| vec![0x3c; len]);
    let few = [&halves[..1], &singles[..1], &others].concat();

    let mut archive = Archive::new(setup);
    archive.put_all(run, right, &norms, &every(right.2))?;
    archive.put_all(run, right, &others, &repeated(right.2))?;
    for header in others_than(right) {
        archive.put_all(run, header, &few, &repeated(header.2))?;
    }
    archive.complete(&norms)?;
    archive.alone(run)
}

/// Headers with something wrong; in some the length is that of the width and the number of blocks that they name.
fn others_than(right: Header) -> BTreeSet<Header> {
    let (_, blocks, len) = right;
    let mut headers = BTreeSet::new();
    for width in (0..=9).chain([255]) {
        for count in [0, blocks - 1, blocks, blocks + 1, blocks + 256] {
            let asked = (count * usize::from(width)).div_ceil(8);
            headers.extend([len - 1, len, len + 1, asked.min(64)].map(|len| (width, count, len)));
        }
    }
    headers.remove(&right);
    headers
}

/// All strings of one byte or two.
fn every(len: usize) -> Vec<Vec<u8>> {
    (0..1u32 << (8 * len)).map(|code| code.to_le_bytes()[..len].to_vec()).collect()
}

/// Each byte alone, so many times; the empty string once.
fn repeated(len: usize) -> Vec<Vec<u8>> {
    let mut strings: Vec<Vec<u8>> = (0..=u8::MAX).map(|byte| vec![byte; len]).collect();
    strings.dedup();
    strings
}

/// Codes under any profile, with norms of either kind and any indices, and damaged ones.
fn random(run: &mut Run) -> Outcome {
    let random = &mut run.random;
    let most = 2 << random.below(12);
    let (blocks, k, n) = (2 + random.index(10), 1 + random.index(4), 2 + random.index(most - 1));
    let setup = Setup::random(random, blocks, k, n);
    let mut archive = Archive::new(&setup);
    for _ in 0..4 {
        let random = &mut run.random;
        let mut indices = any_indices(random, &setup);
        if random.one_in(2) {
            indices.iter_mut().for_each(|index| *index %= n as u32);
        }
        let good = frame(&setup, &indices, &norm(random));
        archive.put(run, &good)?;
        for _ in 0..4 {
            let damaged = damage(&mut run.random, good.clone());
            archive.put(run, &damaged)?;
        }
    }
    archive.alone(run)
}

/// A vector that was encoded, and the code that the Rust reads in its frame.
struct Live {
    input: Vec<f32>,
    bytes: Vec<u8>,
    code: Code,
}

/// A few vectors again and again, as they are and changed a little.
fn live(run: &mut Run) -> Outcome {
    let random = &mut run.random;
    let (blocks, k, n) = (2 + random.index(4), 1 + random.index(4), 2 + random.index(12));
    let setup = Setup::random(random, blocks, k, n);
    let mut inputs = Vec::new();
    for _ in 0..3 {
        let input = vector(random, setup.dim());
        inputs.extend((0..4).map(|_| changed(random, input.clone())));
    }
    let mut archive = Archive::new(&setup);
    for kind in &KINDS {
        let mut all = Vec::new();
        for input in &inputs {
            let Ok(bytes) = (kind.encoded)(&setup, input) else { continue };
            if !archive.put(run, &bytes)? {
                return Err(format!("no {} of a live code: {}", kind.name, bytes.hex()));
            }
            let code = read(&setup, &bytes).expect("an accepted frame");
            all.push(Live { input: input.clone(), bytes, code });
        }
        doubles(run, &all)?;
    }
    archive.apart().map(drop)
}

/// As it was, or a value larger by a little, or with the other sign, or two values exchanged.
fn changed(random: &mut Random, mut input: Vec<f32>) -> Vec<f32> {
    let (place, other) = (random.index(input.len()), random.index(input.len()));
    match random.below(6) {
        0 => input[place] = input[place].next_up(),
        1 => input[place] *= 1.0 + 2f32.powi(-(random.below(16) as i32)),
        2 => input[place] = -input[place],
        3 => input.swap(place, other),
        _ => {}
    }
    input
}

/// Two of them are equal as bytes exactly when norm and indices are equal.
fn doubles(run: &mut Run, all: &[Live]) -> Outcome {
    for (place, one) in all.iter().enumerate() {
        for other in &all[..place] {
            let (norms, indices) = (one.code.0 == other.code.0, one.code.1 == other.code.1);
            if (one.bytes == other.bytes) != (norms && indices) {
                return Err(format!("equal as bytes or as codes: {} and {}", one.bytes.hex(), other.bytes.hex()));
            }
            run.see(match (norms, indices) {
                (true, true) if one.input == other.input => LIVE_DOUBLES,
                (true, true) => LIVE_TWO_VECTORS,
                (false, true) => LIVE_OTHER_NORM,
                (true, false) => LIVE_OTHER_INDICES,
                (false, false) => LIVE_APART,
            });
        }
    }
    Ok(())
}
