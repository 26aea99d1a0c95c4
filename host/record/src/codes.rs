//! Vectors that are encoded and frames that are decoded, for the host's file. The norm of a frame, and refusal 10, are
//! document 02's (K3) and not the published encoder's.

use crate::answers::{answer, profile, UNFIT};
use crate::form::{Coding, Decoding, Encoding, DECODE, ENCODE};
use oracle::bitpack::probe::pack_indices;
use oracle::codec::probe;
use oracle::inputs::{fitting, Random};
use oracle::profile::probe::Profile;

/// Vectors and frames of a coder that is drawn.
const EACH: usize = 6;

struct Coder {
    profile: Profile<'static>,
    matrix: Vec<f64>,
    codewords: Vec<f32>,
}

pub fn codings(random: &mut Random) -> Vec<Coding> {
    let mut codings = refused();
    codings.push(small());
    codings.push(large());
    let left = |codings: &[Coding]| {
        let encodings: usize = codings.iter().map(|coding| coding.encodings.len()).sum();
        let decodings: usize = codings.iter().map(|coding| coding.decodings.len()).sum();
        (ENCODE.count - encodings, DECODE.count - decodings)
    };
    while left(&codings) != (0, 0) {
        let (encodings, decodings) = left(&codings);
        let coder = drawn(random);
        let inputs: Vec<_> = (0..encodings.min(EACH)).map(|_| vector(random, coder.dim())).collect();
        let frames = (0..decodings.min(EACH)).map(|place| coder.frame(random, place > 1)).collect();
        codings.push(coder.coding(inputs, frames));
    }
    codings
}

impl Coder {
    fn dim(&self) -> usize {
        self.profile.ambient_dim as usize
    }

    fn coding(&self, inputs: Vec<Vec<f32>>, frames: Vec<Vec<u8>>) -> Coding {
        let Coder { profile: p, matrix, codewords } = self;
        let encoding = |input: Vec<f32>| {
            let frame = answer(probe::encode_rounded_once(&input, codewords, matrix, p), |code| code.frame);
            Encoding { input, answer: frame }
        };
        let decoding = |frame: Vec<u8>| {
            let values = answer(probe::decode(&frame, codewords, matrix, p), |values| values);
            Decoding { frame, answer: values }
        };
        Coding {
            profile: profile(p),
            matrix: matrix.clone(),
            codewords: codewords.clone(),
            encodings: inputs.into_iter().map(encoding).collect(),
            decodings: frames.into_iter().map(decoding).collect(),
        }
    }

    /// A frame of any indices and norm; if it is to be damaged, most often in the norm and the indices.
    fn frame(&self, random: &mut Random, damaged: bool) -> Vec<u8> {
        let Profile { wire_index_bits: width, codebook_size, ambient_dim, block_dim, .. } = self.profile;
        let blocks = ambient_dim / block_dim;
        let indices: Vec<u32> = (0..blocks).map(|_| random.below(codebook_size.into()) as u32).collect();
        let packed = pack_indices(&indices, width).expect("these fit");
        let any = 1 + random.below(0x7bff) as u16;
        let norm = random.pick(&[0x3c00, 0x0001, 0x7bff, any, any]);
        let mut bytes = probe::to_compact_bytes(width, blocks, &norm.to_le_bytes(), &packed);
        if damaged {
            let place = if random.one_in(4) { random.index(bytes.len()) } else { 11 + random.index(bytes.len() - 11) };
            bytes[place] ^= 1 << random.below(8);
            if random.one_in(8) {
                bytes.truncate(random.index(bytes.len()));
            }
        }
        bytes
    }
}

/// d = 4, k = 2 and N = 3, so that an index can be 3 and there are bits of padding.
fn least() -> Coder {
    let matrix = (0..16).map(|i| f64::from(i % 5) - 2.0).collect();
    Coder { profile: fitting(4, 2, 3), matrix, codewords: vec![0.5, 0.25, -0.5, 1.0, 2.0, 0.0] }
}

/// Unfit profiles, codewords of a wrong length, and one that is not finite.
fn refused() -> Vec<Coding> {
    let mut coders: Vec<Coder> = UNFIT.iter().map(|_| least()).collect();
    for (coder, unfit) in coders.iter_mut().zip(UNFIT) {
        unfit(&mut coder.profile);
    }
    coders.push(Coder { codewords: vec![0.5; 5], ..least() });
    coders.push(Coder { codewords: vec![0.5, 0.25, -0.5, f32::INFINITY, 2.0, f32::NAN], ..least() });
    let frame = probe::to_compact_bytes(2, 2, &[0x00, 0x3c], &[0x09]);
    coders.iter().map(|coder| coder.coding(vec![vec![1.0, 2.0, 3.0, 4.0]], vec![frame.clone()])).collect()
}

/// Inputs and frames that are sound, and every refusal that neither profile nor codewords give.
fn small() -> Coding {
    let inputs: [&[f32]; 11] = [
        &[1.0, 2.0, 3.0, 4.0],
        // A norm just above 1 + 2^-11, which two roundings would take to 1.
        &[1.0 + 1.0 / 2048.0, 1.0 / 524_288.0, 0.0, 0.0],
        // A norm of 65,504; one just under 65,520, which two roundings would refuse; the least that is too large.
        &[65_504.0, 0.0, 0.0, 0.0],
        &[65_519.996, 22.62, 0.0, 0.0],
        &[65_520.0, 0.0, 0.0, 0.0],
        // A norm just above 2^-25, likewise.
        &[1.0 / 33_554_432.0, 1.0 / 549_755_813_888.0, 0.0, 0.0],
        &[1e-9, 0.0, 0.0, 0.0],
        &[0.0, -0.0, 0.0, 0.0],
        &[0.0, f32::NAN, 1.0, f32::INFINITY],
        &[1.0, 2.0, 3.0],
        &[1.0, 2.0, 3.0, 4.0, 5.0],
    ];
    let one = [0x00, 0x3c];
    let sound = probe::to_compact_bytes(2, 2, &one, &[0x09]);
    let mut magic = sound.clone();
    magic[1] = 0;
    let mut version = sound.clone();
    version[3] = 2;
    let frames = vec![
        sound[..10].to_vec(),
        magic,
        version,
        sound[..12].to_vec(),
        sound[..13].to_vec(),
        [&sound[..], &[0]].concat(),
        sound,
        // Padding set, an index at N, norms that are negative, infinite, zero and too short.
        probe::to_compact_bytes(2, 2, &one, &[0x19]),
        probe::to_compact_bytes(2, 2, &one, &[0x0d]),
        probe::to_compact_bytes(2, 2, &[0x00, 0xbc], &[0x09]),
        probe::to_compact_bytes(2, 2, &[0x00, 0x7c], &[0x09]),
        probe::to_compact_bytes(2, 2, &[0x00, 0x00], &[0x09]),
        probe::to_compact_bytes(2, 2, &[0x3c], &[0x09]),
        // Headers of another width, another number of blocks, and no width.
        probe::to_compact_bytes(3, 2, &one, &[0x11]),
        probe::to_compact_bytes(2, 3, &one, &[0x09]),
        probe::to_compact_bytes(0, 2, &one, &[]),
    ];
    least().coding(inputs.map(<[f32]>::to_vec).to_vec(), frames)
}

/// Codewords so large that some values are not finite in binary32.
fn large() -> Coding {
    let codewords = vec![1.0, 0.5, f32::MAX, -f32::MAX, f32::MAX, 1.0];
    let frame = |indices| probe::to_compact_bytes(2, 2, &[0x00, 0x3c], &[indices]);
    let coder = Coder { codewords, ..least() };
    coder.coding(vec![vec![1.0, 2.0, 3.0, 4.0]], vec![frame(0x00), frame(0x01), frame(0x04), frame(0x0a)])
}

/// A matrix that exchanges coordinates, reflects, or is of any values.
fn drawn(random: &mut Random) -> Coder {
    let (blocks, k, n) = (2 + random.index(3), 1 + random.index(3), 2 + random.index(20));
    let d = blocks * k;
    let turn = random.index(d);
    let v = random.values(d);
    let size: f64 = v.iter().map(|x| x * x).sum::<f64>().max(1.0);
    let matrix = match random.below(3) {
        0 => (0..d * d).map(|i| if i % d == (i / d + turn) % d { random.pick(&[1.0, -1.0]) } else { 0.0 }).collect(),
        1 => (0..d * d).map(|i| f64::from(i / d == i % d) - 2.0 * v[i / d] * v[i % d] / size).collect(),
        _ => random.values(d * d),
    };
    let codewords = random.values(n * k);
    let scale = random.pick(&[1.0, 0.125]);
    Coder {
        profile: fitting(d as u32, k as u32, n as u32),
        matrix,
        codewords: codewords.into_iter().map(|x| (x * scale) as f32).collect(),
    }
}

/// An input of one kind: small whole numbers, near 1, norms at both ends of what can be coded, or any values.
fn vector(random: &mut Random, d: usize) -> Vec<f32> {
    let kind = random.below(10);
    let mut value = || match kind {
        0..=3 => random.below(5) as f32 - 2.0,
        4..=6 => random.near_one() as f32 / 256.0,
        7 => random.near_one() as f32 / 16_777_216.0,
        8 => random.near_one() as f32 * 2.0,
        _ => random.f32(),
    };
    (0..d).map(|_| value()).collect()
}
