//! What encoding and decoding are both given, and the checks that they share.

use crate::rules::{bounded, edges, length, shorten, values};
use crate::run::refused;
use oracle::bitpack::probe::pack_indices;
use oracle::codec::probe;
use oracle::inputs::{fitting, Random};
use oracle::profile::probe::Profile;
use oracle::Answer;

/// The most that a value of the matrix may be in size: 2^20.
const LIMIT: f64 = (1u64 << 20) as f64;

#[derive(Clone)]
pub struct Setup {
    pub profile: Profile<'static>,
    pub log2: f64,
    pub matrix: Vec<f64>,
    pub codewords: Vec<f32>,
}

impl Setup {
    pub fn new(d: usize, k: usize, n: usize, matrix: Vec<f64>, codewords: Vec<f32>) -> Setup {
        Setup { profile: fitting(d as u32, k as u32, n as u32), log2: oracle::log2(n as u64), matrix, codewords }
    }

    pub fn random(random: &mut Random, blocks: usize, k: usize, n: usize) -> Setup {
        let d = blocks * k;
        let matrix = match random.below(4) {
            0 => turned(random, d),
            1 => reflected(random, d),
            2 => values(random, d * d, 1.0),
            _ => values(random, d * d, LIMIT),
        };
        let largest = random.pick(&[1.0, 1.0, 4.0, 2f64.powi(127)]);
        let codewords = values(random, n * k, largest).into_iter().map(|v| v as f32).collect();
        Setup::new(d, k, n, matrix, codewords)
    }

    pub fn dim(&self) -> usize {
        self.profile.ambient_dim as usize
    }

    pub fn blocks(&self) -> usize {
        (self.profile.ambient_dim / self.profile.block_dim.max(1)) as usize
    }

    /// The bytes of a frame with a norm of two bytes.
    pub fn frame_len(&self) -> usize {
        13 + (self.blocks() * usize::from(self.profile.wire_index_bits)).div_ceil(8)
    }

    /// 7 for the matrix, then the codewords, of a profile that fits.
    pub fn lengths(&self) -> Answer<()> {
        let p = &self.profile;
        length(3, self.matrix.len() == self.dim() * self.dim())?;
        length(4, self.codewords.len() == p.codebook_size as usize * p.block_dim as usize)
    }

    /// 18 for the codewords, then the matrix.
    pub fn values(&self) -> Answer<()> {
        if let Some(place) = self.codewords.iter().position(|v| !v.is_finite()) {
            return refused(18, &[4, place as u64]);
        }
        bounded(3, &self.matrix, LIMIT)
    }
}

/// The frame of these indices.
pub fn frame(setup: &Setup, indices: &[u32], norm: &[u8]) -> Vec<u8> {
    let width = setup.profile.wire_index_bits;
    let packed = pack_indices(indices, width).expect("these fit");
    probe::to_compact_bytes(width, indices.len() as u32, norm, &packed)
}

/// Blocks, k and N at the ends of what a profile may have; one of them has d = 4,096.
pub fn largest(random: &mut Random) -> [(usize, usize, usize); 4] {
    let (blocks, k) = random.pick(&[(4_096, 1), (1_024, 4), (64, 64), (16, 256)]);
    [(blocks, k, 64), (2, 256, 9), (2, 1, 1 << 20), (3, 2, (1 << 16) + 1)]
}

/// Coordinates exchanged, some with their sign changed.
fn turned(random: &mut Random, d: usize) -> Vec<f64> {
    let mut places: Vec<usize> = (0..d).collect();
    for place in (1..d).rev() {
        places.swap(place, random.index(place + 1));
    }
    let mut matrix = vec![0.0; d * d];
    for (row, place) in places.into_iter().enumerate() {
        matrix[row * d + place] = random.pick(&[1.0, -1.0]);
    }
    matrix
}

/// A reflection: the unit matrix less 2 v v' for a vector v of length 1.
fn reflected(random: &mut Random, d: usize) -> Vec<f64> {
    let v: Vec<f64> = (0..d).map(|_| random.below(2001) as f64 / 1000.0 - 1.0).collect();
    let size: f64 = v.iter().map(|x| x * x).sum::<f64>().max(1e-9);
    let at = |row: usize, col: usize| f64::from(row == col) - 2.0 * v[row] * v[col] / size;
    (0..d * d).map(|i| at(i / d, i % d)).collect()
}

/// What makes a setup wrong, or right at its limit.
pub const FAULTS: [fn(&mut Setup); 24] = [
    |s| s.log2 = f64::INFINITY,
    |s| (s.log2, s.profile.paper_rate) = (7.0, 7.0 / f64::from(s.profile.block_dim)),
    |s| s.log2 += 1e-9,
    |s| s.profile.empty_cell_policy = 77,
    |s| s.profile.schema = "",
    |s| s.profile.ambient_dim = 0,
    |s| s.profile.ambient_dim += 1,
    |s| s.profile.ambient_dim *= 2,
    |s| s.profile.block_dim = 0,
    |s| s.profile.block_dim = 257,
    |s| s.profile.codebook_size = 1,
    |s| s.profile.codebook_size = (1 << 20) + 1,
    |s| s.profile.wire_index_bits += 1,
    |s| s.profile.wire_rate = f64::NAN,
    |s| s.profile.norm_format = 1,
    |s| s.profile.rotation_algorithm = "",
    |s| shorten(&mut s.matrix),
    |s| s.matrix.push(0.0),
    |s| s.matrix.clear(),
    |s| shorten(&mut s.codewords),
    |s| s.codewords.push(0.0),
    |s| s.codewords.clear(),
    |s| s.codewords.iter_mut().for_each(|v| *v = f32::INFINITY),
    |s| s.matrix.iter_mut().for_each(|v| *v = 2.0 * LIMIT),
];

/// A setup with every two faults, and with every odd value anywhere in its matrix, alone and beside one in a codeword.
pub fn faulty(good: &Setup) -> Vec<Setup> {
    let mut setups = Vec::new();
    for first in FAULTS {
        for second in FAULTS {
            let mut setup = good.clone();
            first(&mut setup);
            second(&mut setup);
            setups.push(setup);
        }
    }
    for edge in edges(LIMIT) {
        for place in 0..good.matrix.len() {
            let mut setup = good.clone();
            setup.matrix[place] = edge;
            setups.push(setup.clone());
            let place = place % setup.codewords.len();
            setup.codewords[place] = edge as f32;
            setups.push(setup);
        }
    }
    setups
}
