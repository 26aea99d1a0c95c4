//! Inputs for the runs: a small deterministic generator (splitmix64) with the values drawn from it, and profiles that fit.
//!
//! The recorded answers (`record`) hang on what the generator draws, and in which order.

use crate::profile::probe::{wire_index_bits, Profile, ROTATION_ALGORITHM, SCHEMA};

pub struct Random(u64);

impl Random {
    pub fn new(seed: u64) -> Self {
        Random(seed)
    }

    pub fn bits(&mut self) -> u64 {
        self.0 = self.0.wrapping_add(0x9e37_79b9_7f4a_7c15);
        let mut z = self.0;
        z = (z ^ (z >> 30)).wrapping_mul(0xbf58_476d_1ce4_e5b9);
        z = (z ^ (z >> 27)).wrapping_mul(0x94d0_49bb_1331_11eb);
        z ^ (z >> 31)
    }

    /// A number below `bound`, which is not 0.
    pub fn below(&mut self, bound: u64) -> u64 {
        self.bits() % bound
    }

    /// The same for lengths and places.
    pub fn index(&mut self, bound: usize) -> usize {
        self.below(bound as u64) as usize
    }

    pub fn pick<T: Copy>(&mut self, from: &[T]) -> T {
        from[self.index(from.len())]
    }

    /// One time in `n`.
    pub fn one_in(&mut self, n: u64) -> bool {
        self.below(n) == 0
    }

    pub fn bytes(&mut self, len: usize) -> Vec<u8> {
        (0..len).map(|_| self.bits() as u8).collect()
    }

    /// Any f64: special ones, small whole numbers, a spread of sizes near 1, and any bits.
    pub fn f64(&mut self) -> f64 {
        match self.below(8) {
            0 => self.pick(&SPECIAL),
            1 => self.below(2001) as f64 - 1000.0,
            2..=5 => self.near_one(),
            _ => f64::from_bits(self.bits()),
        }
    }

    /// Any f32, in the same manner.
    pub fn f32(&mut self) -> f32 {
        match self.below(8) {
            0 => self.pick(&SPECIAL) as f32,
            1 => self.below(2001) as f32 - 1000.0,
            2..=5 => self.near_one() as f32,
            _ => f32::from_bits(self.bits() as u32),
        }
    }

    /// A number of either sign, from 2^-16 to 2^16.
    pub fn near_one(&mut self) -> f64 {
        let sign = self.bits() << 63;
        let exponent = 1023 - 16 + self.below(32);
        f64::from_bits(sign | exponent << 52 | self.bits() >> 12)
    }

    /// Small whole numbers, on which ties are common, or numbers of either sign from 2^-16 to 2^16.
    pub fn values(&mut self, len: usize) -> Vec<f64> {
        let whole = self.one_in(3);
        (0..len).map(|_| if whole { self.below(9) as f64 - 4.0 } else { self.near_one() }).collect()
    }
}

const SPECIAL: [f64; 14] = [
    0.0,
    -0.0,
    1.0,
    -1.0,
    f64::INFINITY,
    f64::NEG_INFINITY,
    f64::NAN,
    f64::MAX,
    f64::MIN_POSITIVE,
    5e-324,
    f32::MAX as f64,
    f32::MIN_POSITIVE as f64,
    1.401298464324817e-45,
    65504.0,
];

/// A profile of this shape whose other fields fit it, as far as the shape allows.
pub fn fitting(d: u32, k: u32, n: u32) -> Profile<'static> {
    let bits = wire_index_bits(n.into()).unwrap_or(0);
    let (radius_method, direction_method) = match k {
        2 => (1, 0),
        3 => (0, 1),
        _ => (0, 2),
    };
    Profile {
        schema: SCHEMA,
        ambient_dim: d,
        block_dim: k,
        codebook_size: n,
        paper_rate: crate::log2(n.into()) / f64::from(k),
        wire_index_bits: bits,
        wire_rate: f64::from(bits) / f64::from(k),
        norm_format: 0,
        rotation_seed: 7,
        rotation_algorithm: ROTATION_ALGORITHM,
        codebook_seed: 11,
        source_mode: 0,
        radius_method,
        direction_method,
        restarts: 4,
        iterations: 25,
        training_samples: n.max(256),
        empty_cell_policy: 0,
    }
}
