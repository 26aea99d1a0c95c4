//! Inputs of a shape, for both sides.

use oracle::inputs::Random;
use oracle::profile::probe::{paper_default, Profile as Published};

pub struct Shape {
    pub d: usize,
    pub k: usize,
    pub n: usize,
    pub s: usize,
}

impl Shape {
    /// With 30 samples for each codeword.
    pub fn new(d: usize, k: usize, n: usize) -> Shape {
        Shape { d, k, n, s: 30 * n }
    }

    /// The profile on both sides, with these restarts and rounds.
    pub fn profiles(&self, restarts: u32, iterations: u32) -> (nuqtelya::Profile<'static>, Published<'static>) {
        let default = paper_default(self.d as u64, self.k as u64, self.n as u64, 7).expect("a profile");
        let published = Published { restarts, iterations, training_samples: self.s as u32, ..default };
        (beside::profile(&published, oracle::log2(self.n as u64)), published)
    }
}

/// From -1 to 1.
pub fn wide(random: &mut Random, count: usize) -> Vec<f64> {
    (0..count).map(|_| (random.bits() >> 11) as f64 / (1u64 << 52) as f64 - 1.0).collect()
}

pub fn narrow(random: &mut Random, count: usize) -> Vec<f32> {
    wide(random, count).into_iter().map(|value| value as f32).collect()
}

/// A training's inputs.
pub struct Training {
    pub samples: Vec<f64>,
    pub initial: Vec<f64>,
    pub assignments: Vec<u32>,
}

impl Training {
    /// Every cell gets samples in turn, so that an update has nothing to repair.
    pub fn new(shape: &Shape, random: &mut Random) -> Training {
        let samples = wide(random, shape.s * shape.k);
        // One sample in so many, from the whole of them.
        let every = shape.s / shape.n;
        let initial = samples.chunks_exact(shape.k).step_by(every).take(shape.n).flatten().copied().collect();
        Training { samples, initial, assignments: (0..shape.s as u32).map(|s| s % shape.n as u32).collect() }
    }
}

/// A coder's inputs. The matrix has the entries' size of a rotation, which is all that time depends on.
pub struct Coding {
    pub matrix: Vec<f64>,
    pub codewords: Vec<f32>,
    pub vectors: Vec<Vec<f32>>,
}

impl Coding {
    pub fn new(shape: &Shape, random: &mut Random) -> Coding {
        let size = (3.0 / shape.d as f64).sqrt();
        let matrix = wide(random, shape.d * shape.d).into_iter().map(|value| value * size).collect();
        let codewords = wide(random, shape.n * shape.k).into_iter().map(|value| (value * size) as f32).collect();
        let vectors = (0..VECTORS).map(|_| narrow(random, shape.d)).collect();
        Coding { matrix, codewords, vectors }
    }
}

/// Different vectors and codes, taken in turn.
pub const VECTORS: usize = 16;
