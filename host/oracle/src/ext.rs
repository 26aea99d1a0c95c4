//! Stand-ins for the crates that the published files use. A module in scope serves where they say `use serde::..`.

pub mod serde {
    pub use derives::{Deserialize, Serialize};
}

pub mod thiserror {
    pub use derives::Error;
}

pub mod half {
    pub use crate::half::f16;
}

/// Nothing random is drawn: samples and matrices are lent (`standins::lend`).
pub mod rand {
    pub trait SeedableRng {
        fn seed_from_u64(seed: u64) -> Self;
    }
}

pub mod rand_chacha {
    pub struct ChaCha8Rng;

    impl super::rand::SeedableRng for ChaCha8Rng {
        fn seed_from_u64(_: u64) -> Self {
            ChaCha8Rng
        }
    }
}

pub mod rand_distr {
    pub trait Distribution<T> {
        fn sample<R: ?Sized>(&self, rng: &mut R) -> T;
    }

    pub struct StandardNormal;

    impl Distribution<f64> for StandardNormal {
        fn sample<R: ?Sized>(&self, _: &mut R) -> f64 {
            0.0
        }
    }
}

/// A matrix whose `qr` gives the next lent matrix as q and a unit r, so that no sign is changed.
pub mod nalgebra {
    use std::ops::{Index, IndexMut};

    pub struct DMatrix {
        dim: usize,
        rows: Vec<f64>,
    }

    pub struct Qr {
        dim: usize,
    }

    impl DMatrix {
        pub fn from_vec(dim: usize, _: usize, rows: Vec<f64>) -> Self {
            DMatrix { dim, rows }
        }

        pub fn qr(self) -> Qr {
            Qr { dim: self.dim }
        }
    }

    impl Qr {
        pub fn q(&self) -> DMatrix {
            DMatrix { dim: self.dim, rows: crate::standins::lend::next_matrix() }
        }

        pub fn r(&self) -> Unit {
            Unit
        }
    }

    impl Index<(usize, usize)> for DMatrix {
        type Output = f64;
        fn index(&self, (row, col): (usize, usize)) -> &f64 {
            &self.rows[row * self.dim + col]
        }
    }

    impl IndexMut<(usize, usize)> for DMatrix {
        fn index_mut(&mut self, (row, col): (usize, usize)) -> &mut f64 {
            &mut self.rows[row * self.dim + col]
        }
    }

    /// Only its diagonal is read.
    pub struct Unit;

    impl Index<(usize, usize)> for Unit {
        type Output = f64;
        fn index(&self, _: (usize, usize)) -> &f64 {
            &1.0
        }
    }
}

/// The search of another crate, replaced by training's own search on widened values, as document 01 has it. Codewords are
/// widened one at a time: the first of least distance among all is the first of those that are nearest by themselves.
pub mod gpu_backend {
    use crate::lloyd::{nearest_index, probe::tied};
    use std::cell::RefCell;

    /// A codeword found, whether another was as near, and the block that was searched for.
    pub struct Search {
        pub index: u32,
        pub tied: bool,
        pub block: Vec<f32>,
    }

    thread_local! {
        /// The searches so far; kept only while they are asked for.
        static SEARCHES: RefCell<Option<Vec<Search>>> = const { RefCell::new(None) };
    }

    /// What `work` makes, and its searches in order.
    pub fn watching<T>(work: impl FnOnce() -> T) -> (T, Vec<Search>) {
        SEARCHES.set(Some(Vec::new()));
        let made = work();
        (made, SEARCHES.take().expect("a list"))
    }

    pub fn nearest_codeword_f32(block: &[f32], codewords: &[f32], k: usize) -> usize {
        let sought: Vec<f64> = block.iter().map(|v| f64::from(*v)).collect();
        let mut wide = vec![0.0; k];
        let (mut best, mut least) = (0, f64::INFINITY);
        for (index, codeword) in codewords.chunks_exact(k).enumerate() {
            wide.iter_mut().zip(codeword).for_each(|(wide, value)| *wide = f64::from(*value));
            let (_, distance) = nearest_index(&sought, &wide, k);
            if distance < least {
                (best, least) = (index, distance);
            }
        }
        SEARCHES.with_borrow_mut(|searches| {
            if let Some(searches) = searches {
                let wide: Vec<f64> = codewords.iter().map(|v| f64::from(*v)).collect();
                let tied = tied(&sought, &wide, k, best);
                searches.push(Search { index: best as u32, tied, block: block.to_vec() });
            }
        });
        best
    }
}
