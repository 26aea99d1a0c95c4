//! Stand-ins for the published crate's own files that are not at hand or that make random values.

/// Every digest is the same, so no digest test refuses.
pub mod digest {
    use crate::Result;

    pub const DIGEST: &str = "digest";

    pub fn json_digest<T: ?Sized>(_: &str, _: &T) -> Result<String> {
        Ok(DIGEST.into())
    }

    pub fn bytes_digest(_: &[u8]) -> String {
        DIGEST.into()
    }
}

pub mod receipt {
    use crate::profile::FibQuantProfileV1;

    pub struct FibQuantCompressionReceiptV1 {
        pub mse: Option<f64>,
        pub cosine_similarity: Option<f64>,
    }

    impl FibQuantCompressionReceiptV1 {
        pub fn new(_: &FibQuantProfileV1, _: String, _: String, _: String, _: String, _: String) -> Self {
            FibQuantCompressionReceiptV1 { mse: None, cosine_similarity: None }
        }
    }
}

/// What a probe lends to the published code in the place of random values, used up in order.
pub mod lend {
    use std::cell::RefCell;

    thread_local! {
        static SAMPLES: RefCell<std::vec::IntoIter<Vec<f64>>> = Default::default();
        static MATRICES: RefCell<std::vec::IntoIter<Vec<f64>>> = Default::default();
    }

    pub fn samples(samples: Vec<Vec<f64>>) {
        SAMPLES.with(|lent| *lent.borrow_mut() = samples.into_iter());
    }

    pub fn matrices(matrices: Vec<Vec<f64>>) {
        MATRICES.with(|lent| *lent.borrow_mut() = matrices.into_iter());
    }

    pub fn next_sample() -> Vec<f64> {
        SAMPLES.with(|lent| lent.borrow_mut().next().expect("a lent sample"))
    }

    pub fn next_matrix() -> Vec<f64> {
        MATRICES.with(|lent| lent.borrow_mut().next().expect("a lent matrix"))
    }
}

/// Hands out the lent samples. The radii are never asked for.
pub mod spherical_beta {
    use crate::{ext::rand_chacha::ChaCha8Rng, Result};

    pub fn sample_spherical_beta(_: usize, _: usize, _: &mut ChaCha8Rng) -> Result<Vec<f64>> {
        Ok(super::lend::next_sample())
    }

    pub fn sample_reference_projection(_: usize, _: usize, _: &mut ChaCha8Rng) -> Result<Vec<f64>> {
        Ok(super::lend::next_sample())
    }

    pub fn radius_quantile(_: usize, _: usize, _: usize, _: usize) -> Result<f64> {
        unreachable!("no starting codebook is made")
    }

    pub fn radius_quantile_k2_closed_form(_: usize, _: f64) -> Result<f64> {
        unreachable!("no starting codebook is made")
    }
}

pub mod directions {
    use crate::{profile::DirectionMethod, Result};

    pub fn directions_for_method(_: usize, _: usize, _: &DirectionMethod) -> Result<Vec<Vec<f64>>> {
        unreachable!("no starting codebook is made")
    }
}
