//! rotation.rs as published, and its probe.

use crate::ext::*;

include!(concat!(env!("FIB_SRC"), "rotation.rs"));

pub mod probe {
    use super::StoredRotation;
    use crate::answer::{refusal, Answer};
    use crate::standins::lend;

    /// `matrix` holds d × d values, row by row, unless d is refused.
    pub fn apply(d: u64, matrix: &[f64], input: &[f64]) -> Answer<Vec<f64>> {
        lent(d, matrix)?.apply(input).map_err(refusal)
    }

    pub fn apply_inverse(d: u64, matrix: &[f64], input: &[f64]) -> Answer<Vec<f64>> {
        lent(d, matrix)?.apply_inverse(input).map_err(refusal)
    }

    /// A rotation by this matrix.
    pub fn lent(d: u64, matrix: &[f64]) -> Answer<StoredRotation> {
        lend::matrices(vec![matrix.to_vec()]);
        StoredRotation::new(d as usize, 0).map_err(refusal)
    }
}
