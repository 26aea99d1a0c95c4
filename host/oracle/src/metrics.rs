//! metrics.rs as published, and its probe.

include!(concat!(env!("FIB_SRC"), "metrics.rs"));

pub mod probe {
    use crate::answer::{refusal, Answer};

    pub fn mse(left: &[f32], right: &[f32]) -> Answer<f64> {
        super::mse(left, right).map_err(refusal)
    }
}
