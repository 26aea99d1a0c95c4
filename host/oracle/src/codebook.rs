//! codebook.rs as published, and its probe.

use crate::ext::*;

include!(concat!(env!("FIB_SRC"), "codebook.rs"));

pub mod probe {
    use super::*;
    use crate::answer::{refusal, Answer, Refusal, Value};
    use crate::lloyd::LLOYD_REPORT_SCHEMA;
    use crate::profile::probe::Profile;
    use crate::standins::{digest::DIGEST, lend};

    /// Codeword `index` of codewords for this profile, whose other fields are not looked at.
    pub fn codeword(codewords: &[f32], profile: &Profile, index: u32) -> Answer<Vec<f64>> {
        codebook(codewords, profile).codeword(index as usize).map_err(refusal)
    }

    /// The profile's checks, then the length and the finiteness of the codewords.
    pub fn validate(codewords: &[f32], profile: &Profile) -> Answer<()> {
        // A matrix is made on the way, but never read from: any will do.
        let d = profile.ambient_dim.min(4096) as usize;
        lend::matrices(vec![vec![0.0; d * d]]);
        codebook(codewords, profile).validate().map_err(|error| located(codewords, error))
    }

    /// A codebook with these codewords and a report that agrees with its profile.
    pub fn codebook(codewords: &[f32], profile: &Profile) -> FibCodebookV1 {
        FibCodebookV1 {
            schema_version: CODEBOOK_SCHEMA.into(),
            profile: profile.published(),
            profile_digest: DIGEST.into(),
            codebook_digest: DIGEST.into(),
            rotation_digest: DIGEST.into(),
            codewords: codewords.to_vec(),
            init_mse: 0.0,
            training_mse: 0.0,
            refinement_report: LloydReportV1 {
                schema_version: LLOYD_REPORT_SCHEMA.into(),
                restarts: profile.restarts,
                iterations: profile.iterations,
                training_samples: profile.training_samples,
                init_mse: 0.0,
                best_mse: 0.0,
                best_restart: 0,
                empty_cells_repaired: 0,
                repair_events: Vec::new(),
                seed: profile.codebook_seed,
            },
        }
    }

    /// A refusal by 18 with the place, which the error does not name.
    pub(crate) fn located(codewords: &[f32], error: FibQuantError) -> Refusal {
        let mut refusal = refusal(error);
        if refusal.0 == 18 {
            let place = codewords.iter().position(|v| !v.is_finite());
            refusal.1.push(Value::Whole(place.expect("a value not finite") as u64));
        }
        refusal
    }
}
