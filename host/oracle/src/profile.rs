//! profile.rs as published, and its probe.

use crate::ext::*;

include!(concat!(env!("FIB_SRC"), "profile.rs"));

pub mod probe {
    use super::*;
    use crate::answer::{refusal, Answer};

    /// The profile's schema and rotation algorithm that are accepted.
    pub const SCHEMA: &str = PROFILE_SCHEMA;
    pub const ROTATION_ALGORITHM: &str = ROTATION_ALGORITHM_VERSION;

    // The published choices, each at its code.
    const NORM_FORMATS: [NormFormat; 2] = [NormFormat::Fp16Paper, NormFormat::F32Reference];
    const SOURCE_MODES: [SourceMode; 2] = [SourceMode::CanonicalSphericalBeta, SourceMode::ReferenceGaussianProjection];
    const RADIUS_METHODS: [RadiusMethod; 3] =
        [RadiusMethod::BetaQuantile, RadiusMethod::K2ClosedForm, RadiusMethod::LargeDSingleShellExplicit];
    const DIRECTION_METHODS: [DirectionMethod; 3] =
        [DirectionMethod::FibonacciSpiral, DirectionMethod::FibonacciSphere, DirectionMethod::RobertsKronecker];
    const EMPTY_CELL_POLICIES: [EmptyCellPolicy; 2] =
        [EmptyCellPolicy::SplitHighestDistortion, EmptyCellPolicy::FailClosed];

    /// The fields of a profile; a choice is its place in the published declaration, from 0. The codebook's version is
    /// left out: nothing tests it.
    #[derive(Debug, Clone, Copy)]
    pub struct Profile<'a> {
        pub schema: &'a str,
        pub ambient_dim: u32,
        pub block_dim: u32,
        pub codebook_size: u32,
        pub paper_rate: f64,
        pub wire_index_bits: u8,
        pub wire_rate: f64,
        pub norm_format: u8,
        pub rotation_seed: u64,
        pub rotation_algorithm: &'a str,
        pub codebook_seed: u64,
        pub source_mode: u8,
        pub radius_method: u8,
        pub direction_method: u8,
        pub restarts: u32,
        pub iterations: u32,
        pub training_samples: u32,
        pub empty_cell_policy: u8,
    }

    impl Profile<'_> {
        pub fn published(&self) -> FibQuantProfileV1 {
            FibQuantProfileV1 {
                schema_version: self.schema.into(),
                ambient_dim: self.ambient_dim,
                block_dim: self.block_dim,
                // Hidden from the compiler, so that log2 is taken at run time.
                codebook_size: std::hint::black_box(self.codebook_size),
                paper_rate_bits_per_coord: self.paper_rate,
                wire_index_bits: self.wire_index_bits,
                wire_bits_per_coord: self.wire_rate,
                norm_format: NORM_FORMATS[usize::from(self.norm_format)].clone(),
                rotation_seed: self.rotation_seed,
                rotation_algorithm_version: self.rotation_algorithm.into(),
                codebook_seed: self.codebook_seed,
                codebook_version: String::new(),
                source_mode: SOURCE_MODES[usize::from(self.source_mode)].clone(),
                radius_method: RADIUS_METHODS[usize::from(self.radius_method)].clone(),
                direction_method: DIRECTION_METHODS[usize::from(self.direction_method)].clone(),
                lloyd_restarts: self.restarts,
                lloyd_iterations: self.iterations,
                training_samples: self.training_samples,
                empty_cell_policy: policy(self.empty_cell_policy),
            }
        }
    }

    pub(crate) fn policy(code: u8) -> EmptyCellPolicy {
        EMPTY_CELL_POLICIES[usize::from(code)].clone()
    }

    pub fn validate(profile: &Profile) -> Answer<()> {
        profile.published().validate().map_err(refusal)
    }

    pub fn wire_index_bits(codebook_size: u64) -> Answer<u8> {
        super::wire_index_bits(codebook_size as usize).map_err(refusal)
    }

    /// Panics at block_dim = 0.
    pub fn block_count(profile: &Profile) -> u32 {
        profile.published().block_count()
    }

    pub fn default_training_samples(codebook_size: u64) -> Answer<u32> {
        super::default_training_samples(codebook_size as usize).map_err(refusal)
    }

    pub fn paper_default(d: u64, k: u64, n: u64, seed: u64) -> Answer<Profile<'static>> {
        let n = std::hint::black_box(n as usize);
        let made = FibQuantProfileV1::paper_default(d as usize, k as usize, n, seed).map_err(refusal)?;
        assert_eq!(made.schema_version, SCHEMA);
        assert_eq!(made.rotation_algorithm_version, ROTATION_ALGORITHM);
        Ok(Profile {
            schema: SCHEMA,
            ambient_dim: made.ambient_dim,
            block_dim: made.block_dim,
            codebook_size: made.codebook_size,
            paper_rate: made.paper_rate_bits_per_coord,
            wire_index_bits: made.wire_index_bits,
            wire_rate: made.wire_bits_per_coord,
            norm_format: code(&NORM_FORMATS, &made.norm_format),
            rotation_seed: made.rotation_seed,
            rotation_algorithm: ROTATION_ALGORITHM,
            codebook_seed: made.codebook_seed,
            source_mode: code(&SOURCE_MODES, &made.source_mode),
            radius_method: code(&RADIUS_METHODS, &made.radius_method),
            direction_method: code(&DIRECTION_METHODS, &made.direction_method),
            restarts: made.lloyd_restarts,
            iterations: made.lloyd_iterations,
            training_samples: made.training_samples,
            empty_cell_policy: code(&EMPTY_CELL_POLICIES, &made.empty_cell_policy),
        })
    }

    fn code<T: PartialEq>(choices: &[T], choice: &T) -> u8 {
        choices.iter().position(|c| c == choice).expect("a choice") as u8
    }
}
