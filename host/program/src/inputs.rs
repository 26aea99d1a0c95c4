//! What a training is lent: read from files, or made where it is not handed in.

use crate::book::Made;
use crate::coding::check_values;
use crate::failure::{Done, Failure};
use crate::files::Input;
use crate::memory::zeros;
use crate::rotation::{self, Rule};
use crate::samples;
use crate::train::{Job, Source};
use nuqtelya::Profile;
use std::path::PathBuf;

/// The files of a training, opened, with their lengths tested.
pub struct Inputs {
    source: Input,
    /// How many, if the source holds vectors and not samples.
    vectors: Option<u64>,
    start: Option<Input>,
    matrices: Option<Input>,
    rotation: Option<Input>,
}

/// All values that a training is lent, and the rotation that goes with the codebook.
pub struct Lent {
    pub rule: Rule,
    pub matrix: Vec<f64>,
    pub samples: Vec<f64>,
    pub start: Vec<f64>,
    pub matrices: Vec<f64>,
}

impl Inputs {
    pub fn open(job: &Job) -> Done<Inputs> {
        let p = &job.profile;
        let (d, k, n) = (p.ambient_dim as usize, p.block_dim as usize, p.codebook_size as usize);
        let (source, vectors) = match &job.source {
            Source::Vectors(path) => {
                let file = Input::open(path)?;
                let vectors = file.pieces(4 * d as u64, "a vector")?;
                (file, Some(vectors))
            }
            Source::Samples(path) => {
                let file = Input::open(path)?;
                // S was taken from the length; it may have changed since.
                file.exactly(8 * u64::from(p.training_samples) * k as u64, "a sample set of S × k values")?;
                (file, None)
            }
        };
        Ok(Inputs {
            source,
            vectors,
            start: exactly(&job.start, n * k, "a start of N × k values")?,
            matrices: exactly(&job.matrices, matrix_values(p), "a set of (R - 1) × k × k values")?,
            rotation: exactly(&job.rotation, d * d, "a matrix of d × d values")?,
        })
    }

    /// What has to be made.
    pub fn made(&self, profile: &Profile) -> Made {
        Made {
            samples: self.vectors.is_some(),
            start: self.start.is_none(),
            matrices: self.matrices.is_none() && profile.restarts > 1,
        }
    }

    pub fn read(mut self, p: &Profile) -> Done<Lent> {
        let (d, k) = (p.ambient_dim as usize, p.block_dim as usize);
        let values = p.codebook_size as usize * k;
        let (rule, matrix) = match &mut self.rotation {
            Some(file) => (Rule::Stored, handed_in(file, d, p)?),
            None => (rotation::rule(d), rotation::rotation(d, p.rotation_seed)),
        };
        let mut samples = zeros(p.training_samples as usize * k)?;
        match self.vectors {
            Some(vectors) => samples::from_vectors(&mut self.source, vectors, p, &matrix, &mut samples)?,
            None => self.source.f64s(&mut samples)?,
        }
        let mut start = zeros(values)?;
        match &mut self.start {
            Some(file) => file.f64s(&mut start)?,
            None => samples::start(&samples, p, &mut start),
        }
        let mut matrices = zeros(matrix_values(p))?;
        match &mut self.matrices {
            Some(file) => file.f64s(&mut matrices)?,
            None => rotation::restarts(k, p.codebook_seed, &mut matrices),
        }
        Ok(Lent { rule, matrix, samples, start, matrices })
    }
}

/// The values of the matrices for all restarts but the first.
fn matrix_values(p: &Profile) -> usize {
    (p.restarts as usize - 1) * p.block_dim as usize * p.block_dim as usize
}

/// A file that was handed in.
fn exactly(path: &Option<PathBuf>, values: usize, what: &str) -> Done<Option<Input>> {
    let Some(path) = path else { return Ok(None) };
    let file = Input::open(path)?;
    file.exactly(8 * values as u64, what)?;
    Ok(Some(file))
}

/// A rotation that was handed in. Training does not use it, so its values are tested now.
fn handed_in(file: &mut Input, d: usize, p: &Profile) -> Done<Vec<f64>> {
    let mut matrix = zeros(d * d)?;
    file.f64s(&mut matrix)?;
    let codewords = zeros(p.codebook_size as usize * p.block_dim as usize)?;
    check_values(p, &matrix, &codewords).map_err(Failure::refused(file.path().display().to_string()))?;
    Ok(matrix)
}
