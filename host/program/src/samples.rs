//! Samples and a start made from vectors.

use crate::failure::{Done, Failure};
use crate::files::Input;
use crate::progress::Progress;
use crate::random::{Draw, Purpose, Random};
use nuqtelya::Profile;

/// Fills `samples` with blocks of the vectors, as encoding searches for them: a vector divided by its norm, rotated by
/// the matrix, narrowed to binary32, and cut in blocks.
///
/// No block comes twice, unless there are fewer blocks than samples: then each comes as often as they all can, and the
/// rest is drawn.
pub fn from_vectors(
    input: &mut Input,
    vectors: u64,
    profile: &Profile,
    matrix: &[f64],
    samples: &mut [f64],
) -> Done<()> {
    let d = profile.ambient_dim as usize;
    let k = profile.block_dim as usize;
    let blocks = vectors * (d / k) as u64;
    let wanted = (samples.len() / k) as u64;
    let (times, rest) = (wanted / blocks, wanted % blocks);
    let mut draw = Draw::new(rest, blocks, Random::new(profile.codebook_seed, Purpose::Samples));

    let mut progress = Progress::new("reading vectors");
    let mut vector = vec![0.0f32; d];
    let mut samples = samples.chunks_exact_mut(k);
    for number in 0..vectors {
        progress.show(number, vectors);
        input.f32s(&mut vector)?;
        let direction =
            direction(&vector).map_err(|what| Failure::file(input.path(), format!("vector {number} {what}")))?;
        for rows in matrix.chunks_exact(k * d) {
            let copies = times + u64::from(draw.next());
            if copies > 0 {
                let block: Vec<f64> = rows.chunks_exact(d).map(|row| rotated(row, &direction)).collect();
                samples.by_ref().take(copies as usize).for_each(|sample| sample.copy_from_slice(&block));
            }
        }
    }
    Ok(())
}

/// The vector divided by its norm.
fn direction(vector: &[f32]) -> Result<Vec<f64>, String> {
    if let Some(place) = vector.iter().position(|value| !value.is_finite()) {
        return Err(format!("has at place {place} a value that is not finite"));
    }
    let norm = vector.iter().map(|value| f64::from(*value) * f64::from(*value)).sum::<f64>().sqrt();
    if norm == 0.0 {
        return Err("is all zeros, which has no direction".into());
    }
    Ok(vector.iter().map(|value| f64::from(*value) / norm).collect())
}

/// One value of the rotated vector. Only the rows of drawn blocks are worked out, not the whole product.
fn rotated(row: &[f64], direction: &[f64]) -> f64 {
    let sum = row.iter().zip(direction).fold(0.0, |sum, (entry, value)| sum + entry * value);
    f64::from(sum as f32)
}

/// Fills `start` with samples drawn by their places, in their order.
pub fn start(samples: &[f64], profile: &Profile, start: &mut [f64]) {
    let k = profile.block_dim as usize;
    let random = Random::new(profile.codebook_seed, Purpose::Start);
    let mut draw = Draw::new((start.len() / k) as u64, (samples.len() / k) as u64, random);
    let drawn = samples.chunks_exact(k).filter(|_| draw.next());
    start.chunks_exact_mut(k).zip(drawn).for_each(|(codeword, sample)| codeword.copy_from_slice(sample));
}

#[cfg(test)]
mod tests {
    use super::*;

    #[test]
    fn a_drawn_value_is_one_of_the_library() {
        let d = 24;
        let matrix = crate::rotation::rotation(d, 9);
        let direction: Vec<f64> = (0..d).map(|i| (i as f64 - 11.0) / 40.0).collect();
        let mut product = vec![0.0; d];
        nuqtelya::apply(d as u64, &matrix, &direction, &mut product).expect("a product");
        for (row, value) in matrix.chunks_exact(d).zip(product) {
            assert_eq!(rotated(row, &direction), f64::from(value as f32));
        }
    }
}
