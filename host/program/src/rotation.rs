//! Random orthogonal matrices from a seed.

use crate::random::{Purpose, Random};

/// How a matrix came about, by the number that a codebook file has for it.
#[derive(Debug, Clone, Copy, PartialEq)]
pub enum Rule {
    /// Handed in, and stored whole.
    Stored = 0,
    /// A product of reflections: uniform over all orthogonal matrices, at a cost that grows with the cube of the
    /// dimension.
    Reflections = 1,
    /// Layers of rotations of two rows each: nearly uniform, at a cost that grows with little more than the square.
    Pairs = 2,
}

/// Above this dimension reflections would take longer than a second or so.
const LARGEST_FOR_REFLECTIONS: usize = 512;

/// The rule by which a matrix of this dimension is made.
pub fn rule(dim: usize) -> Rule {
    if dim <= LARGEST_FOR_REFLECTIONS {
        Rule::Reflections
    } else {
        Rule::Pairs
    }
}

/// The matrix of a rotation, d × d values, row by row.
pub fn rotation(dim: usize, seed: u64) -> Vec<f64> {
    let mut random = Random::new(seed, Purpose::Rotation);
    match rule(dim) {
        Rule::Pairs => pairs(dim, &mut random),
        _ => reflections(dim, &mut random),
    }
}

/// Fills `matrices` with those of the restarts after the first, one after another.
pub fn restarts(dim: usize, seed: u64, matrices: &mut [f64]) {
    let mut random = Random::new(seed, Purpose::Restarts);
    for matrix in matrices.chunks_exact_mut(dim * dim) {
        matrix.copy_from_slice(&reflections(dim, &mut random));
    }
}

fn unit(dim: usize) -> Vec<f64> {
    let mut matrix = vec![0.0; dim * dim];
    matrix.iter_mut().step_by(dim + 1).for_each(|value| *value = 1.0);
    matrix
}

/// Reflects ever larger lower right corners, each by a vector of normal values, and turns the corner's first row round
/// so that its first value has the sign of chance.
fn reflections(dim: usize, random: &mut Random) -> Vec<f64> {
    let mut matrix = unit(dim);
    if random.unit() < 0.5 {
        matrix[dim * dim - 1] = -1.0;
    }
    for size in 2..=dim {
        let mut vector: Vec<f64> = (0..size).map(|_| random.normal()).collect();
        let length = vector.iter().map(|v| v * v).sum::<f64>().sqrt();
        let sign = if vector[0] < 0.0 { -1.0 } else { 1.0 };
        vector[0] += sign * length;
        reflect(&mut matrix, dim, &vector);
        let first = dim - size;
        for value in &mut matrix[first * dim + first..][..size] {
            *value *= -sign;
        }
    }
    matrix
}

/// Multiplies the lower right corner from the left by the reflection along a vector of the corner's size.
fn reflect(matrix: &mut [f64], dim: usize, vector: &[f64]) {
    let first = dim - vector.len();
    let square: f64 = vector.iter().map(|v| v * v).sum();
    // A vector of zeros has no direction; chance all but rules it out.
    if square == 0.0 {
        return;
    }
    let mut along = vec![0.0; vector.len()];
    for (row, value) in matrix.chunks_exact(dim).skip(first).zip(vector) {
        along.iter_mut().zip(&row[first..]).for_each(|(sum, entry)| *sum += value * entry);
    }
    for (row, value) in matrix.chunks_exact_mut(dim).skip(first).zip(vector) {
        let factor = 2.0 * value / square;
        row[first..].iter_mut().zip(&along).for_each(|(entry, sum)| *entry -= factor * sum);
    }
}

/// In each layer the rows are shuffled into pairs and each pair is rotated by an angle of chance. After log2(d) layers
/// every row can depend on every coordinate; there are more than twice as many.
fn pairs(dim: usize, random: &mut Random) -> Vec<f64> {
    let mut matrix = unit(dim);
    let mut order: Vec<usize> = (0..dim).collect();
    for _ in 0..2 * dim.ilog2() + 4 {
        for last in (1..dim).rev() {
            order.swap(last, random.below(last as u64 + 1) as usize);
        }
        for pair in order.chunks_exact(2) {
            let (low, high) = (pair[0].min(pair[1]), pair[0].max(pair[1]));
            let (c, s) = random.direction();
            let (before, after) = matrix.split_at_mut(high * dim);
            for (a, b) in before[low * dim..][..dim].iter_mut().zip(&mut after[..dim]) {
                (*a, *b) = (c * *a + s * *b, c * *b - s * *a);
            }
        }
    }
    matrix
}

#[cfg(test)]
mod tests {
    use super::*;

    /// How far the rows are from being orthonormal.
    fn error(matrix: &[f64], dim: usize) -> f64 {
        let rows: Vec<&[f64]> = matrix.chunks_exact(dim).collect();
        let mut worst = 0.0f64;
        for (i, a) in rows.iter().enumerate() {
            for (j, b) in rows.iter().enumerate() {
                let product: f64 = a.iter().zip(*b).map(|(x, y)| x * y).sum();
                worst = worst.max((product - f64::from(i == j)).abs());
            }
        }
        worst
    }

    #[test]
    fn made_matrices_are_orthogonal() {
        for dim in [1, 2, 3, 16, 65] {
            assert!(error(&reflections(dim, &mut Random::new(3, Purpose::Rotation)), dim) < 1e-13);
        }
        for dim in [2, 3, 65, 600] {
            assert!(error(&pairs(dim, &mut Random::new(3, Purpose::Rotation)), dim) < 1e-13);
        }
    }

    #[test]
    fn a_seed_decides_the_matrix() {
        assert_eq!(rotation(40, 5), rotation(40, 5));
        assert_ne!(rotation(40, 5), rotation(40, 6));
        let mut two = [0.0; 18];
        restarts(3, 5, &mut two);
        assert!(error(&two[..9], 3) < 1e-13 && error(&two[9..], 3) < 1e-13 && two[..9] != two[9..]);
    }
}
