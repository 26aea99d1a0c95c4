//! Rotation by a lent matrix and back.

use crate::inputs;
use crate::run::{lent, refused, with_buffer, Outcome, Run};
use beside::proved;
use oracle::rotation::probe;
use oracle::Answer;

pub fn run(run: &mut Run) -> Outcome {
    for d in 1..=12 {
        for _ in 0..run.rounds(500) {
            random(run, d)?;
        }
    }
    for _ in 0..run.rounds(20) {
        let d = 13 + run.random.below(100);
        random(run, d)?;
    }
    // Dimensions that are refused, with slices of any length.
    let around = |center: u64| (0..5).map(move |i| center.wrapping_add(i).wrapping_sub(2));
    let refused = [0, 1 << 12, 1 << 16, 1 << 31, 1 << 32, 1 << 33, 1 << 48, 1 << 63];
    for d in refused.into_iter().flat_map(around) {
        if d != 0 && d <= 4096 {
            continue;
        }
        for len in 0..3 {
            both(run, d, &vec![1.0; len], &vec![1.0; len], len)?;
        }
    }
    // The largest dimension that is accepted.
    let d = 4096;
    let matrix: Vec<f64> = (0..d * d).map(|_| run.random.near_one()).collect();
    let input: Vec<f64> = (0..d).map(|_| run.random.near_one()).collect();
    both(run, d as u64, &matrix, &input, d)
}

/// A random matrix and input, and lengths wrong by one.
fn random(run: &mut Run, d: u64) -> Outcome {
    let any = run.random.one_in(3);
    let len = d as usize;
    let random = &mut run.random;
    let mut values = |len: usize| -> Vec<f64> {
        let value = |_| if any { random.f64() } else { random.near_one() };
        (0..len).map(value).collect()
    };
    let (matrix, input) = (values(len * len + 1), values(len + 1));
    for matrix_len in [len * len, len * len - 1, len * len + 1] {
        for input_len in [len, len - 1, len + 1] {
            for out_len in [len, len - 1, len + 1] {
                both(run, d, &matrix[..matrix_len], &input[..input_len], out_len)?;
            }
        }
    }
    // Zeros of both signs.
    let zeros = vec![run.random.pick(&[0.0, -0.0]); len];
    both(run, d, &matrix[..len * len], &zeros, len)
}

fn both(run: &mut Run, d: u64, matrix: &[f64], input: &[f64], out_len: usize) -> Outcome {
    let mut out = lent(out_len);
    let answer = proved(nuqtelya::apply(d, matrix, input, &mut out));
    let expected = expected(d, matrix, input, out_len, probe::apply);
    // The sign of a zero is not compared here: releases of Rust differ in where a sum starts.
    let (expected, held) = with_buffer(expected, out_len);
    let expected = (expected, unsigned_zeros(held));
    let found = (answer, unsigned_zeros(out));
    run.same("apply", &expected, &found, inputs!(d, matrix, input, out_len))?;

    let mut out = lent(out_len);
    let answer = proved(nuqtelya::apply_inverse(d, matrix, input, &mut out));
    let expected = self::expected(d, matrix, input, out_len, probe::apply_inverse);
    let expected = with_buffer(expected, out_len);
    run.same("apply_inverse", &expected, &(answer, out), inputs!(d, matrix, input, out_len))
}

type Probe = fn(u64, &[f64], &[f64]) -> Answer<Vec<f64>>;

/// The published answer, and the lengths that it does not test: the matrix before the input, the output after it.
fn expected(d: u64, matrix: &[f64], input: &[f64], out_len: usize, probe: Probe) -> Answer<Vec<f64>> {
    if 0 < d && d <= 4096 && matrix.len() as u64 != d * d {
        return refused(7, &[3]);
    }
    let answer = probe(d, matrix, input)?;
    if answer.len() != out_len {
        return refused(7, &[6]);
    }
    Ok(answer)
}

fn unsigned_zeros(values: Vec<f64>) -> Vec<f64> {
    values.into_iter().map(|v| if v == 0.0 { 0.0 } else { v }).collect()
}
