//! Codewords as they are stored, and the check of them.

use crate::inputs;
use crate::rules::{length, shaped, SHAPES};
use crate::run::{lent, refused, with_buffer, Outcome, Run};
use beside::proved;
use oracle::codebook::probe;
use oracle::inputs::fitting;
use oracle::Answer;

pub fn run(run: &mut Run) -> Outcome {
    for _ in 0..run.rounds(10_000) {
        let (n, k) = (1 + run.random.index(12), 1 + run.random.index(8));
        random(run, n, k)?;
    }
    for (n, k) in [(1, 256), (2, 256), (300, 64), (1 << 20, 1)] {
        random(run, n, k)?;
    }
    let some = vec![1.0; 600];
    for (n, k) in SHAPES {
        for len in [0, 1, 2, 256, 257, 514] {
            check(run, &some[..len], n, k)?;
            for output in [0, 1, 256, 257] {
                codeword(run, &some[..len], n, k, 0, output)?;
            }
        }
    }
    run.met(&[7, 11, 18], &[])
}

/// Any values, all indices about N, and lengths wrong by one.
fn random(run: &mut Run, n: usize, k: usize) -> Outcome {
    let finite = run.random.one_in(2);
    let random = &mut run.random;
    let mut codewords: Vec<f32> =
        (0..n * k + 1).map(|_| if finite { random.near_one() as f32 } else { random.f32() }).collect();
    if n * k > 10_000 {
        codewords.fill(0.5);
    }
    for len in [n * k, n * k - 1, n * k + 1] {
        check(run, &codewords[..len], n as u64, k as u64)?;
        for output in [k, k - 1, k + 1] {
            for index in [0, n / 2, n - 1, n, n + 1, u32::MAX as usize] {
                codeword(run, &codewords[..len], n as u64, k as u64, index as u32, output)?;
            }
        }
    }
    Ok(())
}

fn codeword(run: &mut Run, codewords: &[f32], n: u64, k: u64, index: u32, output: usize) -> Outcome {
    let expected = with_buffer(codeword_expected(codewords, n, k, index, output), output);
    let mut out = lent(output);
    let answer = proved(nuqtelya::codeword(codewords, n, k, index, &mut out));
    run.same("codeword", &expected, &(answer, out), inputs!(codewords, n, k, index, output))
}

fn codeword_expected(codewords: &[f32], n: u64, k: u64, index: u32, output: usize) -> Answer<Vec<f64>> {
    length(4, shaped(codewords.len(), n, k))?;
    length(6, output as u64 == k)?;
    probe::codeword(codewords, &fitting(2 * k as u32, k as u32, n as u32), index)
}

fn check(run: &mut Run, codewords: &[f32], n: u64, k: u64) -> Outcome {
    let found = proved(nuqtelya::check_codewords(codewords, n, k));
    run.same("check_codewords", &check_expected(codewords, n, k), &found, inputs!(codewords, n, k))
}

fn check_expected(codewords: &[f32], n: u64, k: u64) -> Answer<()> {
    length(4, shaped(codewords.len(), n, k))?;
    if n == 1 {
        // No profile has one codeword.
        return match codewords.iter().position(|v| !v.is_finite()) {
            Some(place) => refused(18, &[4, place as u64]),
            None => Ok(()),
        };
    }
    probe::validate(codewords, &fitting(2 * k as u32, k as u32, n as u32))
}
