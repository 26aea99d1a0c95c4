//! The mean squared error of two vectors.

use crate::inputs;
use crate::run::{Outcome, Run};
use beside::proved;
use oracle::metrics::probe;

pub fn run(run: &mut Run) -> Outcome {
    for left in 0..6 {
        for right in 0..6 {
            for _ in 0..10 {
                case(run, left, right)?;
            }
        }
    }
    for _ in 0..run.rounds(50_000) {
        let len = run.random.below(40) as usize;
        case(run, len, len)?;
    }
    for _ in 0..run.rounds(20) {
        let len = 1000 + run.random.below(4000) as usize;
        case(run, len, len)?;
        case(run, len, len + 1)?;
    }
    Ok(())
}

fn case(run: &mut Run, left_len: usize, right_len: usize) -> Outcome {
    // Half of the cases hold ordinary numbers alone, so that one NaN does not hide the rest.
    let any = run.random.one_in(2);
    let random = &mut run.random;
    let mut values = |len: usize| -> Vec<f32> {
        let value = |_| {
            if any {
                random.f32()
            } else {
                random.near_one() as f32
            }
        };
        (0..len).map(value).collect()
    };
    let (left, right) = (values(left_len), values(right_len));
    let expected = probe::mse(&left, &right);
    run.same("mse", &expected, &proved(nuqtelya::mse(&left, &right)), inputs!(left, right))
}
