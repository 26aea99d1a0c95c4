//! The square root against the processor.

use crate::inputs;
use crate::run::{Outcome, Run};
use beside::proved;

pub fn run(run: &mut Run) -> Outcome {
    // Every sign and exponent, with fractions at both ends and in the middle.
    for top in 0..1 << 12 {
        for fraction in [0, 1, 2, (1 << 51) - 1, 1 << 51, (1 << 51) + 1, (1 << 52) - 2, (1 << 52) - 1] {
            root(run, f64::from_bits(top << 52 | fraction))?;
        }
    }
    // Subnormal numbers with one bit set, and all ones below it.
    for i in 0..52 {
        root(run, f64::from_bits(1 << i))?;
        root(run, f64::from_bits((1 << i) - 1))?;
    }
    for n in 0..run.rounds(20_000) {
        around(run, n as f64)?;
        around(run, (n * n) as f64)?;
    }
    for _ in 0..run.rounds(100_000) {
        let bits = run.random.bits();
        root(run, f64::from_bits(bits))?;
        root(run, f64::from_bits(bits & (u64::MAX >> 1)))?;
        root(run, f64::from_bits(bits >> 12))?;
        // Exact squares of 26 bits, and squares of 53 bits and of the middles between them, as near as the format has.
        let short = (bits >> 38) as f64;
        around(run, short * short)?;
        let long = 1.0 + (bits >> 12) as f64 * f64::EPSILON;
        around(run, long * long)?;
        around(run, long * long + long * f64::EPSILON)?;
    }
    Ok(())
}

/// x and its neighbours.
fn around(run: &mut Run, x: f64) -> Outcome {
    for step in 0..5 {
        root(run, f64::from_bits(x.to_bits().wrapping_add(step).wrapping_sub(2)))?;
    }
    Ok(())
}

fn root(run: &mut Run, x: f64) -> Outcome {
    run.same("sqrt", &Ok(x.sqrt()), &proved(nuqtelya::sqrt(x)), inputs!(x))
}
