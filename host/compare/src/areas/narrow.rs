//! Narrowing against the processor (binary64 to binary32) and the oracle's binary16 on whole numbers, and widening from
//! binary16.

use crate::inputs;
use crate::run::{Outcome, Run};
use beside::proved;
use oracle::binary16::{self, middle, value};
use oracle::f16;
use std::ops::RangeInclusive;

pub fn run(run: &mut Run) -> Outcome {
    widened(run)?;
    to_binary16(run)?;
    to_binary32(run)
}

/// Every binary16.
fn widened(run: &mut Run) -> Outcome {
    for bits in 0..=u16::MAX {
        let expected = Ok(f16(bits).to_f32());
        run.same("f16 to f32", &expected, &proved(nuqtelya::f16_to_f32(bits)), inputs!(bits))?;
    }
    Ok(())
}

/// Around each binary16 and around the middle to the next one, by steps of binary64 and of binary32, and any bits; in a
/// long run also every binary32.
fn to_binary16(run: &mut Run) -> Outcome {
    if run.many {
        for x in (0..=u32::MAX).map(f32::from_bits) {
            // The stand-in, which the oracle's tests hold against the processor, is sooner done than whole numbers.
            half(run, f64::from(x), f16::from_f32(x).0)?;
        }
    }
    for bits in 0..0x7c00 {
        for center in [value(bits), middle(bits)].map(f64::to_bits) {
            both(run, f64::from_bits(center))?;
            for step in [1, 2, 1 << 28, 1 << 29, 2 << 29, 3 << 29] {
                both(run, f64::from_bits(center + step))?;
                both(run, f64::from_bits(center.saturating_sub(step)))?;
            }
        }
    }
    for x in [65_536.0, f64::MAX, f64::INFINITY, f64::NAN, f64::MIN_POSITIVE, 5e-324] {
        both(run, x)?;
    }
    for _ in 0..run.rounds(1_000_000) {
        let bits = run.random.bits();
        any(run, f64::from_bits(bits))?;
        let exponent = BINARY16.start() + run.random.below(BINARY16.end() - BINARY16.start() + 1);
        any(run, f64::from_bits(bits & 0x800f_ffff_ffff_ffff | exponent << 52))?;
    }
    Ok(())
}

/// Of either sign.
fn both(run: &mut Run, x: f64) -> Outcome {
    any(run, x)?;
    any(run, -x)
}

fn any(run: &mut Run, x: f64) -> Outcome {
    half(run, x, binary16::from_f64(x))
}

fn half(run: &mut Run, x: f64, expected: u16) -> Outcome {
    // Any NaN will do for a NaN.
    let plain = |bits: u16| if bits & 0x7fff > 0x7c00 { 0x7e00 } else { bits };
    let expected = Ok(plain(expected));
    run.same("f64 to f16", &expected, &proved(nuqtelya::f64_to_f16(x)).map(plain), inputs!(x))
}

/// Exponents, biased, of binary16's values, subnormal ones and a little beyond included.
const BINARY16: RangeInclusive<u64> = 1023 - 27..=1023 + 17;

/// Exponents, biased, of binary32's values, subnormal ones and a little beyond included.
const BINARY32: RangeInclusive<u64> = 1023 - 152..=1023 + 129;

/// Around binary32 values and the middles between them, each exponent with telling fractions, and any bits.
fn to_binary32(run: &mut Run) -> Outcome {
    for _ in 0..run.rounds(200_000) {
        // A binary32 has 29 bits less, and a subnormal one fewer still.
        let exact = f64::from(f32::from_bits(run.random.bits() as u32)).to_bits();
        for center in [exact, exact + (1 << 28)] {
            for step in 0..5 {
                single(run, f64::from_bits(center.wrapping_add(step).wrapping_sub(2)))?;
            }
        }
    }
    let fractions = fractions();
    for top in 0..1 << 12 {
        // Sign and exponent; those near binary32's own get every fraction and its neighbours.
        if BINARY32.contains(&(top & 0x7ff)) {
            for fraction in &fractions {
                for step in 0..3 {
                    single(run, f64::from_bits((top << 52 | fraction).wrapping_add(step).wrapping_sub(1)))?;
                }
            }
        } else {
            for fraction in [0, 1, 1 << 51, (1 << 52) - 1] {
                single(run, f64::from_bits(top << 52 | fraction))?;
            }
        }
    }
    for _ in 0..run.rounds(1_000_000) {
        let bits = run.random.bits();
        single(run, f64::from_bits(bits))?;
        let exponent = BINARY32.start() + run.random.below(BINARY32.end() - BINARY32.start() + 1);
        single(run, f64::from_bits(bits & 0x800f_ffff_ffff_ffff | exponent << 52))?;
    }
    Ok(())
}

fn single(run: &mut Run, x: f64) -> Outcome {
    run.same("f64 to f32", &Ok(x as f32), &proved(nuqtelya::f64_to_f32(x)), inputs!(x))
}

/// Each power of two, and the sums and differences of two, below 2^52.
fn fractions() -> Vec<u64> {
    let mut all = vec![0];
    for i in 0..=52u64 {
        for j in 0..i {
            all.push((1 << i) - (1 << j));
            if i < 52 {
                all.push(1 << i | 1 << j);
            }
        }
    }
    all
}
