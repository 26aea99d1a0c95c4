//! binary64 to binary16, rounded once, on exact whole numbers: a separate statement of what IEEE 754 describes, apart from
//! the published code and its stand-ins. Document 02 (K3) has a norm and refusal 10 compared with such a one. And the exact
//! conversions between binary16 and binary32 that its K9 asks for, likewise.

use crate::answer::{refused, Answer};

/// All that is above zero's pattern and below infinity's.
const NORMS: std::ops::Range<u16> = 1..0x7c00;

/// Both sides are whole numbers of units of 2^-78: no binary64 value from 2^-26 on has a smaller digit.
const UNIT: i32 = 78;

/// The bits of the nearest binary16, on a tie of the even one. A NaN's are 0x7e00.
pub fn from_f64(x: f64) -> u16 {
    if x.is_nan() {
        return 0x7e00;
    }
    let sign = (x.to_bits() >> 48) as u16 & 0x8000;
    let size = x.abs();
    let pattern = match size {
        // Less than half of the smallest value, 2^-24; and beyond the middle from the largest to 2^16.
        _ if size < 2f64.powi(-26) => 0,
        _ if size >= 2f64.powi(17) => 0x7c00,
        _ => nearest(units(size)),
    };
    sign | pattern
}

/// The binary16 that a norm is written as, by document 02: 10 unless the norm is finite and above zero, and so is that.
pub fn norm(x: f64) -> Answer<u16> {
    let pattern = from_f64(x);
    if x.is_finite() && x > 0.0 && NORMS.contains(&pattern) {
        return Ok(pattern);
    }
    Err(refused(10, &[]))
}

/// A normal binary64 value from 2^-26 up to 2^17 in units, exactly.
fn units(x: f64) -> u128 {
    let bits = x.to_bits();
    let significand = u128::from(bits & 0xf_ffff_ffff_ffff | 0x10_0000_0000_0000);
    let exponent = (bits >> 52) as i32 - 1075;
    significand << (exponent + UNIT)
}

/// What a pattern without a sign stands for. Infinity's counts as 2^16: the steps of the format go on beyond its largest.
pub fn value(pattern: u16) -> f64 {
    // No value has more than 11 digits.
    in_units(pattern) as f64 / 2f64.powi(UNIT)
}

/// The middle from a pattern to the next.
pub fn middle(pattern: u16) -> f64 {
    (value(pattern) + value(pattern + 1)) / 2.0
}

/// A pattern's value in units.
fn in_units(pattern: u16) -> u128 {
    let (exponent, digits) = (i32::from(pattern >> 10), u128::from(pattern & 0x3ff));
    match exponent {
        0 => digits << (UNIT - 24),
        _ => (0x400 + digits) << (exponent - 1 + UNIT - 24),
    }
}

/// Patterns are in the order of their values: the last one not above, or the next one.
fn nearest(units: u128) -> u16 {
    let (mut low, mut high) = (0, 0x7c00);
    while low < high {
        let middle = (low + high + 1) / 2;
        if in_units(middle) <= units {
            low = middle;
        } else {
            high = middle - 1;
        }
    }
    if low == 0x7c00 {
        return low;
    }
    let (below, above) = (units - in_units(low), in_units(low + 1) - units);
    low + u16::from(above < below || above == below && low % 2 == 1)
}

/// The pattern of the very value that a binary32 pattern stands for, where there is one. That value is finite and above
/// zero.
pub fn exact(single: u32) -> Option<u16> {
    let (digits, exponent) = odd(single);
    // Two to this is the last place that a value of this size has in binary16.
    let last = (exponent + digits.ilog2() as i32 - 10).max(-24);
    (last <= exponent && last <= 5).then(|| ((last + 24) << 10) as u16 + (digits << (exponent - last)) as u16)
}

/// What a binary32 pattern stands for, likewise: an odd number, and the power of two that it is multiplied by.
fn odd(single: u32) -> (u32, i32) {
    let (digits, exponent) = match (single >> 23, single & 0x7f_ffff) {
        (0, digits) => (digits, -149),
        (exponent, digits) => (0x80_0000 + digits, exponent as i32 - 150),
    };
    let zeros = digits.trailing_zeros();
    (digits >> zeros, exponent + zeros as i32)
}

/// The binary32 pattern of a norm's value; none where the pattern is no norm's.
pub fn to_binary32(pattern: u16) -> Option<u32> {
    if !NORMS.contains(&pattern) {
        return None;
    }
    let units = in_units(pattern);
    let lead = units.ilog2();
    // The first digit is not stored: it adds the one by which this exponent is too small.
    let exponent = lead + 126 - UNIT as u32;
    Some((exponent << 23) + (units << 23 >> lead) as u32)
}

#[cfg(test)]
mod tests {
    use super::*;
    use crate::f16;
    use std::collections::HashMap;

    /// The binary32 pattern of a norm's value by the stand-in, which tests/samples.rs holds against the processor.
    fn by_the_stand_in(pattern: u16) -> Option<u32> {
        let value = f16(pattern).to_f32();
        (value.is_finite() && value > 0.0).then_some(value.to_bits())
    }

    #[test]
    fn every_pattern() {
        for pattern in 0..=u16::MAX {
            let single = to_binary32(pattern);
            assert_eq!(single, by_the_stand_in(pattern), "{pattern:#x}");
            if let Some(single) = single {
                assert_eq!(exact(single), Some(pattern), "{single:#x}");
            }
        }
    }

    /// All values that binary16 has, in a list, decide for every 2^13th pattern of binary32, which its values are among,
    /// and for their neighbours.
    #[test]
    fn binary32_as_a_list_has_it() {
        let list: HashMap<u32, u16> = (0..=u16::MAX).filter_map(|half| Some((by_the_stand_in(half)?, half))).collect();
        assert_eq!(list.len(), 31_743);
        for center in (1 << 13..0x7f80_0000).step_by(1 << 13) {
            for single in center - 2..=center + 2 {
                assert_eq!(exact(single), list.get(&single).copied(), "{single:#x}");
            }
        }
    }
}
