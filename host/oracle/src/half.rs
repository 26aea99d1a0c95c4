//! binary16, as far as the published codec uses it: the stand-in for the crate `half`.

/// A binary16 value by its bits.
#[allow(non_camel_case_types)]
#[derive(Debug, Clone, Copy)]
pub struct f16(pub u16);

impl f16 {
    pub const ZERO: f16 = f16(0);

    /// Rounds to the nearest, ties to even. A NaN keeps its sign and the top of its payload, and becomes quiet.
    pub fn from_f32(x: f32) -> f16 {
        let bits = x.to_bits();
        let sign = (bits >> 16) as u16 & 0x8000;
        let size = bits & 0x7fff_ffff;
        if size > 0x7f80_0000 {
            return f16(sign | 0x7e00 | (size >> 13) as u16 & 0x3ff);
        }
        let exponent = size >> 23;
        if exponent >= 127 + 16 {
            return f16(sign | 0x7c00);
        }
        if exponent < 127 - 25 {
            return f16(sign);
        }
        // The value is `significand` >> `shift` units of the result's last place; `base` is the exponent's part of the
        // result less the hidden bit, so that a carry moves on into the exponent.
        let significand = size & 0x7f_ffff | 0x80_0000;
        let (base, shift) =
            if exponent >= 127 - 14 { ((exponent - (127 - 14)) << 10, 13) } else { (0, 13 + (127 - 14) - exponent) };
        let rest = significand & ((1 << shift) - 1);
        let half = 1 << (shift - 1);
        let whole = significand >> shift;
        let up = rest > half || rest == half && whole % 2 == 1;
        f16(sign | (base + whole + u32::from(up)) as u16)
    }

    /// Exact.
    pub fn to_f32(self) -> f32 {
        let sign = u32::from(self.0 & 0x8000) << 16;
        let exponent = u32::from(self.0 >> 10 & 0x1f);
        let fraction = u32::from(self.0 & 0x3ff);
        match exponent {
            0 => {
                // fraction × 2^-24
                let size = fraction as f32 * f32::from_bits((127 - 24) << 23);
                f32::from_bits(sign | size.to_bits())
            }
            0x1f if fraction != 0 => f32::from_bits(sign | 0x7fc0_0000 | fraction << 13),
            0x1f => f32::from_bits(sign | 0x7f80_0000),
            _ => f32::from_bits(sign | (exponent + 127 - 15) << 23 | fraction << 13),
        }
    }

    pub fn is_finite(self) -> bool {
        self.0 & 0x7c00 != 0x7c00
    }

    pub fn to_le_bytes(self) -> [u8; 2] {
        self.0.to_le_bytes()
    }

    pub fn from_le_bytes(bytes: [u8; 2]) -> f16 {
        f16(u16::from_le_bytes(bytes))
    }
}

// By value: the codec compares a finite one with zero.
impl PartialEq for f16 {
    fn eq(&self, other: &f16) -> bool {
        self.to_f32() == other.to_f32()
    }
}

impl PartialOrd for f16 {
    fn partial_cmp(&self, other: &f16) -> Option<std::cmp::Ordering> {
        self.to_f32().partial_cmp(&other.to_f32())
    }
}
