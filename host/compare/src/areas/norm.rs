//! Norms: decoded, beside the Rust; encoded, beside the conversion on whole numbers, which document 02 (K3) puts in its
//! place.

use crate::inputs;
use crate::run::{Outcome, Run};
use beside::proved;
use oracle::binary16::{self, middle, value};
use oracle::codec::probe;

pub fn run(run: &mut Run) -> Outcome {
    // Every payload of two bytes, and every other length.
    for bits in 0..=u16::MAX {
        decode(run, &bits.to_le_bytes())?;
    }
    for len in (0..=20).chain([65_535, 65_536]) {
        for byte in [0, 0x3c, 0xff] {
            decode(run, &vec![byte; len])?;
        }
    }
    // Every binary16 from 0 to the largest and the middle to the next, exactly; the binary64 values next to it; and some
    // between it and the binary32 values next to it, which are 2^29 binary64 values away.
    for bits in 0..0x7c00 {
        for center in [value(bits), middle(bits)].map(f64::to_bits) {
            encode(run, f64::from_bits(center))?;
            for step in [1, 2, 3, 1 << 12, 1 << 27, (1 << 28) - 1, 1 << 28, (1 << 28) + 1, 1 << 29, 3 << 28] {
                encode(run, f64::from_bits(center + step))?;
                encode(run, f64::from_bits(center.saturating_sub(step)))?;
            }
        }
    }
    // The two middles beside which there is nothing to write.
    for center in [2f64.powi(-25), 65_520.0].map(f64::to_bits) {
        for step in 0..=4_000 {
            encode(run, f64::from_bits(center - 2_000 + step))?;
        }
    }
    for power in -1074..1024 {
        let x = if power < -1000 { 2f64.powi(-1000) * 2f64.powi(power + 1000) } else { 2f64.powi(power) };
        encode(run, x)?;
        encode(run, -x)?;
    }
    for x in [0.0, -0.0, f64::NAN, f64::INFINITY, f64::NEG_INFINITY, f64::MAX, 1.0 + 2f64.powi(-11) + 2f64.powi(-40)] {
        encode(run, x)?;
    }
    for _ in 0..run.rounds(600_000) {
        let (any, near) = (run.random.f64(), run.random.near_one());
        encode(run, any)?;
        encode(run, near)?;
        // Of any size that binary16 has, and a little beyond.
        let exponent = 1023 - 27 + run.random.below(45);
        encode(run, f64::from_bits(any.to_bits() & 0xf_ffff_ffff_ffff | exponent << 52))?;
    }
    run.met(&[10], &[ANOTHER_BIT, NOT_REFUSED])
}

// How a norm's pattern differs from the published one.
pub const ANOTHER_BIT: &str = "norms with another last bit than the Rust's";
pub const NOT_REFUSED: &str = "norms that the Rust refuses";

fn encode(run: &mut Run, norm: f64) -> Outcome {
    let expected = binary16::norm(norm);
    if let Ok(bits) = expected {
        match probe::encode_norm(norm) {
            Ok(published) if published != bits.to_le_bytes() => run.see(ANOTHER_BIT),
            Ok(_) => {}
            Err(_) => run.see(NOT_REFUSED),
        }
    }
    run.same("encode_norm", &expected, &proved(nuqtelya::encode_norm(norm)), inputs!(norm))
}

fn decode(run: &mut Run, payload: &[u8]) -> Outcome {
    run.same("decode_norm", &probe::decode_norm(payload), &proved(nuqtelya::decode_norm(payload)), inputs!(payload))
}
