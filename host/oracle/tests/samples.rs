//! Document 01's samples of the work, through the probes: they show that the oracle is wired up as meant.

use oracle::codec::probe::NORM;
use oracle::inputs::{fitting, Random};
use oracle::profile::probe::Profile;
use oracle::{binary16, bitpack, codebook, codec, f16, lloyd, metrics, profile, rotation};
use oracle::{Answer, Value};

/// The number and the whole values of a refusal.
fn refusal<T>(answer: Answer<T>) -> (u32, Vec<u64>) {
    let (number, values) = answer.err().expect("a refusal");
    let whole = |value| match value {
        Value::Whole(v) => v,
        Value::Real(_) => panic!("a real value"),
    };
    (number, values.into_iter().map(whole).collect())
}

/// The same, and the repairs before it.
fn stopped<T>(attempt: lloyd::probe::Attempt<T>) -> (u32, Vec<u64>, usize) {
    let stopped = attempt.err().expect("a refusal");
    let (number, values) = refusal::<T>(Err(stopped.refusal));
    (number, values, stopped.repairs)
}

/// d = 4, k = 2 and N = 2, with S samples, R restarts and I rounds.
fn small(training_samples: u32, restarts: u32, iterations: u32) -> Profile<'static> {
    Profile { training_samples, restarts, iterations, ..fitting(4, 2, 2) }
}

#[test]
fn update() {
    let update = lloyd::probe::update_centroids;
    let done = update(&[0.0, 10.0], 1, &[1.0, 3.0], &[0, 0], 0, 5, 7).unwrap();
    assert_eq!(done.codebook, [2.0 - 1e-6, 2.0 + 1e-6]);
    assert_eq!(done.repairs, 1);
    let event = &done.events[0];
    assert_eq!((event.restart, event.iteration), (5, 7));
    assert_eq!((event.empty_cell, event.donor_cell), (1, 0));
    assert_eq!(event.donor_count_before, 2);
    assert_eq!((event.donor_distortion, event.residual_norm), (10.0, 1.0));

    // Residual without direction, no donor, empty cells under the policy that fails.
    let same = update(&[0.0, 10.0], 1, &[2.0, 2.0], &[0, 0], 0, 0, 0);
    assert_eq!(stopped(same), (16, vec![0], 0));
    let single = update(&[0.0, 10.0], 1, &[5.0], &[0], 0, 0, 0);
    assert_eq!(stopped(single), (15, vec![1], 0));
    let closed = update(&[0.0, 10.0, 20.0], 1, &[5.0], &[1], 1, 0, 0);
    assert_eq!(stopped(closed), (14, vec![2], 0));
    // The second of two repairs: the donor is the last of largest distortion, the cell the second empty one.
    let later = update(&[0.0, 9.0, 1.0, 9.0], 1, &[0.0, 4.0, 1.0, 1.0], &[0, 0, 2, 2], 0, 0, 0);
    assert_eq!(stopped(later), (16, vec![2], 1));
    let later = update(&[0.0, 9.0, 9.0, 9.0], 1, &[0.0, 4.0], &[0, 0], 0, 0, 0);
    assert_eq!(stopped(later), (15, vec![2], 1));
}

#[test]
fn search() {
    assert_eq!(lloyd::probe::nearest_index(&[0.0], &[1.0, -1.0], 1), (0, 1.0));
    // Another as near as the one chosen: before or behind it, but not among those that are farther.
    let tied = |codewords: [f64; 3], index| lloyd::probe::tied(&[0.0], &codewords, 1, index);
    assert!(tied([1.0, 3.0, -1.0], 0) && tied([1.0, 3.0, -1.0], 2) && !tied([3.0, -3.0, 1.0], 2));
    let mean = lloyd::probe::mse_for_codebook(&[1.0, 3.0], 1, &[0.0, 3.0, 4.0, 5.0]);
    assert_eq!(mean.unwrap(), 1.5);
    assert_eq!(refusal(lloyd::probe::mse_for_codebook(&[1.0], 1, &[])), (1, vec![]));
}

#[test]
fn refine() {
    let samples = [1.0, 0.0, 3.0, 0.0, -1.0, 0.0, -3.0, 0.0];
    let quarter_turn = [0.0, -1.0, 1.0, 0.0];
    let initial = [1.0, 0.0, -1.0, 0.0];
    let done = lloyd::probe::refine_codebook(&small(4, 2, 3), &initial, &samples, &quarter_turn);
    let done = done.unwrap();
    assert_eq!(done.codewords, [2.0, 0.0, -2.0, 0.0]);
    assert_eq!((done.report.init_mse, done.report.best_mse), (2.0, 1.0));
    // The turned start is equally far from every sample, so its second cell is repaired; its error is no smaller.
    assert_eq!(done.report.best_restart, 0);
    assert_eq!(done.report.empty_cells_repaired, 1);
    assert_eq!(done.report.repair_events[0].restart, 1);
    assert!(lloyd::probe::validate_report(&done.report, &small(4, 2, 3)).is_ok());
    let other = lloyd::probe::validate_report(&done.report, &small(4, 1, 3));
    assert_eq!(refusal(other), (20, vec![1]));

    // All samples equal: the second cell stays empty and no direction is there.
    let equal = [1.0; 8];
    let refused = lloyd::probe::refine_codebook(&small(4, 2, 3), &[1.0, 1.0, 5.0, 5.0], &equal, &quarter_turn);
    assert_eq!(stopped(refused), (16, vec![0], 0));
    let short = lloyd::probe::refine_codebook(&small(4, 1, 1), &[0.0], &samples, &[]);
    assert_eq!(stopped(short), (7, vec![1], 0));
}

#[test]
fn packing() {
    let width = profile::probe::wire_index_bits;
    let widths: Vec<u8> = (2..=5).map(|n| width(n).unwrap()).collect();
    assert_eq!(widths, [1, 2, 2, 3]);
    assert_eq!(refusal(width(1)), (4, vec![1]));
    assert_eq!(profile::probe::default_training_samples(8).unwrap(), 256);
    assert_eq!(profile::probe::default_training_samples(9).unwrap(), 270);

    let packed = bitpack::probe::pack_indices(&[5, 3, 7], 3).unwrap();
    assert_eq!(packed, [0xdd, 0x01]);
    assert_eq!(bitpack::probe::unpack_indices(&packed, 3, 3).unwrap(), [5, 3, 7]);
    let padding = bitpack::probe::unpack_indices(&[0xdd, 0x03], 3, 3);
    assert_eq!(refusal(padding), (9, vec![3]));
    assert_eq!(refusal(bitpack::probe::pack_indices(&[5, 9, 8], 3)), (11, vec![9, 7]));

    let norm = codec::probe::encode_norm(1.0).unwrap();
    let frame = codec::probe::to_compact_bytes(3, 3, &norm, &packed);
    let layout = [0x46, 0x42, 0x31, 1, 3, 3, 0, 0, 0, 2, 0, 0, 0x3c, 0xdd, 1];
    assert_eq!(frame, layout);
    let parsed = codec::probe::from_compact_bytes(&frame, &small(4, 1, 1)).unwrap();
    assert_eq!((parsed.width, parsed.count), (3, 3));
    assert_eq!((parsed.norm, parsed.indices), (norm, packed));
}

#[test]
fn norms() {
    let norm = |x: f64| codec::probe::encode_norm(x);
    assert_eq!(refusal(norm(65_520.0)), (10, vec![]));
    assert_eq!(norm(65_504.0).unwrap(), 0x7bffu16.to_le_bytes());
    assert_eq!(refusal(norm(2f64.powi(-25))), (10, vec![]));
    assert_eq!(norm(2f64.powi(-24)).unwrap(), 0x0001u16.to_le_bytes());
    // Rounded twice; document 02 has another pattern.
    let twice = 1.0 + 2f64.powi(-11) + 2f64.powi(-40);
    assert_eq!(norm(twice).unwrap(), 0x3c00u16.to_le_bytes());
    assert_eq!(binary16::norm(twice).unwrap(), 0x3c01);
    assert_eq!(binary16::norm(65_520f64.next_down()).unwrap(), 0x7bff);
    assert_eq!(refusal(binary16::norm(65_520.0)), (10, vec![]));
    assert_eq!(refusal(binary16::norm(2f64.powi(-25))), (10, vec![]));
    assert_eq!(refusal(binary16::norm(-1.0)), (10, vec![]));
    assert_eq!(codec::probe::decode_norm(&[0x00, 0x3c]).unwrap(), 1.0);
    assert_eq!(refusal(codec::probe::decode_norm(&[0x00])), (10, vec![]));
}

#[test]
fn profiles() {
    let good = small(4, 1, 1);
    assert!(profile::probe::validate(&good).is_ok());
    assert_eq!(profile::probe::block_count(&good), 2);
    let wide = Profile { ambient_dim: 4097, block_dim: 17, ..good };
    assert_eq!(refusal(profile::probe::validate(&wide)), (5, vec![]));
    let rate = Profile { paper_rate: f64::INFINITY, ..good };
    let (number, values) = profile::probe::validate(&rate).unwrap_err();
    let [Value::Whole(6), Value::Real(given), Value::Real(expected)] = values[..] else { panic!("{values:?}") };
    assert_eq!((number, given, expected), (6, f64::INFINITY, 0.5));
    let default = profile::probe::paper_default(64, 4, 32, 3).unwrap();
    assert!(profile::probe::validate(&default).is_ok());
}

#[test]
fn codes() {
    let good = small(4, 1, 1);
    let unit = [1., 0., 0., 0., 0., 1., 0., 0., 0., 0., 1., 0., 0., 0., 0., 1.];
    let codewords = [0.5, 0.5, 0.75, 0.25];
    let bytes = codec::probe::encode(&[3.0, 0.0, 2.0, 2.0], &codewords, &unit, &good).unwrap();
    let values = codec::probe::decode(&bytes, &codewords, &unit, &good).unwrap();
    let norm = f16::from_f32(17f64.sqrt() as f32).to_f32();
    assert_eq!(values, [0.75 * norm, 0.25 * norm, 0.5 * norm, 0.5 * norm]);

    let encode = |input: &[f32]| codec::probe::encode(input, &codewords, &unit, &good);
    assert_eq!(refusal(encode(&[0.0; 3])), (7, vec![5]));
    assert_eq!(refusal(encode(&[0.0, f32::NAN, 0.0, 0.0])), (12, vec![1]));
    assert_eq!(refusal(encode(&[0.0; 4])), (13, vec![]));
    assert_eq!(refusal(encode(&[1e-9, 0.0, 0.0, 0.0])), (10, vec![]));
    // A block (0, 1) lies in the middle of these; each call counts anew, and one that does not count leaves no trace.
    let opposite = [1.0, 0.0, -1.0, 0.0];
    for (input, tied) in [([0.0, 1.0, 0.0, 1.0], 2), ([1.0, 0.0, 0.0, 1.0], 1), ([1.0, 0.0, -1.0, 0.0], 0)] {
        let frame = codec::probe::encode(&input, &opposite, &unit, &good).unwrap();
        let once = codec::probe::encode_rounded_once(&input, &opposite, &unit, &good).unwrap();
        assert_eq!((once.published_norm, once.tied), (frame[NORM].try_into().ok(), tied));
        assert_eq!(once.frame, frame);
    }
    // A norm just above 1 + 2^-11, and one just under 65,520, which two roundings take to infinity.
    let once = |input: &[f32]| codec::probe::encode_rounded_once(input, &codewords, &unit, &good);
    let above = once(&[1.0 + 1.0 / 2048.0, 1.0 / 524_288.0, 0.0, 0.0]).unwrap();
    assert_eq!((&above.frame[NORM], above.published_norm), (&[0x01, 0x3c][..], Some([0x00, 0x3c])));
    let under = once(&[65_519.996, 22.62, 0.0, 0.0]).unwrap();
    assert_eq!((&under.frame[NORM], under.published_norm), (&[0xff, 0x7b][..], None));
    let same = encode(&[65_519.996 / 2.0, 22.62 / 2.0, 0.0, 0.0]).unwrap();
    assert_eq!((&under.frame[..NORM.start], &under.frame[NORM.end..]), (&same[..NORM.start], &same[NORM.end..]));
    assert_eq!(refusal(once(&[65_520.0, 0.0, 0.0, 0.0])), (10, vec![]));
    let header = codec::probe::to_compact_bytes(2, 2, &[0, 0x3c], &[0]);
    assert_eq!(refusal(codec::probe::decode(&header, &codewords, &unit, &good)), (17, vec![]));
    let large = [0.0, 0.0, f32::NAN, 0.0];
    assert_eq!(refusal(codec::probe::decode(&bytes, &large, &unit, &good)), (18, vec![4, 2]));

    assert_eq!(codebook::probe::codeword(&codewords, &good, 1).unwrap(), [0.75, 0.25]);
    assert_eq!(refusal(codebook::probe::codeword(&codewords, &good, 2)), (11, vec![2, 2]));
    assert!(codebook::probe::validate(&codewords, &good).is_ok());
    assert_eq!(refusal(codebook::probe::validate(&large, &good)), (18, vec![4, 2]));
    assert_eq!(refusal(codebook::probe::validate(&[1.0], &good)), (7, vec![4]));
}

#[test]
fn vectors() {
    assert_eq!(metrics::probe::mse(&[1.0, 2.0], &[2.0, 4.0]).unwrap(), 2.5);
    assert_eq!(refusal(metrics::probe::mse(&[1.0], &[])), (7, vec![12]));
    assert_eq!(refusal(metrics::probe::mse(&[], &[])), (1, vec![]));
    let matrix = [1.0, 2.0, 3.0, 4.0];
    assert_eq!(rotation::probe::apply(2, &matrix, &[1.0, 10.0]).unwrap(), [21.0, 43.0]);
    assert_eq!(rotation::probe::apply_inverse(2, &matrix, &[1.0, 10.0]).unwrap(), [31.0, 42.0]);
    assert_eq!(refusal(rotation::probe::apply(0, &[], &[])), (1, vec![]));
    assert_eq!(refusal(rotation::probe::apply(4097, &[], &[])), (5, vec![]));
    assert_eq!(refusal(rotation::probe::apply(2, &matrix, &[1.0])), (7, vec![5]));
}

/// The stand-in for binary16 against the processor, where it has the conversion. Release builds try every binary32.
#[test]
#[cfg(target_arch = "x86_64")]
fn half_as_the_processor_has_it() {
    use std::arch::x86_64::*;

    #[target_feature(enable = "f16c")]
    unsafe fn to_half(x: f32) -> u16 {
        _mm_extract_epi16::<0>(_mm_cvtps_ph::<_MM_FROUND_TO_NEAREST_INT>(_mm_set_ss(x))) as u16
    }

    #[target_feature(enable = "f16c")]
    unsafe fn to_single(bits: u16) -> f32 {
        _mm_cvtss_f32(_mm_cvtph_ps(_mm_set1_epi16(bits as i16)))
    }

    if !is_x86_feature_detected!("f16c") {
        return;
    }
    for bits in 0..=u16::MAX {
        let single = unsafe { to_single(bits) };
        assert_eq!(f16(bits).to_f32().to_bits(), single.to_bits(), "{bits:#x}");
    }
    let step = if cfg!(debug_assertions) { 4099 } else { 1 };
    for bits in (0..=u32::MAX).step_by(step) {
        let x = f32::from_bits(bits);
        assert_eq!(f16::from_f32(x).0, unsafe { to_half(x) }, "{bits:#x}");
    }
}

/// The conversion on whole numbers against the compiler's own, from its run-time library: every middle between two
/// patterns, every pattern, and binary64 values beside them, of both signs.
#[test]
#[cfg(target_arch = "x86_64")]
fn binary16_as_the_compiler_has_it() {
    extern "C" {
        // C's conversion of a double to _Float16, whose bits are the low ones of the register that a float comes back in.
        fn __truncdfhf2(x: f64) -> f32;
    }

    let same = |x: f64| {
        let expected = unsafe { __truncdfhf2(std::hint::black_box(x)) }.to_bits() as u16;
        assert_eq!(binary16::from_f64(x), expected, "{x:e}");
    };
    for bits in 0..0x7c00 {
        assert_eq!(binary16::value(bits), f64::from(f16(bits).to_f32()));
        for center in [binary16::value(bits), binary16::middle(bits)] {
            for step in [0, 1, 2, 1 << 11, 1 << 12, 1 << 28, 1 << 29, 1 << 30] {
                for x in [center.to_bits().saturating_sub(step), center.to_bits() + step].map(f64::from_bits) {
                    same(x);
                    same(-x);
                }
            }
        }
    }
    let mut random = Random::new(1);
    for _ in 0..4_000_000 {
        let bits = random.bits();
        let exponent = 1023 - 28 + random.below(48);
        // Around binary16's own sizes, and up to 2.
        same(f64::from_bits(bits & 0x800f_ffff_ffff_ffff | exponent << 52));
        same(f64::from_bits(bits & !(1 << 62)));
    }
    for x in [f64::MIN_POSITIVE, f64::MAX, f64::INFINITY, f64::NEG_INFINITY] {
        same(x);
    }
}
