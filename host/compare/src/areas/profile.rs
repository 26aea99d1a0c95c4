//! The profile's checks, its default, and the numbers worked out from it.

use crate::inputs;
use crate::run::{refused, Outcome, Run, Same};
use beside::proved;
use oracle::inputs::fitting;
use oracle::profile::probe::{self, Profile, ROTATION_ALGORITHM, SCHEMA};
use oracle::{Answer, Value};

pub fn run(run: &mut Run) -> Outcome {
    numbers(run)?;
    shapes(run)?;
    wrong_fields(run)?;
    rates(run)?;
    unknown_codes(run)?;
    random(run)
}

// Values at and around each limit of the shape.
const DIMS: [u32; 44] = [
    0, 1, 2, 3, 4, 5, 6, 7, 8, 9, 12, 16, 34, 130, 132, 255, 256, 257, 258, 510, 512, 514, 768, 3900, 4094, 4095, 4096,
    4097, 4098, 4112, 4352, 8192, 8194, 16382, 16383, 16384, 16385, 16386, 16448, 32768, 65536, 2147483648, 4294967294,
    4294967295,
];
const BLOCKS: [u32; 32] = [
    0, 1, 2, 3, 4, 5, 6, 7, 8, 9, 15, 16, 17, 63, 64, 65, 66, 127, 128, 241, 254, 255, 256, 257, 258, 512, 2048, 4096,
    4097, 16384, 16385, 4294967295,
];
const SIZES: [u32; 33] = [
    0, 1, 2, 3, 4, 5, 6, 7, 8, 9, 10, 15, 16, 17, 31, 32, 33, 255, 256, 257, 65535, 65536, 65537, 262143, 262144,
    262145, 1048574, 1048575, 1048576, 1048577, 1048578, 2097152, 4294967295,
];

/// Widths, block counts and default numbers of samples.
fn numbers(run: &mut Run) -> Outcome {
    let around = |center: u64| (0..7).map(move |i| center.wrapping_add(i).wrapping_sub(3));
    // Where 30 × N reaches 256 and the largest number of samples, and where it overflows; and the powers of two.
    let centers = [8, 10_000_000 / 30, u64::MAX / 30, u64::MAX];
    let powers = (0..64).map(|i| 1u64 << i);
    for n in (0..5_000).chain(powers.chain(centers).flat_map(around)) {
        run.same("wire_index_bits", &probe::wire_index_bits(n), &proved(nuqtelya::wire_index_bits(n)), inputs!(n))?;
        let expected = probe::default_training_samples(n);
        let proved = proved(nuqtelya::default_training_samples(n));
        run.same("default_training_samples", &expected, &proved, inputs!(n))?;
    }
    for d in DIMS {
        for k in BLOCKS {
            // With k = 0 the published function panics.
            let expected = if k == 0 { refused(2, &[d.into(), 0]) } else { Ok(probe::block_count(&fitting(d, k, 2))) };
            run.same("block_count", &expected, &proved(nuqtelya::block_count(d, k)), inputs!(d, k))?;
        }
    }
    Ok(())
}

/// Every shape around the limits, checked and as a default; a default's arguments are wider.
fn shapes(run: &mut Run) -> Outcome {
    let wide = [1 << 32, (1 << 32) + 4, 1 << 63, u64::MAX];
    let widened = |values: &[u32]| -> Vec<u64> { values.iter().map(|v| u64::from(*v)).chain(wide).collect() };
    for d in widened(&DIMS) {
        for k in widened(&BLOCKS) {
            for n in widened(&SIZES) {
                let seed = run.random.bits();
                let own = oracle::log2(n);
                default(run, d, k, n, own, seed)?;
                if let (Ok(d), Ok(k), Ok(n)) = (d.try_into(), k.try_into(), n.try_into()) {
                    validate(run, &fitting(d, k, n), own)?;
                }
            }
        }
    }
    for log2 in [f64::NAN, f64::INFINITY, f64::NEG_INFINITY, 0.0, -3.5, f64::MAX, 5e-324] {
        for (d, k, n) in [(8, 2, 4), (9, 3, 5), (8, 4, 1), (8, 8, 4), (5000, 5, 4)] {
            default(run, d, k, n, log2, 1)?;
        }
    }
    Ok(())
}

/// What makes one field wrong, or right at its limit.
const CHANGES: [fn(&mut Profile); 59] = [
    |p| p.schema = "",
    |p| p.schema = &SCHEMA[..SCHEMA.len() - 1],
    |p| p.schema = &SCHEMA[1..],
    |p| p.schema = ROTATION_ALGORITHM,
    |p| p.ambient_dim = 0,
    |p| p.ambient_dim = p.block_dim,
    |p| p.ambient_dim += 1,
    |p| p.ambient_dim = 1 << 15,
    |p| p.block_dim = 0,
    |p| p.block_dim = 1,
    |p| p.block_dim = p.ambient_dim,
    |p| p.block_dim += 1,
    |p| p.codebook_size = 0,
    |p| p.codebook_size = 1,
    |p| p.codebook_size += 1,
    |p| p.codebook_size = (1 << 20) + 1,
    |p| p.paper_rate = f64::NAN,
    |p| p.paper_rate = f64::INFINITY,
    |p| p.paper_rate = f64::NEG_INFINITY,
    |p| p.paper_rate = -p.paper_rate,
    |p| p.paper_rate += 2e-12,
    |p| p.paper_rate -= 2e-12,
    |p| p.paper_rate += 5e-13,
    |p| p.paper_rate = f64::MAX,
    |p| p.wire_index_bits = 0,
    |p| p.wire_index_bits += 1,
    |p| p.wire_index_bits = 255,
    |p| p.wire_rate = f64::NAN,
    |p| p.wire_rate = f64::INFINITY,
    |p| p.wire_rate = f64::NEG_INFINITY,
    |p| p.wire_rate = 0.0,
    |p| p.wire_rate += 2e-12,
    |p| p.wire_rate -= 2e-12,
    |p| p.wire_rate -= 5e-13,
    |p| p.norm_format = 1,
    |p| p.rotation_seed = u64::MAX,
    |p| p.rotation_algorithm = "",
    |p| p.rotation_algorithm = &ROTATION_ALGORITHM[..ROTATION_ALGORITHM.len() - 1],
    |p| p.rotation_algorithm = &ROTATION_ALGORITHM[1..],
    |p| p.rotation_algorithm = SCHEMA,
    |p| p.source_mode = 1,
    |p| p.radius_method = (p.radius_method + 1) % 3,
    |p| p.radius_method = (p.radius_method + 2) % 3,
    |p| p.direction_method = (p.direction_method + 1) % 3,
    |p| p.direction_method = (p.direction_method + 2) % 3,
    |p| p.restarts = 0,
    |p| p.restarts = 1_024,
    |p| p.restarts = 1_025,
    |p| p.restarts = u32::MAX,
    |p| p.iterations = 0,
    |p| p.iterations = 100_000,
    |p| p.iterations = 100_001,
    |p| p.iterations = u32::MAX,
    |p| p.training_samples = p.codebook_size,
    |p| p.training_samples = p.codebook_size.wrapping_sub(1),
    |p| p.training_samples = 10_000_000,
    |p| p.training_samples = 10_000_001,
    |p| p.training_samples = u32::MAX,
    |p| p.empty_cell_policy = 1,
];

/// Every change, and every two of them in both orders.
fn wrong_fields(run: &mut Run) -> Outcome {
    for (d, k, n) in GOOD {
        let own = oracle::log2(n.into());
        for first in CHANGES {
            for second in CHANGES {
                let mut profile = fitting(d, k, n);
                first(&mut profile);
                validate(run, &profile, own)?;
                second(&mut profile);
                // log2 of the N that there is now, and of the one before.
                validate(run, &profile, oracle::log2(profile.codebook_size.into()))?;
                validate(run, &profile, own)?;
            }
        }
    }
    Ok(())
}

/// Shapes that are accepted.
const GOOD: [(u32, u32, u32); 8] = [
    (2, 1, 2),
    (4, 2, 3),
    (9, 3, 8),
    (64, 4, 32),
    (512, 256, 1000),
    (4096, 64, 1 << 20),
    (4096, 256, 1 << 18),
    (4095, 1, 1 << 20),
];

/// Rates at the edge of what may differ, and any log2.
fn rates(run: &mut Run) -> Outcome {
    let odd = [f64::NAN, f64::INFINITY, f64::NEG_INFINITY, 0.0, -0.0, -1.0, 1e-12, 2e-12, f64::MAX, 5e-324];
    for (d, k, n) in GOOD {
        let good = fitting(d, k, n);
        let own = oracle::log2(n.into());
        let near = |x: f64| (0..9).map(move |i| f64::from_bits(x.to_bits().wrapping_add(i).wrapping_sub(4)));
        for step in [-1e-12, 0.0, 1e-12] {
            for paper_rate in near(good.paper_rate + step) {
                validate(run, &Profile { paper_rate, ..good }, own)?;
                for log2 in odd.into_iter().chain(near(own)) {
                    validate(run, &Profile { paper_rate, ..good }, log2)?;
                }
            }
            for wire_rate in near(good.wire_rate + step) {
                validate(run, &Profile { wire_rate, ..good }, own)?;
            }
        }
        for log2 in odd.into_iter().chain(near(own)).chain(near(own + f64::from(k) * 1e-12)) {
            for paper_rate in odd.into_iter().chain([good.paper_rate, log2 / f64::from(k)]) {
                for wire_rate in [good.wire_rate, f64::NAN] {
                    validate(run, &Profile { paper_rate, wire_rate, ..good }, log2)?;
                }
            }
        }
    }
    Ok(())
}

/// Codes that name no choice, alone and with another field wrong. The published profile has no such choice: the answer is
/// that of a choice which the field must not have, and a policy is not tested.
fn unknown_codes(run: &mut Run) -> Outcome {
    for (d, k, n) in GOOD {
        let own = oracle::log2(n.into());
        for code in (2..=u8::MAX).rev() {
            for change in CHANGES {
                let mut good = fitting(d, k, n);
                change(&mut good);
                let given = Profile { norm_format: code, ..good };
                code_case(run, &given, &Profile { norm_format: 1, ..good }, own)?;
                let given = Profile { source_mode: code, ..good };
                code_case(run, &given, &Profile { source_mode: 1, ..good }, own)?;
                let given = Profile { empty_cell_policy: code, ..good };
                code_case(run, &given, &good, own)?;
                // 2 names the third method.
                let code = code.max(3);
                // No block dimension has this one.
                let unfit = Profile { radius_method: 2, ..good };
                code_case(run, &Profile { radius_method: code, ..good }, &unfit, own)?;
                code_case(run, &Profile { direction_method: code, ..good }, &unfit, own)?;
            }
        }
    }
    Ok(())
}

/// A profile with such a code, and the published one that has the same answer.
fn code_case(run: &mut Run, given: &Profile, published: &Profile, log2: f64) -> Outcome {
    run.same(
        "validate",
        &validity(published, log2),
        &proved(beside::profile(given, log2).validate()),
        inputs!(given, log2),
    )
}

/// Any shape with a few changes.
fn random(run: &mut Run) -> Outcome {
    for _ in 0..run.rounds(50_000) {
        let k = run.random.pick(&BLOCKS);
        let d = if run.random.one_in(4) { run.random.pick(&DIMS) } else { k.wrapping_mul(run.random.below(70) as u32) };
        let n = run.random.pick(&SIZES);
        let mut profile = fitting(d, k, n);
        for _ in 0..run.random.below(4) {
            let change = run.random.pick(&CHANGES);
            // A change of the shape alone might overflow at the largest values.
            if profile.ambient_dim < u32::MAX
                && profile.block_dim < u32::MAX
                && profile.codebook_size < u32::MAX
                && profile.wire_index_bits < u8::MAX
            {
                change(&mut profile);
            }
        }
        validate(run, &profile, oracle::log2(profile.codebook_size.into()))?;
    }
    Ok(())
}

fn validate(run: &mut Run, profile: &Profile, log2: f64) -> Outcome {
    let expected = validity(profile, log2);
    run.same("validate", &expected, &proved(beside::profile(profile, log2).validate()), inputs!(profile, log2))
}

/// The published answer where log2 is the library's own. With another, field 6 is tested against it here, and the fields
/// after it by the published check of a profile whose paper rate is right.
pub fn validity(profile: &Profile, log2: f64) -> Answer<()> {
    let profile = &Profile { empty_cell_policy: 0, ..*profile };
    let answer = probe::validate(profile);
    let own = oracle::log2(profile.codebook_size.into());
    if own.to_bits() == log2.to_bits() || comes_before_rates(&answer) {
        return answer;
    }
    let k = f64::from(profile.block_dim);
    let (given, rate) = (profile.paper_rate, log2 / k);
    if !given.is_finite() || !rate.is_finite() || (given - rate).abs() > 1e-12 {
        return Err((6, vec![Value::Whole(6), Value::Real(given), Value::Real(rate)]));
    }
    probe::validate(&Profile { paper_rate: own / k, ..*profile })
}

/// A profile that fits, as the Rust has to be given it: with the rate of its own log2, and the policy that a code stands
/// for. One that names none is the policy that repairs nothing.
pub fn published<'a>(profile: &Profile<'a>) -> Profile<'a> {
    let paper_rate = oracle::log2(profile.codebook_size.into()) / f64::from(profile.block_dim);
    Profile { paper_rate, empty_cell_policy: profile.empty_cell_policy.min(1), ..*profile }
}

/// Whether an answer is a refusal of the shape or of fields 1 to 5.
fn comes_before_rates(answer: &Answer<()>) -> bool {
    match answer {
        Err((6, values)) => matches!(values[0], Value::Whole(1..=5)),
        Err(_) => true,
        Ok(()) => false,
    }
}

/// The default profile; its paper rate follows the log2 that was handed in.
fn default(run: &mut Run, d: u64, k: u64, n: u64, log2: f64, seed: u64) -> Outcome {
    let mut expected = probe::paper_default(d, k, n, seed);
    if let Ok(profile) = &mut expected {
        let rate = log2 / k as f64;
        profile.paper_rate = rate;
        if !rate.is_finite() {
            expected = Err((6, vec![Value::Whole(6), Value::Real(rate), Value::Real(rate)]));
        }
    }
    let proved = beside::paper_default(d, k, n, log2, seed);
    run.same("paper_default", &expected, &proved, inputs!(d, k, n, log2, seed))
}

impl Same for Profile<'_> {
    fn same(&self, other: &Self) -> bool {
        self.schema == other.schema
            && self.rotation_algorithm == other.rotation_algorithm
            && whole_fields(self) == whole_fields(other)
            && self.paper_rate.same(&other.paper_rate)
            && self.wire_rate.same(&other.wire_rate)
    }
    fn hex(&self) -> String {
        format!("{self:?}, rates {} and {}", self.paper_rate.hex(), self.wire_rate.hex())
    }
}

/// The fields that are whole numbers.
fn whole_fields(p: &Profile) -> [u64; 14] {
    [
        p.ambient_dim.into(),
        p.block_dim.into(),
        p.codebook_size.into(),
        p.wire_index_bits.into(),
        p.norm_format.into(),
        p.rotation_seed,
        p.codebook_seed,
        p.source_mode.into(),
        p.radius_method.into(),
        p.direction_method.into(),
        p.restarts.into(),
        p.iterations.into(),
        p.training_samples.into(),
        p.empty_cell_policy.into(),
    ]
}
