//! Writes what the program `vectors` has to write: the file crates/vectors/stdout.
//!
//! Inputs are made from sums and powers, and not from the bit patterns of the program. Conversions to binary32, roots,
//! products and sums are the processor's; binary16 and norms, refused ones too, are the oracle's on whole numbers, and
//! values of binary16 its stand-in's, which its tests hold against the processor; counts and all other refusals are the
//! published Rust's. Where a document states a number, that has to be it.

use oracle::{binary16, f16, profile, Answer};

fn main() {
    to_binary32();
    to_binary16();
    from_binary16();
    norms();
    roots();
    samples();
    profiles();
    errors();
    rotations();
}

fn power(exponent: i32) -> f64 {
    2f64.powi(exponent)
}

/// 2^exponent of any exponent down to -1074, exactly.
fn small_power(exponent: i32) -> f64 {
    power(exponent / 2) * power(exponent - exponent / 2)
}

/// Hidden from the compiler, so that the processor does the work.
fn run_time<T>(x: T) -> T {
    std::hint::black_box(x)
}

/// Every NaN is shown as the quiet one without a sign. The bits are tested as whole numbers: LLVM may take `x.is_nan()`
/// and a NaN's bits for x again, sign included.
fn single(name: &str, x: f32) {
    let bits = run_time(x.to_bits());
    let shown = if bits << 1 > 0x7f80_0000 << 1 { 0x7fc0_0000 } else { bits };
    println!("{name}: {shown:08x}");
}

fn double(name: &str, x: f64) {
    let bits = run_time(x.to_bits());
    let shown = if bits << 1 > 0x7ff0_0000_0000_0000 << 1 { 0x7ff8_0000_0000_0000 } else { bits };
    println!("{name}: {shown:016x}");
}

fn to_binary32() {
    let border = power(127) * (2.0 - power(-24));
    let vectors = [
        ("1", 1.0),
        ("0.1", 0.1),
        ("1 + 2^-24", 1.0 + power(-24)),
        ("1 + 2^-24 + 2^-52", 1.0 + power(-24) + power(-52)),
        ("1 + 3 * 2^-24", 1.0 + 3.0 * power(-24)),
        ("1 + 3 * 2^-24 - 2^-52", 1.0 + 3.0 * power(-24) - power(-52)),
        ("1 - 2^-25", 1.0 - power(-25)),
        ("-(1 + 2^-24)", -(1.0 + power(-24))),
        ("-(1 + 3 * 2^-24)", -(1.0 + 3.0 * power(-24))),
        ("2^24 + 1", power(24) + 1.0),
        ("2^24 + 3", power(24) + 3.0),
        ("2^128 - 2^104", power(127) * (2.0 - power(-23))),
        ("2^128 - 2^103 - 2^75", border - power(75)),
        ("2^128 - 2^103", border),
        ("-(2^128 - 2^103)", -border),
        ("the largest binary64", f64::MAX),
        ("2^-126", power(-126)),
        ("2^-126 - 2^-150", power(-126) - power(-150)),
        ("3 * 2^-150", 3.0 * power(-150)),
        ("2^-149", power(-149)),
        ("2^-150", power(-150)),
        ("2^-150 + 2^-202", power(-150) + power(-202)),
        ("-2^-150", -power(-150)),
        ("2^-1074", small_power(-1074)),
        ("0", 0.0),
        ("-0", -0.0),
        ("infinity", f64::INFINITY),
        ("-infinity", f64::NEG_INFINITY),
        ("a NaN", f64::NAN),
    ];
    for (name, x) in vectors {
        single(&format!("binary32 of {name}"), run_time(x) as f32);
    }
}

fn to_binary16() {
    let vectors = [
        ("1", 1.0),
        ("0.1", 0.1),
        ("1 + 2^-11", 1.0 + power(-11)),
        ("1 + 2^-11 + 2^-23", 1.0 + power(-11) + power(-23)),
        ("1 + 2^-11 + 2^-40", 1.0 + power(-11) + power(-40)),
        ("1 + 2^-11 + 2^-52", 1.0 + power(-11) + power(-52)),
        ("1 + 3 * 2^-11", 1.0 + 3.0 * power(-11)),
        ("1 + 3 * 2^-11 - 2^-52", 1.0 + 3.0 * power(-11) - power(-52)),
        ("1 - 2^-12", 1.0 - power(-12)),
        ("-(1 + 2^-11)", -(1.0 + power(-11))),
        ("-(1 + 2^-11 + 2^-52)", -(1.0 + power(-11) + power(-52))),
        ("-(1 + 3 * 2^-11)", -(1.0 + 3.0 * power(-11))),
        ("65504", 65504.0),
        ("65520 - 2^-37", 65520.0 - power(-37)),
        ("65520", 65520.0),
        ("-65520", -65520.0),
        ("the largest binary64", f64::MAX),
        ("2^-14", power(-14)),
        ("1023 * 2^-24", 1023.0 * power(-24)),
        ("2^-14 - 2^-25", power(-14) - power(-25)),
        ("2^-14 - 2^-25 - 2^-67", power(-14) - power(-25) - power(-67)),
        ("3 * 2^-25", 3.0 * power(-25)),
        ("3 * 2^-25 - 2^-76", 3.0 * power(-25) - power(-76)),
        ("2^-24", power(-24)),
        ("2^-25", power(-25)),
        ("2^-25 + 2^-77", power(-25) + power(-77)),
        ("-2^-25", -power(-25)),
        ("-(2^-25 + 2^-77)", -(power(-25) + power(-77))),
        ("2^-1074", small_power(-1074)),
        ("0", 0.0),
        ("-0", -0.0),
        ("infinity", f64::INFINITY),
        ("-infinity", f64::NEG_INFINITY),
        ("a NaN", f64::NAN),
    ];
    for (name, x) in vectors {
        println!("binary16 of {name}: {:04x}", binary16::from_f64(x));
    }
}

fn from_binary16() {
    let patterns = [
        0x0000, 0x0001, 0x03ff, 0x0400, 0x3555, 0x3c00, 0x3c01, 0x7bff, 0x7c00, 0x7c01, 0x7e00, 0x8000, 0x8001, 0xc000,
        0xfbff, 0xfc00,
    ];
    for bits in patterns {
        single(&format!("value of 0x{bits:04x}"), f16(bits).to_f32());
    }
}

fn norms() {
    // A third is what document 01 or 02 states.
    let vectors = [
        ("1", 1.0, Some(0x3c00)),
        ("1 + 2^-11 + 2^-40", 1.0 + power(-11) + power(-40), Some(0x3c01)),
        ("65504", 65504.0, Some(0x7bff)),
        ("65520 - 2^-37", 65520.0 - power(-37), Some(0x7bff)),
        ("2^-24", power(-24), Some(0x0001)),
        ("2^-25 + 2^-77", power(-25) + power(-77), None),
    ];
    for (name, x, stated) in vectors {
        let bits = binary16::norm(x).expect("a norm");
        assert!(stated.is_none_or(|stated| stated == bits), "{name}");
        println!("norm {name}: {bits:04x}");
    }
    for (name, x) in [("65520", 65520.0), ("2^-25", power(-25)), ("-1", -1.0)] {
        println!("norm {name}, refused by: {}", number(&binary16::norm(x)));
    }
}

fn roots() {
    let vectors = [
        ("2", 2.0),
        ("3", 3.0),
        ("0.5", 0.5),
        ("0.1", 0.1),
        ("4", 4.0),
        ("1 + 2^-52", 1.0 + power(-52)),
        ("1 - 2^-53", 1.0 - power(-53)),
        ("1e300", 1e300),
        ("2^-1074", small_power(-1074)),
        ("2^-1022 - 2^-1074", power(-1022) - small_power(-1074)),
        ("2^-1022", power(-1022)),
        ("the largest binary64", f64::MAX),
        ("0", 0.0),
        ("-0", -0.0),
        ("infinity", f64::INFINITY),
        ("-1", -1.0),
        ("-infinity", f64::NEG_INFINITY),
        ("a NaN", f64::NAN),
    ];
    for (name, x) in vectors {
        double(&format!("root of {name}"), run_time(x).sqrt());
    }
}

/// The number of a refusal, 0 for an answer.
fn number<T>(answer: &Answer<T>) -> u32 {
    match answer {
        Ok(_) => 0,
        Err((number, _)) => *number,
    }
}

fn samples() {
    for (n, stated) in [(8, Some(256)), (9, Some(270)), (333_333, None), (333_334, None)] {
        let count = profile::probe::default_training_samples(n).expect("a count");
        assert!(stated.is_none_or(|stated| stated == count), "{n}");
        println!("samples of N = {n}: {count}");
    }
    let refused = number(&profile::probe::default_training_samples(1 << 60));
    println!("samples of N = 2^60, refused by: {refused}");
}

fn profiles() {
    let vectors = [
        (4096, 16, 256, "256", Some(0)),
        (4097, 17, 256, "256", Some(5)),
        (16, 1, 4, "4", Some(0)),
        (0, 1, 4, "4", Some(1)),
        (16, 0, 4, "4", Some(2)),
        (16, 16, 4, "4", Some(2)),
        (16, 3, 4, "4", Some(3)),
        (16_385, 5, 4, "4", Some(5)),
        (514, 257, 4, "4", Some(5)),
        (16, 4, 1, "1", Some(4)),
        (16, 4, 1 << 20, "2^20", Some(0)),
        (16, 4, (1 << 20) + 1, "2^20 + 1", Some(4)),
        (512, 128, 1 << 20, "2^20", Some(5)),
    ];
    for (d, k, n, shown, stated) in vectors {
        let refused = number(&profile::probe::paper_default(d, k, n, 1));
        assert!(stated.is_none_or(|stated| stated == refused), "{d} {k} {n}");
        println!("profile d = {d}, k = {k}, N = {shown}: {refused}");
    }
}

fn errors() {
    let vectors: [(&str, &[f32], &[f32]); 5] = [
        ("1, 2 and 2, 4", &[1.0, 2.0], &[2.0, 4.0]),
        ("3, 4 and 0, 0", &[3.0, 4.0], &[0.0, 0.0]),
        ("1, 1, 1, 1 and 1, 1, 1, 1", &[1.0; 4], &[1.0; 4]),
        ("0.5 and -0.25", &[0.5], &[-0.25]),
        ("0.1, 0.2, 0.3 and 0, 0, 0", &[0.1, 0.2, 0.3], &[0.0; 3]),
    ];
    for (name, left, right) in vectors {
        let mut sum = 0.0;
        for (a, b) in left.iter().zip(right) {
            let difference = f64::from(run_time(*a)) - f64::from(run_time(*b));
            sum += difference * difference;
        }
        double(&format!("mse of {name}"), sum / left.len() as f64);
    }
}

fn rotations() {
    let vectors = [
        ("1 2; 3 4 and 1, 10", [1.0, 2.0, 3.0, 4.0], [1.0, 10.0]),
        ("0 -1; 1 0 and 3, 4", [0.0, -1.0, 1.0, 0.0], [3.0, 4.0]),
        ("0.1 0.2; 0.3 0.7 and 0.1, 0.3", [0.1, 0.2, 0.3, 0.7], [0.1, 0.3]),
    ];
    for (name, matrix, input) in vectors {
        let name = format!("{name}, there and back");
        let [a, b, c, d] = run_time(matrix);
        let [x, y] = run_time(input);
        for (first, second) in [(a, b), (c, d), (a, c), (b, d)] {
            double(&name, 0.0 + first * x + second * y);
        }
    }
}
