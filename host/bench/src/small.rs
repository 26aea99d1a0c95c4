//! The entry points that training and codes are made of, one by one.

use crate::data::{narrow, wide, Shape};
use crate::measure::{side, Side};
use crate::Bench;
use nuqtelya::{Frame, REPORT_SCHEMA};
use oracle::lloyd::probe::Report as PublishedReport;
use oracle::{bitpack, codebook, codec, f16, lloyd, metrics, profile, rotation};
use std::hint::black_box;

/// Indices of a code of 1,024 values in blocks of 16, with 4,096 codewords.
const WIDTH: u8 = 12;
const COUNT: usize = 64;
/// Widths that are whole bytes, and others, below and above a byte.
const READ_WIDTHS: [u8; 6] = [1, 5, 8, 12, 20, 32];
const LEN: usize = 1024;
/// Many, so that the processor doesn't learn by heart which codewords are within.
const BLOCKS: usize = 16_384;

pub fn rows(bench: &mut Bench) {
    conversions(bench);
    profiles(bench);
    bytes(bench);
    vectors(bench);
    [(4, 32), (8, 256), (16, 4096)].into_iter().for_each(|(k, n)| around(bench, k, n));
}

/// A row whose two sides are calls without state.
fn pair<'a, T, U>(
    bench: &mut Bench,
    name: &str,
    shape: &str,
    proved: impl FnMut() -> T + 'a,
    rust: impl FnMut() -> U + 'a,
) {
    let (proved, rust): (Side<'a>, Side<'a>) = (side(proved), side(rust));
    bench.row(name, shape, proved, rust);
}

fn conversions(bench: &mut Bench) {
    // Hidden from the compiler, so that it works out nothing beforehand.
    let x = || black_box(2.75f64);
    pair(bench, "f64_to_f32", "", || nuqtelya::f64_to_f32(x()), || x() as f32);
    pair(bench, "f64_to_f16", "", || nuqtelya::f64_to_f16(x()), || f16::from_f32(x() as f32));
    pair(bench, "f16_to_f32", "", || nuqtelya::f16_to_f32(black_box(0x4180)), || f16(black_box(0x4180)).to_f32());
    pair(bench, "sqrt", "", || nuqtelya::sqrt(x()), || x().sqrt());
    pair(bench, "encode_norm", "", || nuqtelya::encode_norm(x()), || codec::probe::encode_norm(x()));
    let norm = || black_box([0x80, 0x41]);
    pair(bench, "decode_norm", "", || nuqtelya::decode_norm(&norm()), || codec::probe::decode_norm(&norm()));
}

fn profiles(bench: &mut Bench) {
    let n = || black_box(4096u64);
    pair(bench, "wire_index_bits", "", || nuqtelya::wire_index_bits(n()), || profile::probe::wire_index_bits(n()));
    pair(
        bench,
        "default_training_samples",
        "",
        || nuqtelya::default_training_samples(n()),
        || profile::probe::default_training_samples(n()),
    );
    let (ours, theirs) = Shape::new(1024, 16, 4096).profiles(1, 1);
    let published = theirs.published();
    pair(bench, "block_count", "", || black_box(&ours).block_count(), || black_box(&published).block_count());
    pair(
        bench,
        "paper_default",
        "",
        || nuqtelya::Profile::paper_default(1024, 16, n(), 7),
        || profile::FibQuantProfileV1::paper_default(1024, 16, n() as usize, 7).is_ok(),
    );
    pair(bench, "Profile::validate", "", || black_box(&ours).validate(), || black_box(&published).validate().is_ok());
    let published_report = PublishedReport {
        schema_version: String::from_utf8_lossy(REPORT_SCHEMA).into_owned(),
        restarts: ours.restarts,
        iterations: ours.iterations,
        training_samples: ours.training_samples,
        init_mse: 2.0,
        best_mse: 1.0,
        best_restart: 0,
        empty_cells_repaired: 0,
        repair_events: Vec::new(),
        seed: ours.codebook_seed,
    };
    let report = beside::report(&published_report);
    pair(
        bench,
        "Report::validate",
        "",
        || black_box(&report).validate(REPORT_SCHEMA, &ours),
        || lloyd::timed::validate_report(black_box(&published_report), &published),
    );
}

/// So many indices of a width at random, packed.
fn packed(bench: &mut Bench, width: u8) -> (Vec<u32>, Vec<u8>) {
    let indices: Vec<u32> = (0..COUNT).map(|_| bench.random.below(1 << width) as u32).collect();
    let mut packed = vec![0; COUNT * usize::from(width) / 8];
    nuqtelya::pack_indices(&indices, width, &mut packed).expect("packed indices");
    (indices, packed)
}

fn bytes(bench: &mut Bench) {
    for width in READ_WIDTHS {
        let (_, packed) = packed(bench, width);
        let mut unpacked = vec![0; COUNT];
        pair(
            bench,
            "unpack_indices",
            &format!("{COUNT} indices of {width} bits"),
            || nuqtelya::unpack_indices(&packed, COUNT as u64, width, &mut unpacked),
            || bitpack::probe::unpack_indices(&packed, COUNT as u64, width),
        );
    }
    let shape = format!("{COUNT} indices of {WIDTH} bits");
    let (indices, packed) = packed(bench, WIDTH);
    let mut output = packed.clone();
    pair(
        bench,
        "pack_indices",
        &shape,
        || nuqtelya::pack_indices(&indices, WIDTH, &mut output),
        || bitpack::probe::pack_indices(&indices, WIDTH),
    );
    let frame = Frame { width: WIDTH, count: COUNT as u32, norm: &[0, 0x3c], indices: &packed };
    let mut written = vec![0; nuqtelya::HEADER_LEN + 2 + packed.len()];
    nuqtelya::write_frame(&frame, &mut written).expect("a frame");
    let mut output = written.clone();
    pair(
        bench,
        "write_frame",
        &shape,
        || nuqtelya::write_frame(&frame, &mut output),
        || codec::probe::to_compact_bytes(WIDTH, COUNT as u32, &[0, 0x3c], &packed),
    );
    let (_, theirs) = Shape::new(1024, 16, 4096).profiles(1, 1);
    let published = theirs.published();
    pair(
        bench,
        "parse_frame",
        &shape,
        || nuqtelya::parse_frame(&written).is_ok(),
        || codec::FibCodeV1::from_compact_bytes(&written, &published).is_ok(),
    );
}

fn vectors(bench: &mut Bench) {
    let (left, right) = (narrow(&mut bench.random, LEN), narrow(&mut bench.random, LEN));
    let shape = format!("{LEN} values");
    pair(bench, "mse", &shape, || nuqtelya::mse(&left, &right), || metrics::probe::mse(&left, &right));
    let matrix = wide(&mut bench.random, LEN * LEN);
    let input = wide(&mut bench.random, LEN);
    let d = LEN as u64;
    let stored = rotation::probe::lent(d, &matrix).expect("a rotation");
    let shape = format!("d {LEN}");
    let mut output = vec![0.0; LEN];
    pair(bench, "apply", &shape, || nuqtelya::apply(d, &matrix, &input, &mut output), || stored.apply(&input).is_ok());
    pair(
        bench,
        "apply_inverse",
        &shape,
        || nuqtelya::apply_inverse(d, &matrix, &input, &mut output),
        || stored.apply_inverse(&input).is_ok(),
    );
    let shape = Shape::new(1024, 16, 4096);
    let codewords = narrow(&mut bench.random, shape.n * shape.k);
    let book = codebook::probe::codebook(&codewords, &shape.profiles(1, 1).1);
    let mut codeword = vec![0.0; shape.k];
    let index = || black_box(4000);
    let (n, k) = (shape.n as u64, shape.k as u64);
    pair(
        bench,
        "codeword",
        "k 16, N 4096",
        || nuqtelya::codeword(&codewords, n, k, index(), &mut codeword),
        || book.codeword(index() as usize).is_ok(),
    );
    // The published codebook has this only as a part of a larger check, which makes a rotation.
    pair(
        bench,
        "check_codewords",
        "k 16, N 4096",
        || nuqtelya::check_codewords(&codewords, n, k),
        || codewords.len() == shape.n * shape.k && codewords.iter().all(|value| black_box(value).is_finite()),
    );
}

/// The Rust has nothing like it: a plain loop over the codewords stands beside it. Half of them are within, by chance.
fn around(bench: &mut Bench, k: usize, n: usize) {
    let (codewords, blocks) = (narrow(&mut bench.random, n * k), narrow(&mut bench.random, BLOCKS * k));
    let distance = |codeword: &[f32], block: &[f32]| {
        let delta = |(x, y): (&f32, &f32)| f64::from(*x) - f64::from(*y);
        block.iter().zip(codeword).map(delta).fold(0.0, |sum, delta| sum + delta * delta)
    };
    let mut distances: Vec<f64> = codewords.chunks(k).map(|codeword| distance(codeword, &blocks[..k])).collect();
    distances.sort_by(f64::total_cmp);
    let radius = distances[n / 2].sqrt();
    let (mut ours, mut theirs) = (blocks.chunks(k).cycle(), blocks.chunks(k).cycle());
    let (mut numbers, mut plain) = (vec![0; n], vec![0; n]);
    pair(
        bench,
        "codewords_within",
        &format!("k {k}, N {n}"),
        || {
            let block = ours.next().expect("a block");
            nuqtelya::codewords_within(&codewords, n as u64, k as u64, block, radius, &mut numbers)
        },
        || {
            let block = theirs.next().expect("a block");
            let finite = block.iter().chain(&codewords).all(|value| value.is_finite());
            let mut count = 0;
            for (number, codeword) in codewords.chunks(k).enumerate() {
                if distance(codeword, block) <= radius * radius {
                    plain[count] = number as u32;
                    count += 1;
                }
            }
            (finite, count)
        },
    );
}
