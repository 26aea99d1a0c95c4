//! Records answers of the published Rust: for the program `replay` crates/replay/stdin, and the counts,
//! crates/replay/stdout; and for the host's library, training and codes, host/nuqtelya/tests/recorded.bin.
//!
//!     record FILE [HOST_FILE]
//!
//! writes the records for `replay` to FILE, to standard output the lines that it has to write, and the library's to
//! HOST_FILE. All three are made anew, from the folder `host`, by
//!
//!     FIB_SRC=.. cargo run --release --offline -p record -- \
//!         ../crates/replay/stdin nuqtelya/tests/recorded.bin > ../crates/replay/stdout

mod answers;
mod codes;
mod file;
#[path = "../../nuqtelya/tests/recorded/form.rs"]
mod form;
mod training;

use file::{File, Record, NAMES};
use oracle::inputs::{fitting, Random};
use oracle::{bitpack, codec, lloyd, metrics, profile, rotation, Answer};

/// The room of the program `replay`.
const ROOM: usize = 131_072;
/// What the host's file may take in the repository.
const HOST_ROOM: usize = 160_000;

fn main() {
    let mut paths = std::env::args().skip(1);
    let path = paths.next().expect("the file to write");
    let mut file = File::new();
    let mut random = Random::new(754);
    packing(&mut file, &mut random);
    counts(&mut file, &mut random);
    frames(&mut file, &mut random);
    errors(&mut file, &mut random);
    rotations(&mut file, &mut random);
    searches(&mut file, &mut random);
    assert!(file.bytes.len() < ROOM, "{} bytes", file.bytes.len());
    std::fs::write(path, &file.bytes).expect("the file written");
    for (name, count) in NAMES.iter().zip(file.counts) {
        println!("{name}: {count} equal, 0 different");
    }
    if let Some(path) = paths.next() {
        std::fs::write(path, host_file()).expect("the host's file written");
    }
}

/// The host's file, which is read again as its test reads it.
fn host_file() -> Vec<u8> {
    let mut random = Random::new(1982);
    let bytes = form::File {
        updates: training::updates(&mut random),
        trainings: training::trainings(&mut random),
        codings: codes::codings(&mut random),
    }
    .bytes();
    form::File::read(&bytes).expect("the file's form").check();
    assert!(bytes.len() < HOST_ROOM, "{} bytes", bytes.len());
    bytes
}

fn packed_len(count: usize, width: u8) -> usize {
    (count * usize::from(width)).div_ceil(8)
}

fn packing(file: &mut File, random: &mut Random) {
    for width in 0..=34 {
        for count in [0, 1, 2, 3, 5, 8, 16] {
            let fits = (1..=32).contains(&width);
            let bits = if fits { width } else { 32 };
            let mut indices: Vec<u32> = (0..count).map(|_| random.bits() as u32 >> (32 - bits)).collect();
            pack(file, &indices, width);
            let good = bitpack::probe::pack_indices(&indices, bits).expect("these fit");
            unpack(file, &good, count as u64, width);
            if count > 0 && fits && random.index(2) == 0 {
                let place = random.index(count);
                if width < 32 {
                    indices[place] = random.pick(&[1 << width, 1 << width | 1, u32::MAX]);
                    pack(file, &indices, width);
                }
                // A bit flipped, most often among the last, where the padding is.
                let mut damaged = good.clone();
                let bit = 8 * good.len() - 1 - random.index(8);
                damaged[bit / 8] ^= 1 << (bit % 8);
                unpack(file, &damaged, count as u64, width);
                unpack(file, &good[..good.len() - 1], count as u64, width);
            }
        }
        for count in [u64::MAX, u64::MAX / u64::from(width.max(1)), (u64::MAX - 7) / u64::from(width.max(1))] {
            unpack(file, &[0], count, width);
        }
    }
}

fn pack(file: &mut File, indices: &[u32], width: u8) {
    let answer = bitpack::probe::pack_indices(indices, width);
    // The published function makes its own output, so the program lends one of the right length.
    let len = if width <= 32 { packed_len(indices.len(), width) } else { 0 };
    let record = Record::default().byte(width.into()).list(indices).byte(len);
    file.add("pack_indices", &record.answer(answer, |record, bytes| record.plain(&bytes)));
}

fn unpack(file: &mut File, bytes: &[u8], count: u64, width: u8) {
    let answer = bitpack::probe::unpack_indices(bytes, count, width);
    let len = if count <= 16 { count as usize } else { 0 };
    let record = Record::default().byte(width.into()).u64(count).list(bytes).byte(len);
    file.add("unpack_indices", &record.answer(answer, |record, indices| record.plain(&indices)));
}

fn counts(file: &mut File, random: &mut Random) {
    let mut sizes: Vec<u64> = (0..20).collect();
    for power in 4..64 {
        sizes.extend([(1 << power) - 1, 1 << power, (1 << power) + 1]);
        sizes.push(random.bits() >> power);
    }
    sizes.extend([333_333, 333_334, u64::MAX / 30, u64::MAX / 30 + 1, u64::MAX]);
    for n in sizes {
        let record = || Record::default().u64(n);
        let bits = profile::probe::wire_index_bits(n);
        file.add("wire_index_bits", &record().answer(bits, |record, bits| record.u32(bits.into())));
        let samples = profile::probe::default_training_samples(n);
        file.add("default_training_samples", &record().answer(samples, |record, count| record.u32(count)));
    }
}

fn frames(file: &mut File, random: &mut Random) {
    for _ in 0..60 {
        let width = 1 + random.index(16) as u8;
        let count = random.index(12) as u32;
        let norm_len = random.pick(&[2, 2, 2, 0, 1, 5]);
        let norm = random.bytes(norm_len);
        let indices = random.bytes(packed_len(count as usize, width));
        write(file, width, count, &norm, &indices);
        write(file, random.bits() as u8, random.bits() as u32, &norm, &indices);

        let good = codec::probe::to_compact_bytes(width, count, &norm, &indices);
        parse(file, &good);
        parse(file, &good[..random.index(good.len())]);
        for _ in 0..3 {
            let mut damaged = good.clone();
            let bit = random.index(8 * damaged.len().min(13));
            damaged[bit / 8] ^= 1 << (bit % 8);
            parse(file, &damaged);
        }
        let mut longer = good;
        longer.push(0);
        parse(file, &longer);
    }
}

fn write(file: &mut File, width: u8, count: u32, norm: &[u8], indices: &[u8]) {
    let bytes = codec::probe::to_compact_bytes(width, count, norm, indices);
    let record = Record::default().byte(width.into()).u32(count).list(norm).list(indices).byte(bytes.len());
    file.add("write_compact", &record.answer(Ok(bytes), |record, bytes| record.plain(&bytes)));
}

fn parse(file: &mut File, bytes: &[u8]) {
    // The profile is tested after the frame and is a good one.
    let answer = codec::probe::from_compact_bytes(bytes, &fitting(4, 2, 2));
    let record = Record::default().list(bytes).answer(answer, |record, frame| {
        record.byte(frame.width.into()).u32(frame.count).list(&frame.norm).list(&frame.indices)
    });
    file.add("parse_compact", &record);
}

fn errors(file: &mut File, random: &mut Random) {
    for round in 0..160 {
        let left_len = random.index(9);
        let right_len = if round % 4 == 0 { random.index(9) } else { left_len };
        let mut values = |len| -> Vec<f32> {
            let values = if round % 3 == 0 { wild_values(random, len) } else { random.values(len) };
            values.into_iter().map(|x| x as f32).collect()
        };
        let (left, right) = (values(left_len), values(right_len));
        let answer = metrics::probe::mse(&left, &right);
        // Two infinities give a NaN, which is left out.
        if !answer.as_ref().is_ok_and(|x| x.is_nan()) {
            let record = Record::default().list(&left).list(&right);
            file.add("mse", &record.answer(answer, Record::f64));
        }
    }
}

fn rotations(file: &mut File, random: &mut Random) {
    for round in 0..120 {
        let d = 1 + random.index(4);
        let wild = round % 3 == 0;
        let mut values = |len| if wild { wild_values(random, len) } else { random.values(len) };
        let (matrix, input) = (values(d * d), values(d));
        rotate(file, d as u64, &matrix, &input, d);
        if round % 10 == 0 {
            // Negative zeros, whose sums the Rust may give another sign; an input that is too short.
            rotate(file, d as u64, &matrix, &vec![-0.0; d], d);
            rotate(file, d as u64, &matrix, &input[1..], d);
        }
    }
    for d in [0, 4097, 1 << 16, 1 << 32, u64::MAX] {
        rotate(file, d, &[1.0], &[1.0], 1);
    }
}

fn rotate(file: &mut File, d: u64, matrix: &[f64], input: &[f64], out_len: usize) {
    type Probe = fn(u64, &[f64], &[f64]) -> Answer<Vec<f64>>;
    let both: [(&str, Probe); 2] =
        [("apply", rotation::probe::apply), ("apply_inverse", rotation::probe::apply_inverse)];
    for (name, probe) in both {
        let answer = probe(d, matrix, input);
        if !answer.as_ref().is_ok_and(|values| values.iter().any(|x| x.is_nan())) {
            let record = Record::default().u64(d).list(matrix).list(input).byte(out_len);
            file.add(name, &record.answer(answer, |record, values| record.plain(&values)));
        }
    }
}

fn searches(file: &mut File, random: &mut Random) {
    for _ in 0..100 {
        let (n, k) = (1 + random.index(6), 1 + random.index(4));
        let codewords = random.values(n * k);
        let block = random.values(k);
        let (index, distance) = lloyd::probe::nearest_index(&block, &codewords, k);
        let record = Record::default().byte(n).byte(k).list(&codewords).list(&block);
        let record = record.answer(Ok(()), |record, ()| record.u32(index as u32).f64(distance));
        file.add("nearest_index", &record);

        let count = random.index(32 / k + 1);
        let samples = random.values(count * k);
        let answer = lloyd::probe::mse_for_codebook(&codewords, k, &samples);
        let record = Record::default().byte(n).byte(k).list(&codewords).list(&samples);
        file.add("mse_for_codebook", &record.answer(answer, Record::f64));
    }
}

/// As `Random::values`, and now and then zeros, infinities, the largest and the smallest numbers; no NaN.
fn wild_values(random: &mut Random, len: usize) -> Vec<f64> {
    let special = [0.0, -0.0, f64::INFINITY, f64::NEG_INFINITY, f64::MAX, f64::MIN_POSITIVE, 5e-324, f32::MAX.into()];
    let mut values = random.values(len);
    for value in &mut values {
        if random.one_in(4) {
            *value = random.pick(&special);
        }
    }
    values
}
