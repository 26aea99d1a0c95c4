//! Encode, decode and unpacking, and how many codes a lookup can read.

use crate::data::{Coding, Shape, VECTORS};
use crate::measure::{measure, median, side, time, Side};
use crate::Bench;
use nuqtelya::{Profile, HEADER_LEN};
use oracle::codec::timed;
use std::hint::black_box;
use std::time::{Duration, Instant};

/// The agreed limit of a lookup.
const LIMIT: Duration = Duration::from_millis(430);

/// One codebook and some codes, for both sides.
pub struct Codes {
    profile: Profile<'static>,
    data: Coding,
    published: timed::Coder,
    codes: Vec<Vec<u8>>,
}

/// The buffers that are lent to the proved side, and the vector or code whose turn it is.
pub struct Room<'a> {
    codes: &'a Codes,
    work: Vec<f64>,
    output: Vec<f32>,
    frame: Vec<u8>,
    indices: Vec<u32>,
    turn: usize,
}

impl Codes {
    pub fn new(bench: &mut Bench, shape: &Shape) -> Codes {
        let data = Coding::new(shape, &mut bench.random);
        let (profile, published) = shape.profiles(1, 1);
        let published = timed::Coder::new(&data.codewords, &data.matrix, &published);
        let codes = data.vectors.iter().map(|vector| published.encode(vector)).collect();
        let codes = Codes { profile, data, published, codes };
        let mut room = codes.room();
        for code in &codes.codes {
            // The norm's two bytes aside, which the Rust rounds twice.
            let parts = |frame: &[u8]| [frame[..HEADER_LEN].to_vec(), frame[HEADER_LEN + 2..].to_vec()];
            assert_eq!(parts(room.encode()), parts(code));
            room.turn -= 1;
            assert_eq!(room.decode(), codes.published.decode(code));
            room.turn -= 1;
            assert_eq!(room.unpack(), codes.published.unpack(code));
        }
        codes
    }

    fn room(&self) -> Room<'_> {
        Room {
            codes: self,
            work: vec![0.0; 2 * self.profile.ambient_dim as usize],
            output: vec![0.0; self.profile.ambient_dim as usize],
            frame: vec![0; self.codes[0].len()],
            indices: vec![0; (self.profile.ambient_dim / self.profile.block_dim) as usize],
            turn: 0,
        }
    }

    /// Both sides of encode, decode and unpack.
    pub fn encode(&self) -> (Side<'_>, Side<'_>) {
        let (mut room, mut vectors) = (self.room(), self.data.vectors.iter().cycle());
        let ours = side(move || room.encode().len());
        (ours, side(move || vectors.next().map(|vector| self.published.encode(vector))))
    }

    pub fn decode(&self) -> (Side<'_>, Side<'_>) {
        let (mut room, mut codes) = (self.room(), self.codes.iter().cycle());
        (side(move || room.decode().len()), side(move || codes.next().map(|code| self.published.decode(code))))
    }

    fn unpack(&self) -> (Side<'_>, Side<'_>) {
        let (mut room, mut codes) = (self.room(), self.codes.iter().cycle());
        (side(move || room.unpack().len()), side(move || codes.next().map(|code| self.published.unpack(code))))
    }
}

impl Room<'_> {
    fn next(&mut self) -> usize {
        self.turn += 1;
        (self.turn - 1) % VECTORS
    }

    fn encode(&mut self) -> &[u8] {
        let at = self.next();
        let Codes { profile, data, .. } = self.codes;
        let vector = &data.vectors[at];
        nuqtelya::encode(profile, &data.matrix, &data.codewords, vector, &mut self.frame, &mut self.work)
            .expect("a code");
        &self.frame
    }

    fn decode(&mut self) -> &[f32] {
        let at = self.next();
        let Codes { profile, data, codes, .. } = self.codes;
        nuqtelya::decode(profile, &data.matrix, &data.codewords, &codes[at], &mut self.output, &mut self.work)
            .expect("a vector");
        &self.output
    }

    /// The frame's parts and its indices, without the vector.
    fn unpack(&mut self) -> &[u32] {
        let at = self.next();
        let frame = nuqtelya::parse_frame(&self.codes.codes[at]).expect("a frame");
        nuqtelya::unpack_indices(frame.indices, frame.count.into(), frame.width, &mut self.indices).expect("indices");
        &self.indices
    }
}

pub fn rows(bench: &mut Bench, shape: &Shape) {
    let name = format!("d {}, k {}, N {}", shape.d, shape.k, shape.n);
    let codes = Codes::new(bench, shape);
    let (proved, rust) = codes.encode();
    bench.row("encode", &name, proved, rust);
    let (proved, rust) = codes.decode();
    bench.row("decode", &name, proved, rust);
    let (proved, rust) = codes.unpack();
    bench.row("parse_frame, unpack_indices", &name, proved, rust);
}

/// One encode, and as many stored codes as can be read before the limit: decoded, or only their indices unpacked. These
/// are counted, not worked out from the rows above.
pub fn lookups(bench: &mut Bench, shapes: &[Shape]) {
    println!("| Shape | Encode, proved | Codes decoded, proved | Rust | Indices unpacked, proved | Rust |");
    println!("|---|---|---|---|---|---|");
    for shape in shapes {
        let codes = Codes::new(bench, shape);
        let (proved, rust) = codes.encode();
        let encode = median(&measure(Duration::ZERO, proved, rust).proved);
        let (mut room, mut stored) = (codes.room(), codes.codes.iter().cycle());
        let vector = &codes.data.vectors[0];
        let mut next = || stored.next().expect("a code");
        println!(
            "| d {}, k {}, N {} | {} | {} | {} | {} | {} |",
            shape.d,
            shape.k,
            shape.n,
            time(encode),
            lookup(&mut room, |room| room.encode().len(), |room| room.decode().len()),
            lookup(&mut next, |_| codes.published.encode(vector).len(), |next| codes.published.decode(next()).len()),
            lookup(&mut room, |room| room.encode().len(), |room| room.unpack().len()),
            lookup(&mut next, |_| codes.published.encode(vector).len(), |next| codes.published.unpack(next()).len()),
        );
    }
}

/// How often `read` is done within the limit, after one `encode`.
fn lookup<S>(state: &mut S, encode: impl Fn(&mut S) -> usize, read: impl Fn(&mut S) -> usize) -> u64 {
    let start = Instant::now();
    black_box(encode(state));
    let mut count = 0;
    loop {
        black_box(read(state));
        if start.elapsed() > LIMIT {
            return count;
        }
        count += 1;
    }
}
