//! `encode`, `decode` and `convert`: whole files, a part at a time, on all processors.

use crate::args::Args;
use crate::book::Book;
use crate::failure::{Done, Failure};
use crate::files::{Input, Output};
use crate::progress::Progress;
use crate::{memory, report, say};
use nuqtelya::{frame_to_f16, frame_to_f32, Coder, Profile, Refusal, HEADER_LEN};
use std::ffi::OsString;
use std::path::Path;

/// Vectors, or codes, that are in memory at a time for each thread: enough to make a thread worth starting.
const SHARE: usize = 64;
const CONVERTED_SHARE: usize = 4096;

/// The bytes of a norm: binary16, and the binary32 of older codes.
pub const NORM: u16 = 2;
pub const OLDER_NORM: u16 = 4;

/// What a code begins with: magic and version.
pub const BEGINNING: &[u8] = b"FB1\x01";

pub fn encode_command(words: impl IntoIterator<Item = OsString>) -> Done<()> {
    let args = Args::parse(words, &["codebook", "vectors", "out"], &[], 0)?;
    let (book, vectors, out) = (args.needed_path("codebook")?, args.needed_path("vectors")?, args.needed_path("out")?);
    Output::apart(&out, &[&book, &vectors])?;
    let book = Book::read(&book)?;
    let encoded = encode(&book, &vectors, &out)?;
    let Encoded { count, size, .. } = encoded;
    say(&format!(
        "{count} vectors of {} bytes became codes of {size} bytes: {} in {}\n{}",
        4 * book.profile.ambient_dim,
        memory::size(count * size),
        out.display(),
        report::tosses(&book.profile, &encoded)
    ))
}

pub fn decode_command(words: impl IntoIterator<Item = OsString>) -> Done<()> {
    let args = Args::parse(words, &["codebook", "codes", "out"], &[], 0)?;
    let (book, codes, out) = (args.needed_path("codebook")?, args.needed_path("codes")?, args.needed_path("out")?);
    Output::apart(&out, &[&book, &codes])?;
    let (count, size) = decode(&Book::read(&book)?, &codes, &out)?;
    say(&format!("{count} codes became vectors of {size} bytes: {} in {}\n", memory::size(count * size), out.display()))
}

pub fn convert_command(words: impl IntoIterator<Item = OsString>) -> Done<()> {
    let args = Args::parse(words, &["codebook", "codes", "to", "out"], &[], 0)?;
    let (book, codes, out) = (args.needed_path("codebook")?, args.needed_path("codes")?, args.needed_path("out")?);
    let way = match args.needed_text("to")?.as_str() {
        "binary16" => TO_BINARY16,
        "binary32" => TO_BINARY32,
        other => return Err(Failure::Usage(format!("--to {other}: binary16 or binary32"))),
    };
    Output::apart(&out, &[&book, &codes])?;
    let (count, size) = convert(&Book::read(&book)?, &way, &codes, &out)?;
    say(&format!(
        "{count} codes with norms of {} bytes became codes with norms of {}: {} in {}\n",
        way.from,
        way.to,
        memory::size(count * size),
        out.display()
    ))
}

/// The codes that were written.
pub struct Encoded {
    pub count: u64,
    /// The bytes of one.
    pub size: u64,
    /// Blocks of all codes with another codeword as near as the one chosen, and the codes that have such a block.
    pub tied_blocks: u64,
    pub tied_codes: u64,
}

/// Writes the codes of all vectors.
pub fn encode(book: &Book, vectors: &Path, out: &Path) -> Done<Encoded> {
    let d = book.profile.ambient_dim as usize;
    let coder = coder(book)?;
    let size = coder.frame_len();
    let mut input = Input::open(vectors)?;
    let count = input.pieces(4 * d as u64, "a vector")?;
    let mut output = Output::create(out)?;
    let mut encoded = Encoded { count, size: size as u64, tied_blocks: 0, tied_codes: 0 };
    let mut parts = Parts::new("encoding", count, SHARE);
    while let Some((first, len)) = parts.next() {
        let mut values = vec![0.0f32; len * d];
        input.f32s(&mut values)?;
        let mut codes = vec![0u8; len * size];
        let made = on_all_processors((&values, d), (&mut codes, size), || {
            let mut coder = coder.clone();
            move |vector: &[f32], code: &mut [u8]| {
                let made = coder.encode(vector)?;
                code.copy_from_slice(&made.frame);
                Ok(made.tied_blocks)
            }
        });
        let tied = made.map_err(|(place, refusal)| at(vectors, "vector", first + place, refusal))?;
        encoded.tied_blocks += tied.iter().map(|blocks| u64::from(*blocks)).sum::<u64>();
        encoded.tied_codes += tied.iter().filter(|blocks| **blocks > 0).count() as u64;
        output.bytes(&codes)?;
    }
    output.finish()?;
    Ok(encoded)
}

/// Writes the vectors of all codes; gives their number and the bytes of one.
pub fn decode(book: &Book, codes: &Path, out: &Path) -> Done<(u64, u64)> {
    let coder = coder(book)?;
    let mut input = Input::open(codes)?;
    let count = count_codes(&input, &coder)?;
    let sizes = (coder.frame_len(), 4 * book.profile.ambient_dim as usize);
    rewrite(&mut input, sizes, Parts::new("decoding", count, SHARE), out, || {
        let mut coder = coder.clone();
        move |code: &[u8], vector: &mut [u8]| {
            let values = coder.decode(code)?;
            vector
                .chunks_exact_mut(4)
                .zip(values)
                .for_each(|(bytes, value)| bytes.copy_from_slice(&value.to_le_bytes()));
            Ok(())
        }
    })?;
    Ok((count, sizes.1 as u64))
}

/// A direction of `convert`: the bytes of a norm before and after, and the library's function.
struct Way {
    from: u16,
    to: u16,
    write: fn(&Profile, &[u8], &mut [u8]) -> Result<(), Refusal>,
}

const TO_BINARY16: Way = Way { from: OLDER_NORM, to: NORM, write: frame_to_f16 };
const TO_BINARY32: Way = Way { from: NORM, to: OLDER_NORM, write: frame_to_f32 };

/// Writes all codes with norms of the other format; gives their number and the bytes of one. A file whose length does not
/// fit ends with a code that is cut, and is refused at that if not before.
fn convert(book: &Book, way: &Way, codes: &Path, out: &Path) -> Done<(u64, u64)> {
    let rest = coder(book)?.frame_len() - usize::from(NORM);
    let sizes = (rest + usize::from(way.from), rest + usize::from(way.to));
    let mut input = Input::open(codes)?;
    let count = input.parts(sizes.0 as u64)?;
    if first_norm(codes)? == Some(way.to) {
        return Err(Failure::file(codes, format!("has a first code whose norm has {} bytes already", way.to)));
    }
    rewrite(&mut input, sizes, Parts::new("converting", count, CONVERTED_SHARE), out, || {
        |code: &[u8], new: &mut [u8]| (way.write)(&book.profile, code, new)
    })?;
    Ok((count, sizes.1 as u64))
}

/// Makes a piece of the output, of `new` bytes, from each code of `size` bytes; refuses at the first that is refused.
fn rewrite<W: FnMut(&[u8], &mut [u8]) -> Result<(), Refusal>>(
    codes: &mut Input,
    (size, new): (usize, usize),
    mut parts: Parts,
    out: &Path,
    worker: impl Fn() -> W + Sync,
) -> Done<()> {
    let mut output = Output::create(out)?;
    let mut left = codes.len();
    while let Some((first, len)) = parts.next() {
        let held = left.min((len * size) as u64);
        left -= held;
        let mut bytes = vec![0u8; held as usize];
        codes.bytes(&mut bytes)?;
        let mut made = vec![0u8; len * new];
        on_all_processors((&bytes, size), (&mut made, new), &worker)
            .map_err(|(place, refusal)| at(codes.path(), "code", first + place, refusal))?;
        output.bytes(&made)?;
    }
    output.finish()
}

/// How many codes of this codebook the file holds.
pub fn count_codes(input: &Input, coder: &Coder) -> Done<u64> {
    if first_norm(input.path())? == Some(OLDER_NORM) {
        let text =
            "has a first code whose norm has four bytes: nuqtelya convert makes codes of such a file that can be read";
        return Err(Failure::file(input.path(), text));
    }
    input.pieces(coder.frame_len() as u64, "a code of this codebook")
}

/// The norm's length in the head of the first code, if the file begins with one.
fn first_norm(codes: &Path) -> Done<Option<u16>> {
    let mut input = Input::open(codes)?;
    let mut head = [0; HEADER_LEN];
    if input.len() < HEADER_LEN as u64 {
        return Ok(None);
    }
    input.bytes(&mut head)?;
    Ok(head.starts_with(BEGINNING).then(|| u16::from_le_bytes([head[9], head[10]])))
}

/// The library's own test of codewords and matrix (18), which comes before a vector is encoded.
pub fn check_values(p: &Profile, matrix: &[f64], codewords: &[f32]) -> Result<(), Refusal> {
    Coder::new(*p, matrix, codewords)?.encode(&vec![1.0; p.ambient_dim as usize]).map(|_| ())
}

pub fn coder(book: &Book) -> Done<Coder<'_>> {
    Coder::new(book.profile, &book.matrix, &book.codewords).map_err(Failure::refused("the codebook"))
}

pub fn at(path: &Path, what: &str, place: u64, refusal: Refusal) -> Failure {
    Failure::Refused(format!("{}: {what} {place}", path.display()), refusal)
}

fn threads() -> usize {
    std::thread::available_parallelism().map_or(1, usize::from)
}

/// The parts of a file that are worked on one after another: first place and length.
struct Parts {
    done: u64,
    all: u64,
    share: usize,
    progress: Progress,
}

impl Parts {
    /// So many at a time for each thread.
    fn new(what: &'static str, all: u64, share: usize) -> Parts {
        Parts { done: 0, all, share, progress: Progress::new(what) }
    }

    fn next(&mut self) -> Option<(u64, usize)> {
        self.progress.show(self.done, self.all);
        let first = self.done;
        let len = (self.all - first).min((self.share * threads()) as u64);
        self.done += len;
        (len > 0).then_some((first, len as usize))
    }
}

/// Makes each output from its input, with a worker for each thread; what the worker answers for each comes back in the
/// file's order. So does the first refusal, with its place, whichever thread met one first.
fn on_all_processors<I: Sync, O: Send, A: Send, W: FnMut(&[I], &mut [O]) -> Result<A, Refusal>>(
    (input, input_size): (&[I], usize),
    (output, output_size): (&mut [O], usize),
    worker: impl Fn() -> W + Sync,
) -> Result<Vec<A>, (u64, Refusal)> {
    let share = input.len().div_ceil(input_size).div_ceil(threads());
    let inputs = input.chunks(share * input_size);
    let outputs = output.chunks_mut(share * output_size);
    std::thread::scope(|scope| {
        let worker = &worker;
        let running: Vec<_> = inputs
            .zip(outputs)
            .map(|(input, output)| {
                scope.spawn(move || {
                    let mut work = worker();
                    let pairs = input.chunks(input_size).zip(output.chunks_mut(output_size));
                    let answers =
                        pairs.enumerate().map(|(place, (i, o))| work(i, o).map_err(|refusal| (place, refusal)));
                    answers.collect::<Result<Vec<A>, _>>()
                })
            })
            .collect();
        // In order; the scope waits for those that are left.
        let mut answers = Vec::new();
        for (thread, running) in running.into_iter().enumerate() {
            let end = running.join().unwrap_or_else(|panic| std::panic::resume_unwind(panic));
            answers.extend(end.map_err(|(place, refusal)| ((thread * share + place) as u64, refusal))?);
        }
        Ok(answers)
    })
}
