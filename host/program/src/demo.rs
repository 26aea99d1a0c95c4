//! `demo`: the whole way, on vectors that it makes itself.

use crate::args::Args;
use crate::book::Book;
use crate::coding::Encoded;
use crate::failure::{Done, Failure};
use crate::files::{Input, Output};
use crate::random::{Purpose, Random};
use crate::train::{Job, Source};
use crate::{coding, picture, report, samples, say};
use nuqtelya::{nearest, Profile};
use std::ffi::OsString;
use std::path::Path;
use std::time::Instant;

/// Blocks of two values can be drawn.
const DIM: usize = 64;
const BLOCK: usize = 2;
const CODEWORDS: usize = 32;
const VECTORS: usize = 2000;
const TOPICS: usize = 4;
const QUERIES: usize = 200;
const SEED: u64 = 4;

pub fn command(words: impl IntoIterator<Item = OsString>) -> Done<()> {
    let args = Args::parse(words, &["folder"], &[], 0)?;
    let folder = args.path("folder").unwrap_or_else(|| std::env::temp_dir().join("nuqtelya-demo"));
    std::fs::create_dir_all(&folder).map_err(|error| Failure::io(&folder, "made", &error))?;
    let at = |name: &str| folder.join(name);
    let clock = Instant::now();

    let mut random = Random::new(SEED, Purpose::Demo);
    let vectors = sentences(&mut random);
    let mut file = Output::create(&at("vectors.f32"))?;
    file.f32s(&vectors.concat())?;
    file.finish()?;
    say(&format!("made: {VECTORS} vectors of {DIM} values around {TOPICS} topics, as sentences have\n\n== train\n"))?;

    let profile = Profile::paper_default(DIM as u64, BLOCK as u64, CODEWORDS as u64, SEED);
    let profile = profile.map_err(Failure::refused("the shape"))?;
    let source = Source::Vectors(at("vectors.f32"));
    let job = Job { profile, source, start: None, matrices: None, rotation: None, event_slots: None, anyway: false };
    let trained = job.run()?;
    trained.write(&at("codebook.nuqt"))?;
    say(&format!("{}{}", report::training(&trained), report::repairs(&trained.events, 5)))?;

    // From here on the files are all that is used, as another run would.
    let book = Book::read(&at("codebook.nuqt"))?;
    let encoded = coding::encode(&book, &at("vectors.f32"), &at("codes.fb1"))?;
    coding::decode(&book, &at("codes.fb1"), &at("decoded.f32"))?;
    let Encoded { count, size, .. } = encoded;
    let (sizes, tosses) = (report::sizes(&book.profile, size as usize), report::tosses(&book.profile, &encoded));
    say(&format!("\n== encode, decode\n{sizes}{tosses}"))?;
    let (whole, stored, codebook) = (4 * DIM as u64 * count, size * count, length(&at("codebook.nuqt"))?);
    say(&format!("all: {whole} bytes of vectors, {stored} bytes of codes, {codebook} bytes of codebook\n"))?;

    let (samples, start) = samples_and_start(&book, &at("vectors.f32"))?;
    let untrained =
        Book { codewords: start.iter().map(|value| *value as f32).collect(), ..Book::read(&at("codebook.nuqt"))? };
    coding::encode(&untrained, &at("vectors.f32"), &at("codes-start.fb1"))?;
    coding::decode(&untrained, &at("codes-start.fb1"), &at("decoded-start.f32"))?;
    let before = read_vectors(&at("decoded-start.f32"))?;
    let after = read_vectors(&at("decoded.f32"))?;
    let asked = queries(&vectors, &mut random);
    say(&format!(
        "error of a vector, as a part of its length, and near matches that are found again:\n  {}\n  {}\n",
        compared("before training (by the start)", &vectors, &before, &asked),
        compared("after training", &vectors, &after, &asked)
    ))?;

    let cells = cells(&book, &samples)?;
    let mut file = Output::create(&at("picture.svg"))?;
    file.bytes(picture::svg(&samples, &cells, &start, &book.codewords).as_bytes())?;
    file.finish()?;
    say(&format!(
        "\n== the samples (. : +) and the trained codewords (O)\n{}\n\nfiles: {} (picture.svg has it in colour), {:.1} s\n",
        picture::characters(&samples, &book.codewords).trim_end(),
        folder.display(),
        clock.elapsed().as_secs_f64()
    ))
}

/// Vectors in the directions of topics, with some of their own, and of different lengths.
fn sentences(random: &mut Random) -> Vec<Vec<f32>> {
    let topics: Vec<Vec<f64>> = (0..TOPICS).map(|_| (0..DIM).map(|_| random.normal()).collect()).collect();
    (0..VECTORS)
        .map(|_| {
            let topic = &topics[random.below(TOPICS as u64) as usize];
            let length = 0.5 + random.unit();
            topic.iter().map(|value| (length * (value + 0.2 * random.normal())) as f32).collect()
        })
        .collect()
}

/// Other wordings of some of the sentences.
fn queries(vectors: &[Vec<f32>], random: &mut Random) -> Vec<Vec<f32>> {
    let every = vectors.len() / QUERIES;
    let chosen = vectors.iter().step_by(every);
    chosen.map(|vector| vector.iter().map(|value| value + 0.1 * random.normal() as f32).collect()).collect()
}

fn read_vectors(path: &Path) -> Done<Vec<Vec<f32>>> {
    let mut input = Input::open(path)?;
    let count = input.pieces(4 * DIM as u64, "a vector")?;
    let mut vectors = vec![vec![0.0; DIM]; count as usize];
    vectors.iter_mut().try_for_each(|vector| input.f32s(vector))?;
    Ok(vectors)
}

fn length(path: &Path) -> Done<u64> {
    Input::open(path).map(|input| input.len())
}

/// What the training was made of, made once more.
fn samples_and_start(book: &Book, vectors: &Path) -> Done<(Vec<f64>, Vec<f64>)> {
    let mut input = Input::open(vectors)?;
    let count = input.pieces(4 * DIM as u64, "a vector")?;
    let mut made = vec![0.0; book.profile.training_samples as usize * BLOCK];
    samples::from_vectors(&mut input, count, &book.profile, &book.matrix, &mut made)?;
    let mut start = vec![0.0; CODEWORDS * BLOCK];
    samples::start(&made, &book.profile, &mut start);
    Ok((made, start))
}

/// The cell of each sample.
fn cells(book: &Book, samples: &[f64]) -> Done<Vec<u32>> {
    let codewords: Vec<f64> = book.codewords.iter().map(|value| f64::from(*value)).collect();
    let cell = |sample| nearest(&codewords, CODEWORDS as u64, BLOCK as u64, sample).map(|found| found.index);
    samples.chunks_exact(BLOCK).map(cell).collect::<Result<_, _>>().map_err(Failure::refused("a sample"))
}

fn distance(a: &[f32], b: &[f32]) -> f64 {
    a.iter().zip(b).map(|(x, y)| f64::from(x - y) * f64::from(x - y)).sum::<f64>().sqrt()
}

fn closest(query: &[f32], vectors: &[Vec<f32>]) -> Option<usize> {
    (0..vectors.len()).min_by(|a, b| distance(query, &vectors[*a]).total_cmp(&distance(query, &vectors[*b])))
}

fn compared(name: &str, vectors: &[Vec<f32>], decoded: &[Vec<f32>], queries: &[Vec<f32>]) -> String {
    let zero = [0.0; DIM];
    let parts = vectors.iter().zip(decoded).map(|(vector, made)| distance(vector, made) / distance(vector, &zero));
    let error = parts.sum::<f64>() / vectors.len() as f64;
    let found = queries.iter().filter(|query| closest(query, vectors) == closest(query, decoded)).count();
    format!("{name}: error {:.1} %, {found} of {} found again", 100.0 * error, queries.len())
}
