//! `around`: the codewords that lie within a distance of a block.

use crate::args::Args;
use crate::book::Book;
use crate::coding::{at, coder};
use crate::failure::{Done, Failure};
use crate::files::Input;
use crate::say;
use nuqtelya::{codewords_within, nearest, sqrt, Refusal};
use std::ffi::OsString;
use std::path::{Path, PathBuf};

/// Codewords whose lines are in memory at a time.
const LINES: usize = 1000;

/// Whose blocks are looked around: those of a vector, or one of them alone; or those of a file.
enum Source {
    Vector { path: PathBuf, place: u64, only: Option<u64> },
    Blocks(PathBuf),
}

pub fn command(words: impl IntoIterator<Item = OsString>) -> Done<()> {
    let args = Args::parse(words, &["codebook", "vectors", "vector", "only", "blocks", "radius"], &[], 0)?;
    let (book, radius) = (args.needed_path("codebook")?, args.needed_number("radius")?);
    let source = Source::from_args(&args)?;
    let book = Book::read(&book)?;
    match source {
        Source::Vector { path, place, only } => of_vector(&book, radius, &path, place, only),
        Source::Blocks(path) => of_file(&book, radius, &path),
    }
}

impl Source {
    fn from_args(args: &Args) -> Done<Source> {
        let (place, only) = (args.number("vector")?, args.number("only")?);
        match (args.path("vectors"), args.path("blocks")) {
            (Some(path), None) => Ok(Source::Vector { path, place: place.unwrap_or(0), only }),
            (None, Some(path)) if place.is_none() && only.is_none() => Ok(Source::Blocks(path)),
            (None, Some(_)) => Err(Failure::Usage("--vector and --only go with --vectors alone".into())),
            _ => Err(Failure::Usage("one of --vectors and --blocks is needed".into())),
        }
    }
}

/// Shows what lies around the blocks of the vector at this place, or around one of them.
fn of_vector(book: &Book, radius: f64, path: &Path, place: u64, only: Option<u64>) -> Done<()> {
    let (d, k) = (book.profile.ambient_dim as usize, book.profile.block_dim as usize);
    let last = (d / k) as u64 - 1;
    if let Some(block) = only.filter(|block| *block > last) {
        return Err(Failure::Usage(format!("--only {block}: a vector's last block is {last}, counted from 0")));
    }
    let mut input = Input::open(path)?;
    let size = 4 * d as u64;
    let last = input.pieces(size, "a vector")? - 1;
    if place > last {
        return Err(Failure::Usage(format!("--vector {place}: the file's last is {last}, counted from 0")));
    }
    input.go_to(place * size)?;
    let mut vector = vec![0.0; d];
    input.f32s(&mut vector)?;
    let values = coder(book)?.blocks(&vector).map_err(|refusal| at(path, "vector", place, refusal))?;
    for (number, block) in (0..).zip(values.chunks_exact(k)) {
        if only.is_none_or(|only| only == number) {
            show(book, radius, path, &format!("vector {place}, block {number}"), block)?;
        }
    }
    Ok(())
}

/// Shows what lies around each block of the file.
fn of_file(book: &Book, radius: f64, path: &Path) -> Done<()> {
    let mut block = vec![0.0; book.profile.block_dim as usize];
    let mut input = Input::open(path)?;
    for number in 0..input.pieces(4 * block.len() as u64, "a block")? {
        input.f32s(&mut block)?;
        show(book, radius, path, &format!("block {number}"), &block)?;
    }
    Ok(())
}

/// Says how many codewords lie around the block of this name, and which.
fn show(book: &Book, radius: f64, path: &Path, name: &str, block: &[f32]) -> Done<()> {
    let (n, k) = (book.profile.codebook_size, book.profile.block_dim);
    let mut numbers = vec![0; n as usize];
    let found = codewords_within(&book.codewords, n.into(), k.into(), block, radius, &mut numbers);
    let refused = |refusal: Refusal| match refusal.number() {
        21 => Failure::Refused(format!("--radius {radius:?}"), refusal),
        _ => Failure::Refused(format!("{}: {name}", path.display()), refusal),
    };
    let count = found.map_err(refused)?;
    say(&format!("{name}: {count} of {n} codewords within {radius:?}\n"))?;
    let sought = wide(block);
    for part in numbers[..count].chunks(LINES) {
        let lines = part.iter().map(|codeword| line(book, *codeword, &sought)).collect::<Result<String, _>>();
        say(&lines.map_err(refused)?)?;
    }
    Ok(())
}

/// The line of a codeword. Its squared distance is the one that a search among it alone finds.
fn line(book: &Book, number: u32, block: &[f64]) -> Result<String, Refusal> {
    let k = block.len();
    let codeword = wide(&book.codewords[number as usize * k..][..k]);
    let squared = nearest(&codeword, 1, k as u64, block)?.distance;
    // The root, or the next number where its square is rounded down: a radius that finds the codeword again.
    let root = sqrt(squared)?;
    let distance = if root * root < squared { root.next_up() } else { root };
    Ok(format!("  codeword {number}: squared distance {squared:?}, distance {distance:?}\n"))
}

fn wide(values: &[f32]) -> Vec<f64> {
    values.iter().map(|value| f64::from(*value)).collect()
}
