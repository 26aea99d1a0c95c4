//! `inspect`: what a file holds.

use crate::args::Args;
use crate::book::{Book, MAGIC};
use crate::coding::{at, count_codes, BEGINNING, NORM, OLDER_NORM};
use crate::doubles::Doubles;
use crate::failure::{Done, Failure};
use crate::files::Input;
use crate::{memory, report, say};
use nuqtelya::{decode_norm, parse_frame, unpack_indices, Coder, Frame, Refusal, HEADER_LEN};
use std::ffi::OsString;
use std::fmt::Write;
use std::path::Path;

/// Repairs that are shown unless all are asked for.
const SHOWN: usize = 10;

/// Doubles whose lines are in memory at a time.
const LINES: usize = 1000;

pub fn command(words: impl IntoIterator<Item = OsString>) -> Done<()> {
    let args = Args::parse(words, &["codebook"], &["doubles", "repairs", "values"], 1)?;
    let path = args.plain("the file to inspect")?;
    let mut head = [0; 8];
    let mut input = Input::open(&path)?;
    let len = input.len();
    if len == 0 {
        return Err(Failure::file(&path, "is empty"));
    }
    if len >= 8 {
        input.bytes(&mut head)?;
    }
    let book = args.path("codebook");
    let list = args.flag("doubles");
    if head == MAGIC {
        codebook(&path, args.flag("repairs"), args.flag("values"))
    } else if book.is_some() || list || head.starts_with(b"FB1") {
        // Who names a codebook or asks for doubles has codes, and what does not begin as they do is damaged.
        codes(&path, book.as_deref(), list)
    } else {
        say(&format!(
            "{}: plain values: {}, or {}\n",
            path.display(),
            count(len, 4, "binary32 (vectors)"),
            count(len, 8, "binary64 (samples, a start, matrices)")
        ))
    }
}

fn count(len: u64, size: u64, what: &str) -> String {
    if len.is_multiple_of(size) {
        format!("{} values of {what}", len / size)
    } else {
        format!("no whole number of values of {what}")
    }
}

fn codebook(path: &Path, all: bool, values: bool) -> Done<()> {
    let book = Book::read(path)?;
    let mut text = format!("{}: a codebook\n{}", path.display(), report::training(&book));
    text.push_str(&report::repairs(&book.events, if all { usize::MAX } else { SHOWN }));
    let coder = Coder::new(book.profile, &book.matrix, &book.codewords).map_err(Failure::refused("the codebook"))?;
    text.push_str(&report::sizes(&book.profile, coder.frame_len()));
    let p = &book.profile;
    let _ = writeln!(text, "rates: {} bits a value on the wire, {} by log2 of N", p.wire_rate, p.paper_rate);
    if values {
        for (number, codeword) in book.codewords.chunks_exact(p.block_dim as usize).enumerate() {
            let _ = writeln!(text, "codeword {number}: {codeword:?}");
        }
    }
    say(&text)
}

/// Codes, and the doubles among them; with their codebook they are decoded.
fn codes(path: &Path, codebook: Option<&Path>, list: bool) -> Done<()> {
    let mut doubles = Doubles::new(list);
    let text = match codebook {
        Some(codebook) => decoded(path, &Book::read(codebook)?, &mut doubles)?,
        None => cut(path, &mut doubles)?,
    };
    let count = match doubles.codes() {
        1 => "1 code".into(),
        count => format!("{count} codes"),
    };
    say(&format!("{}: {count}, {text}\n", path.display()))?;
    // A part at a time, since there may be many.
    for pairs in doubles.pairs().chunks(LINES) {
        let line = |(number, first)| format!("code {number}: the same as code {first}\n");
        say(&pairs.iter().copied().map(line).collect::<String>())?;
    }
    Ok(())
}

/// What is said of codes that the codebook reads.
fn decoded(path: &Path, book: &Book, doubles: &mut Doubles) -> Done<String> {
    let mut coder =
        Coder::new(book.profile, &book.matrix, &book.codewords).map_err(Failure::refused("the codebook"))?;
    let mut input = Input::open(path)?;
    let count = count_codes(&input, &coder)?;
    let mut used = vec![0u64; book.profile.codebook_size as usize];
    let mut code = vec![0; coder.frame_len()];
    let (mut indices, mut first) = (Vec::new(), String::new());
    for number in 0..count {
        let refused = |refusal| at(path, "code", number, refusal);
        input.bytes(&mut code)?;
        coder.decode(&code).map_err(refused)?;
        let frame = parse_frame(&code).map_err(refused)?;
        indices.resize(frame.count as usize, 0);
        unpack_indices(frame.indices, frame.count.into(), frame.width, &mut indices).map_err(refused)?;
        indices.iter().for_each(|index| used[*index as usize] += 1);
        if number == 0 {
            let norm = decode_norm(frame.norm).map_err(refused)?;
            first = format!("code 0: norm {norm}, codewords {indices:?}");
        }
        doubles.next(&input, &code)?;
    }
    let unused = used.iter().filter(|times| **times == 0).count();
    Ok(format!(
        "all readable with this codebook; {}; {unused} of {} codewords are in no code\n{first}",
        doubles.in_words(),
        used.len()
    ))
}

/// What is said of codes without their codebook, each cut from the file by its own head.
fn cut(path: &Path, doubles: &mut Doubles) -> Done<String> {
    let mut input = Input::open(path)?;
    let mut left = input.len();
    let (mut code, mut first, mut alike) = (Vec::new(), [0; HEADER_LEN], true);
    while left > 0 {
        let number = doubles.codes();
        let refused = |refusal| at(path, "code", number, refusal);
        next_code(&mut input, left, number, &mut code)?;
        let frame = parse_frame(&code).map_err(refused)?;
        check_packed(&frame).map_err(refused)?;
        if number == 0 {
            first.copy_from_slice(&code[..HEADER_LEN]);
        }
        alike &= code.starts_with(&first);
        doubles.next(&input, &code)?;
        left -= code.len() as u64;
    }
    Ok(format!("of which {}; {}", doubles.in_words(), first_head(&first, alike)))
}

/// Reads the next code, of a file with so many bytes left, into the buffer.
fn next_code(input: &mut Input, left: u64, number: u64, code: &mut Vec<u8>) -> Done<()> {
    let ends = |input: &Input| Failure::file(input.path(), format!("ends within code {number}"));
    let mut head = [0; HEADER_LEN];
    if left < HEADER_LEN as u64 {
        return Err(ends(input));
    }
    input.bytes(&mut head)?;
    // What does not begin as a code does says no length.
    if !head.starts_with(BEGINNING) {
        parse_frame(&head).map_err(|refusal| at(input.path(), "code", number, refusal))?;
    }
    // Before there is room for it: a damaged head may ask for any.
    let len = code_len(&head);
    if left < len {
        return Err(ends(input));
    }
    memory::resize(code, len as usize)?;
    let (start, rest) = code.split_at_mut(HEADER_LEN);
    start.copy_from_slice(&head);
    input.bytes(rest)
}

/// The bytes of the code that has this head.
fn code_len(head: &[u8; HEADER_LEN]) -> u64 {
    let [_, _, _, _, width, a, b, c, d, low, high] = *head;
    let bits = u64::from(width) * u64::from(u32::from_le_bytes([a, b, c, d]));
    HEADER_LEN as u64 + u64::from(u16::from_le_bytes([low, high])) + bits.div_ceil(8)
}

/// The library's test of width, length and padding of packed indices (9). Last of all it tests whether there is room for
/// them (7), so that none is taken here.
fn check_packed(frame: &Frame) -> Result<(), Refusal> {
    match unpack_indices(frame.indices, frame.count.into(), frame.width, &mut []) {
        Err(refusal) if refusal.number() == 7 => Ok(()),
        answer => answer,
    }
}

/// The numbers in the head of the first code, and who reads the codes if all heads are alike.
fn first_head(head: &[u8; HEADER_LEN], alike: bool) -> String {
    let [_, _, _, version, width, a, b, c, d, low, high] = *head;
    let (count, norm) = (u32::from_le_bytes([a, b, c, d]), u16::from_le_bytes([low, high]));
    let all = match norm {
        _ if !alike => "others have other heads",
        NORM => "--codebook FILE reads them all",
        OLDER_NORM => "nuqtelya convert makes codes of them that can be read",
        _ => "no codebook reads such norms",
    };
    format!(
        "the first is of version {version}, with a norm of {norm} bytes and {count} indices of {width} bits ({all})"
    )
}
