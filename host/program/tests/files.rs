//! The program with the files that users have: whole ones, and all kinds of others.

use std::collections::HashMap;
use std::ffi::{OsStr, OsString};
use std::fs;
use std::os::unix::ffi::OsStrExt;
use std::path::{Path, PathBuf};
use std::process::{Command, Output, Stdio};
use std::time::{Duration, Instant};

const PROGRAM: &str = env!("CARGO_BIN_EXE_nuqtelya");

/// A folder of a test's own, removed at its end.
struct Folder(PathBuf);

impl Folder {
    fn new(name: &str) -> Folder {
        let path = std::env::temp_dir().join(format!("nuqtelya-test-{}-{name}", std::process::id()));
        fs::create_dir_all(&path).expect("a folder");
        Folder(path)
    }

    fn at(&self, name: &str) -> PathBuf {
        self.0.join(name)
    }

    fn write(&self, name: &str, bytes: &[u8]) {
        fs::write(self.at(name), bytes).expect("a file");
    }

    fn read(&self, name: &str) -> Vec<u8> {
        fs::read(self.at(name)).unwrap_or_else(|error| panic!("{name}: {error}"))
    }

    /// The files, in order of their names.
    fn names(&self) -> Vec<String> {
        let files = fs::read_dir(&self.0).expect("the folder").flatten();
        let mut names: Vec<String> = files.map(|file| file.file_name().to_string_lossy().into_owned()).collect();
        names.sort();
        names
    }

    fn run(&self, words: &str) -> Output {
        Command::new(PROGRAM).args(words.split_whitespace()).current_dir(&self.0).output().expect("a run")
    }

    /// A run that succeeds, without a word on stderr; what it says.
    fn done(&self, words: &str) -> String {
        let output = self.run(words);
        let stderr = String::from_utf8_lossy(&output.stderr).into_owned();
        assert_eq!((output.status.code(), stderr.as_str()), (Some(0), ""), "{words}");
        String::from_utf8_lossy(&output.stdout).into_owned()
    }

    /// A run that fails with this exit code and these words, and changes no file.
    fn fails(&self, words: &str, code: i32, said: &str) {
        let before = self.names();
        let output = self.run(words);
        let stderr = String::from_utf8_lossy(&output.stderr);
        assert_eq!(output.status.code(), Some(code), "{words}: {stderr}");
        assert!(stderr.contains(said), "{words}: {stderr}");
        assert_eq!(self.names(), before, "{words}");
    }
}

impl Drop for Folder {
    fn drop(&mut self) {
        let _ = fs::remove_dir_all(&self.0);
    }
}

const TRAIN: &str = "train --dim 8 --block 2 --codewords 4 --iterations 5 --out book";

/// Values of either sign, none of them zero.
fn values(count: usize) -> Vec<f32> {
    let mut state = 1u32;
    let mut next = || {
        state = state.wrapping_mul(1_664_525).wrapping_add(1_013_904_223);
        (state >> 8) as f32 / (1 << 23) as f32 - 1.0 + 1e-6
    };
    (0..count).map(|_| next()).collect()
}

fn bytes32(values: &[f32]) -> Vec<u8> {
    values.iter().flat_map(|value| value.to_le_bytes()).collect()
}

fn bytes64(values: impl IntoIterator<Item = f64>) -> Vec<u8> {
    values.into_iter().flat_map(f64::to_le_bytes).collect()
}

/// A folder with 100 vectors of 8 values and a codebook for them.
fn trained(name: &str) -> Folder {
    let folder = Folder::new(name);
    folder.write("vectors", &bytes32(&values(800)));
    folder.done(&format!("{TRAIN} --vectors vectors"));
    folder
}

#[test]
fn vectors_come_back() {
    let folder = trained("back");
    folder.done("encode --codebook book --vectors vectors --out codes");
    // A head of 11 bytes, a norm of 2, and 4 indices of 2 bits.
    assert_eq!(folder.read("codes").len(), 100 * 14);
    folder.done("decode --codebook book --codes codes --out decoded");
    let decoded = folder.read("decoded");
    assert_eq!(decoded.len(), 100 * 8 * 4);
    let square = |value: f32| f64::from(value) * f64::from(value);
    let made = decoded.chunks_exact(4).map(|b| f32::from_le_bytes([b[0], b[1], b[2], b[3]]));
    let error: f64 = values(800).iter().zip(made).map(|(a, b)| square(a - b)).sum();
    let all: f64 = values(800).iter().map(|a| square(*a)).sum();
    assert!(error < 0.5 * all, "{error} of {all}");
    assert!(folder.done("inspect book").contains("samples, start, restart matrices (seed"));
    assert!(folder.done("inspect codes --codebook book").contains("100 codes, all readable"));
    assert!(folder.done("inspect codes").contains("4 indices of 2 bits"));
    assert!(folder.done("inspect vectors").contains("800 values of binary32"));
}

#[test]
fn the_same_seed_gives_the_same_codebook() {
    let folder = trained("seed");
    let first = folder.read("book");
    folder.done(&format!("{TRAIN} --vectors vectors"));
    assert_eq!(folder.read("book"), first);
    folder.done(&format!("{TRAIN} --vectors vectors --seed 2"));
    assert_ne!(folder.read("book"), first);
}

const GIVEN: &str = "train --dim 4 --block 2 --codewords 2 --samples samples --start start --matrices matrices \
                     --rotation rotation --restarts 2 --iterations 5 --out book";

/// A folder with all that GIVEN names. The codewords become (2, 0) and (-2, 0), and the rotation leaves a vector as it is.
fn given(name: &str) -> Folder {
    let folder = Folder::new(name);
    // Samples at 1, 3, -1 and -3; the trained codewords are their means in pairs.
    folder.write("samples", &bytes64([1.0, 0.0, 3.0, 0.0, -1.0, 0.0, -3.0, 0.0]));
    folder.write("start", &bytes64([1.0, 0.0, -1.0, 0.0]));
    folder.write("matrices", &bytes64([0.0, 1.0, 1.0, 0.0]));
    let unit = |at: usize| f64::from(u8::from(at.is_multiple_of(5)));
    folder.write("rotation", &bytes64((0..16).map(unit)));
    folder
}

/// As many vectors as are worked on at a time.
fn part() -> usize {
    64 * std::thread::available_parallelism().map_or(1, usize::from)
}

#[test]
fn what_is_handed_in_is_used() {
    let folder = given("given");
    let said = folder.done(GIVEN);
    assert!(said.contains("handed in: samples, start, restart matrices\nrotation: handed in"), "{said}");
    assert!(said.contains("start: 2.0") && said.contains("codebook: 1.0"), "{said}");
    assert!(folder.done("inspect book --values").contains("codeword 0: [2.0, 0.0]\ncodeword 1: [-2.0, 0.0]"));
    folder.write("samples", &bytes64([1.0, 0.0, 3.0, f64::NAN, -1.0, 0.0, -3.0, 0.0]));
    folder.fails(GIVEN, 1, "refused by 18: value 3 of samples");
    folder.write("turned", &bytes64((0..16).map(|at| if at == 5 { f64::INFINITY } else { 0.5 })));
    folder.fails(
        &GIVEN.replace("--rotation rotation", "--rotation turned"),
        1,
        "turned: refused by 18: value 5 of matrices",
    );
    // The codebook is all that is needed from here on.
    fs::remove_file(folder.at("rotation")).expect("the rotation");
    folder.write("vectors", &bytes32(&[3.0, 0.0, -4.0, 0.0]));
    folder.done("encode --codebook book --vectors vectors --out codes");
    folder.done("decode --codebook book --codes codes --out decoded");
    assert_eq!(folder.read("decoded"), bytes32(&[10.0, 0.0, -10.0, 0.0]));
}

#[test]
fn missing_and_misshapen_files() {
    let folder = trained("shape");
    folder.write("empty", b"");
    folder.write("short", &folder.read("vectors")[..801]);
    folder.write("narrow", &bytes32(&values(12)));
    for file in ["empty", "short", "narrow", "nowhere", "."] {
        folder.fails(&format!("{TRAIN}2 --vectors {file}"), 3, file);
        folder.fails(&format!("{TRAIN}2 --vectors vectors --start {file}"), 3, file);
        folder.fails(&format!("{TRAIN}2 --vectors vectors --matrices {file}"), 3, file);
        folder.fails(&format!("{TRAIN}2 --vectors vectors --rotation {file}"), 3, file);
        folder.fails(&format!("encode --codebook book --vectors {file} --out codes"), 3, file);
        folder.fails(&format!("encode --codebook {file} --vectors vectors --out codes"), 3, file);
        folder.fails(&format!("decode --codebook book --codes {file} --out decoded"), 3, file);
        folder.fails(&format!("around --codebook book --vectors {file} --radius 1"), 3, file);
        folder.fails(&format!("around --codebook {file} --vectors vectors --radius 1"), 3, file);
    }
    for file in ["empty", "short", "nowhere", "."] {
        folder.fails(&format!("around --codebook book --blocks {file} --radius 1"), 3, file);
    }
    folder.fails(&format!("{TRAIN}/nowhere/book --vectors vectors"), 3, "nowhere");
    folder.fails("encode --codebook book --vectors vectors --out .", 3, "not a plain file");
    folder.fails(&format!("{TRAIN}2 --samples narrow"), 1, "refused by 6: profile field unfit: training samples");
}

/// There is no matrix for a single restart, and a file that says so is one.
#[test]
fn one_restart_has_an_empty_file_of_matrices() {
    let folder = trained("one");
    folder.write("empty", b"");
    folder.done(&format!("{TRAIN}2 --vectors vectors --restarts 1 --matrices empty"));
    folder.done("inspect book2");
    folder.fails(&format!("{TRAIN}2 --vectors vectors --restarts 2 --matrices empty"), 3, "has 0 bytes");
}

/// Who opens a pipe for reading waits for its writer, and here there is none.
#[test]
fn a_pipe_is_not_waited_for() {
    let folder = trained("pipe");
    assert!(Command::new("mkfifo").arg(folder.at("pipe")).status().expect("a run").success());
    for words in [
        &format!("{TRAIN}2 --vectors pipe"),
        &format!("{TRAIN}2 --samples pipe"),
        &format!("{TRAIN}2 --vectors vectors --start pipe"),
        &format!("{TRAIN}2 --vectors vectors --matrices pipe"),
        &format!("{TRAIN}2 --vectors vectors --rotation pipe"),
        "encode --codebook pipe --vectors vectors --out codes",
        "encode --codebook book --vectors pipe --out codes",
        "decode --codebook book --codes pipe --out decoded",
        "inspect pipe",
        "around --codebook book --vectors pipe --radius 1",
        "around --codebook book --blocks pipe --radius 1",
    ] {
        let mut command = Command::new(PROGRAM);
        command.args(words.split_whitespace()).current_dir(&folder.0).stderr(Stdio::piped());
        let mut running = command.spawn().expect("a run");
        let begin = Instant::now();
        while running.try_wait().expect("a state").is_none() && begin.elapsed() < Duration::from_secs(10) {
            std::thread::sleep(Duration::from_millis(5));
        }
        running.kill().expect("a stop, unless it has ended");
        let output = running.wait_with_output().expect("an end");
        let stderr = String::from_utf8_lossy(&output.stderr);
        assert_eq!(output.status.code(), Some(3), "{words}: {stderr}");
        assert!(stderr.contains("pipe: is not a plain file"), "{words}: {stderr}");
    }
}

#[test]
fn no_output_takes_the_place_of_an_input() {
    let folder = trained("same");
    let said = folder.done("encode --codebook book --vectors vectors --out codes");
    assert!(said.contains("100 vectors of 32 bytes became codes of 14 bytes"), "{said}");
    folder.write("samples", &bytes64(values(16).into_iter().map(f64::from)));
    folder.write("start", &bytes64(values(8).into_iter().map(f64::from)));
    folder.write("matrices", &bytes64([0.0, 1.0, 1.0, 0.0]));
    folder.write("rotation", &bytes64((0..64).map(|at: usize| f64::from(u8::from(at.is_multiple_of(9))))));
    let train = "train --dim 8 --block 2 --codewords 4 --restarts 2 --iterations 5";
    let given = "--samples samples --start start --matrices matrices --rotation rotation";
    for (command, inputs) in [
        ("encode --codebook book --vectors vectors", &["book", "vectors"][..]),
        ("decode --codebook book --codes codes", &["book", "codes"]),
        ("convert --codebook book --codes codes --to binary32", &["book", "codes"]),
        (&format!("{train} --vectors vectors"), &["vectors"]),
        (&format!("{train} {given}"), &["samples", "start", "matrices", "rotation"]),
    ] {
        for input in inputs {
            let whole = folder.read(input);
            let _ = (fs::remove_file(folder.at("link")), fs::remove_file(folder.at("name")));
            std::os::unix::fs::symlink(folder.at(input), folder.at("link")).expect("a link");
            fs::hard_link(folder.at(input), folder.at("name")).expect("another name");
            let path = folder.at(input).display().to_string();
            for out in [input, path.as_str(), "link", "name"] {
                let said = format!("{out}: is the same file as the input {input}");
                folder.fails(&format!("{command} --out {out}"), 3, &said);
                assert_eq!(folder.read(input), whole, "{command} --out {out}");
            }
        }
        // Any other file may be there before.
        folder.write("out", b"the old one");
        folder.done(&format!("{command} --out out"));
    }
}

#[test]
fn wrong_use() {
    let folder = trained("use");
    for (words, said) in [
        ("", "a command is missing: train, encode, decode, convert, inspect, around or demo"),
        ("trian", "unknown command trian"),
        ("train --vectors vectors --out x", "--dim is missing"),
        ("train --dim 8 --block 2 --codewords 4 --out x", "one of --vectors and --samples"),
        ("encode --codebook book --vectors", "--vectors needs a value"),
        ("encode --codebook book --speed 9", "unknown option --speed"),
        ("convert --codebook book --codes vectors --out x", "--to is missing"),
        ("convert --codebook book --codes vectors --out x --to f16", "--to f16: binary16 or binary32"),
        ("inspect", "the file to inspect is missing"),
        ("around --vectors vectors --radius 1", "--codebook is missing"),
        ("around --codebook book --vectors vectors", "--radius is missing"),
        ("around --codebook book --vectors vectors --radius near", "--radius near: not a number"),
        ("around --codebook book --radius 1", "one of --vectors and --blocks is needed"),
        (
            "around --codebook book --radius 1 --vectors vectors --blocks vectors",
            "one of --vectors and --blocks is needed",
        ),
        ("around --codebook book --radius 1 --blocks vectors --vector 0", "--vector and --only go with --vectors"),
        ("around --codebook book --radius 1 --blocks vectors --only 0", "--vector and --only go with --vectors"),
        ("around --codebook book --radius 1 --vectors vectors --vector -1", "--vector -1: not a number that fits"),
        (
            "around --codebook book --radius 1 --vectors vectors --vector 100",
            "--vector 100: the file's last is 99, counted from 0",
        ),
        (
            "around --codebook book --radius 1 --vectors vectors --only 4",
            "--only 4: a vector's last block is 3, counted from 0",
        ),
    ] {
        folder.fails(words, 2, said);
    }
    let train = "train --vectors vectors --out x";
    folder.fails(&format!("{train} --dim 8 --block 3 --codewords 4"), 1, "refused by 3");
    folder.fails(&format!("{train} --dim 8 --block 2 --codewords 1"), 1, "refused by 4");
    folder.fails(&format!("{train} --dim 8 --block 2 --codewords 4 --restarts 0"), 1, "refused by 6");
    folder.fails(&format!("{train} --dim 8 --block 2 --codewords -4"), 2, "--codewords -4");
    assert!(folder.done("train --help").contains("--empty-cells"));
    assert!(folder.done("train --help").contains("at least 256 and at most 10000000"));
    assert!(folder.done("--help").contains("nuqtelya around "));
    let said = folder.done("around --help");
    for promise in ["no promised order", "exact hits only", "rounded once", "refused (21); minus zero is zero"] {
        assert!(said.contains(promise), "{promise}: {said}");
    }
}

#[test]
fn a_value_need_not_be_text() {
    let folder = trained("bytes");
    // No UTF-8 has a byte ff; and only the first = parts an option from its value.
    let name = OsStr::from_bytes(b"co\xffdes=1");
    let mut out = OsString::from("--out=");
    out.push(name);
    let mut command = Command::new(PROGRAM);
    command.args(["encode", "--codebook=book", "--vectors=vectors"]).arg(out).current_dir(&folder.0);
    assert!(command.output().expect("a run").status.success());
    assert_eq!(fs::read(folder.0.join(name)).expect("codes").len(), 100 * 14);
}

#[test]
fn vectors_that_cannot_be_encoded() {
    let folder = trained("vector");
    folder.write("codes", b"the old ones");
    let mut zero = values(16);
    zero[8..].fill(0.0);
    folder.write("zero", &bytes32(&zero));
    folder.fails("encode --codebook book --vectors zero --out codes", 1, "vector 1: refused by 13");
    folder.fails(&format!("{TRAIN} --vectors zero"), 3, "vector 1 is all zeros");
    let mut nan = values(16);
    nan[11] = f32::NAN;
    folder.write("nan", &bytes32(&nan));
    folder.fails("encode --codebook book --vectors nan --out codes", 1, "vector 1: refused by 12: value 3");
    folder.fails(&format!("{TRAIN} --vectors nan"), 3, "vector 1 has at place 3");
    assert_eq!(folder.read("codes"), b"the old ones");
}

#[test]
fn the_first_refusal_of_all_threads_is_told() {
    let folder = trained("first");
    let mut vectors = values(8 * 3 * part());
    // One for each thread of the second part, the last first.
    for place in (part()..2 * part()).rev().step_by(64) {
        vectors[8 * place..8 * (place + 1)].fill(0.0);
        folder.write("zeros", &bytes32(&vectors));
        let said = format!("vector {place}: refused by 13");
        folder.fails("encode --codebook book --vectors zeros --out codes", 1, &said);
    }
}

/// Norms beside a middle between two binary16 values, and at the two beside which there is none to store.
#[test]
fn a_norm_is_rounded_once() {
    let folder = given("norms");
    folder.done(GIVEN);
    let encode = "encode --codebook book --vectors vectors --out codes";
    // Just above 1 + 2^-11, just under 65,520 and just above 2^-25: by way of binary32 they would be 0x3c00 and refused.
    let (small, least) = (2f32.powi(-25), 2f32.powi(-39));
    let vectors =
        [[1.0 + 1.0 / 2048.0, 1.0 / 524_288.0, 0.0, 0.0], [65_519.996, 22.62, 0.0, 0.0], [small, least, 0.0, 0.0]];
    folder.write("vectors", &bytes32(&vectors.concat()));
    folder.done(encode);
    let norms: Vec<u16> =
        folder.read("codes").chunks_exact(14).map(|code| u16::from_le_bytes([code[11], code[12]])).collect();
    assert_eq!(norms, [0x3c01, 0x7bff, 0x0001]);
    for refused in [65_520.0, small] {
        folder.write("vectors", &bytes32(&[1.0, 0.0, 0.0, 0.0, 0.0, refused, 0.0, 0.0]));
        folder.fails(encode, 1, "vector 1: refused by 10");
    }
}

/// The codes of an older collection: those of today with the norm's length field and its value in four bytes.
#[test]
fn older_codes_are_converted_and_back() {
    let folder = trained("older");
    folder.done("encode --codebook book --vectors vectors --out codes");
    let codes = folder.read("codes");
    let older: Vec<u8> = codes.chunks_exact(14).flat_map(|code| older(code, &norm_of(code).to_le_bytes())).collect();
    folder.write("older", &older);
    assert!(folder.done("inspect older").contains("a norm of 4 bytes"));
    for read in ["decode --codebook book --codes older --out x", "inspect older --codebook book"] {
        folder.fails(read, 3, "older: has a first code whose norm has four bytes: nuqtelya convert");
    }
    let said = folder.done("convert --codebook book --codes older --to binary16 --out newer");
    assert!(said.contains("100 codes with norms of 4 bytes became codes with norms of 2: 1400 bytes"), "{said}");
    assert_eq!(folder.read("newer"), codes);
    folder.done("convert --codebook book --codes newer --to binary32 --out back");
    assert_eq!(folder.read("back"), older);
}

/// One code that cannot be converted, and the file that was there stays.
#[test]
fn codes_that_cannot_be_converted() {
    let folder = trained("inexact");
    folder.done("encode --codebook book --vectors vectors --out codes");
    let codes = folder.read("codes");
    folder.write("out", b"the old ones");
    let convert = "convert --codebook book --codes other --out out";
    for (norm, said) in [
        (1.0f32 + 1.0 / 2048.0, "other: code 57: refused by 27: the norm is not exact in binary16"),
        (65_536.0, "code 57: refused by 27"),
        (-1.0, "code 57: refused by 10"),
        (f32::INFINITY, "code 57: refused by 10"),
    ] {
        let other = codes.chunks_exact(14).enumerate().flat_map(|(place, code)| {
            let norm = if place == 57 { norm } else { norm_of(code) };
            older(code, &norm.to_le_bytes())
        });
        folder.write("other", &other.collect::<Vec<u8>>());
        folder.fails(&format!("{convert} --to binary16"), 1, said);
    }
    for (place, said) in [(14 * 20, "code 20: refused by 8"), (14 * 21 + 4, "code 21: refused by 8")] {
        let mut other = codes.clone();
        other[place] ^= 0x08;
        folder.write("other", &other);
        folder.fails(&format!("{convert} --to binary32"), 1, said);
    }
    // The wrong direction, the codes of another codebook, one code cut, and older codes among others.
    folder.write("other", &codes);
    folder.fails(&format!("{convert} --to binary16"), 3, "other: has a first code whose norm has 2 bytes already");
    folder.done("train --dim 8 --block 4 --codewords 16 --vectors vectors --out book4");
    folder.done("encode --codebook book4 --vectors vectors --out other");
    folder.fails(&format!("{convert} --to binary32"), 1, "code 0: refused by 17");
    folder.write("other", &codes[..14 * 30 + 9]);
    folder.fails(&format!("{convert} --to binary32"), 1, "code 30: refused by 8: compact frame: under 11 bytes");
    let among = codes.chunks_exact(14).enumerate().flat_map(|(place, code)| match place {
        40 => older(code, &1f32.to_le_bytes()),
        _ => code.to_vec(),
    });
    folder.write("other", &among.collect::<Vec<u8>>());
    folder.fails(&format!("{convert} --to binary32"), 1, "code 40: refused by 8");
    assert_eq!(folder.read("out"), b"the old ones");
}

/// The norm of a code of today.
fn norm_of(code: &[u8]) -> f32 {
    nuqtelya::decode_norm(&code[11..13]).expect("a norm") as f32
}

/// The same code with these four bytes for a norm.
fn older(code: &[u8], norm: &[u8; 4]) -> Vec<u8> {
    [&code[..9], &[4, 0], norm, &code[13..]].concat()
}

/// A code with this norm and these indices of so many bits.
fn code(norm: &[u8], width: u8, indices: &[u32]) -> Vec<u8> {
    let mut packed = vec![0; (indices.len() * usize::from(width)).div_ceil(8)];
    nuqtelya::pack_indices(indices, width, &mut packed).expect("indices of that width");
    let frame = nuqtelya::Frame { width, count: indices.len() as u32, norm, indices: &packed };
    let mut code = vec![0; nuqtelya::HEADER_LEN + norm.len() + packed.len()];
    nuqtelya::write_frame(&frame, &mut code).expect("a code");
    code
}

/// The doubles among codes, by a plain count: what is said of them, and their lines.
fn doubles(codes: &[Vec<u8>]) -> (String, String) {
    let (mut firsts, mut lines) = (HashMap::new(), Vec::new());
    for (number, code) in codes.iter().enumerate() {
        let first = *firsts.entry(code).or_insert(number);
        if first != number {
            lines.push(format!("code {number}: the same as code {first}\n"));
        }
    }
    let said = match lines.len() {
        1 => "1 is a double of an earlier one".into(),
        count => format!("{count} are doubles of earlier ones"),
    };
    (said, lines.concat())
}

/// Holds what is said of a file of codes, without their codebook, to a plain count; how many are doubles.
fn counted(folder: &Folder, codes: &[Vec<u8>]) -> usize {
    folder.write("counted", &codes.concat());
    let (doubles, list) = doubles(codes);
    let said = folder.done("inspect counted");
    let begin =
        format!("counted: {} codes, of which {doubles}; the first is of version 1, with a norm of ", codes.len());
    assert!(said.starts_with(&begin) && said.lines().count() == 1, "{said}");
    assert_eq!(folder.done("inspect counted --doubles"), said + &list);
    list.lines().count()
}

/// A folder with a codebook, and 60 codes of it, no two of them equal.
fn encoded(name: &str) -> (Folder, Vec<Vec<u8>>) {
    let folder = trained(name);
    folder.done("encode --codebook book --vectors vectors --out codes");
    let mut codes: Vec<Vec<u8>> = Vec::new();
    for code in folder.read("codes").chunks_exact(14) {
        if codes.len() < 60 && codes.iter().all(|other| other != code) {
            codes.push(code.to_vec());
        }
    }
    (folder, codes)
}

#[test]
fn doubles_are_counted_and_listed() {
    let (folder, mut codes) = encoded("doubles");
    assert_eq!(counted(&folder, &codes), 0);
    codes.insert(7, codes[3].clone());
    assert_eq!(counted(&folder, &codes), 1);
    // The last one once more, and the first three times.
    codes.extend([60, 0, 0].map(|number| codes[number].clone()));
    codes.insert(0, codes[0].clone());
    assert_eq!(counted(&folder, &codes), 5);
    let head =
        "the first is of version 1, with a norm of 2 bytes and 4 indices of 2 bits (--codebook FILE reads them all)";
    let list = "code 1: the same as code 0\ncode 8: the same as code 4\ncode 62: the same as code 61\n\
                code 63: the same as code 0\ncode 64: the same as code 0\n";
    assert_eq!(
        folder.done("inspect counted --doubles"),
        format!("counted: 65 codes, of which 5 are doubles of earlier ones; {head}\n{list}")
    );
    // With the codebook, the line of code 0 comes before the list.
    let said = folder.done("inspect counted --codebook book");
    let readable =
        "65 codes, all readable with this codebook; 5 are doubles of earlier ones; 0 of 4 codewords are in no";
    assert!(said.starts_with(&format!("counted: {readable} code\ncode 0: norm ")), "{said}");
    assert_eq!(folder.done("inspect counted --codebook book --doubles"), said + list);
    folder.write("one", &codes[0]);
    assert_eq!(folder.done("inspect one"), format!("one: 1 code, of which 0 are doubles of earlier ones; {head}\n"));
    folder.write("two", &codes[..2].concat());
    let said = "2 codes, all readable with this codebook; 1 is a double of an earlier one; ";
    assert!(folder.done("inspect two --codebook book").contains(said));
}

#[test]
fn codes_that_differ_at_all_are_no_doubles() {
    let folder = Folder::new("differ");
    let (norm, indices) = ([0x00, 0x3c, 0x80, 0x3f], [5, 0, 7, 2, 1]);
    for norm in [&norm[..2], &norm] {
        let mut codes = vec![code(norm, 3, &indices), code(norm, 4, &indices), code(norm, 3, &indices[..4])];
        for bit in 0..8 * norm.len() {
            let mut other = norm.to_vec();
            other[bit / 8] ^= 1 << (bit % 8);
            codes.push(code(&other, 3, &indices));
        }
        for (place, bit) in (0..indices.len()).flat_map(|place| [1, 2, 4].map(|bit| (place, bit))) {
            let mut other = indices;
            other[place] ^= bit;
            codes.push(code(norm, 3, &other));
        }
        assert_eq!(counted(&folder, &codes), 0);
        codes.extend(codes.clone());
        assert_eq!(counted(&folder, &codes), codes.len() / 2);
    }
}

/// An older code is no double of the one that has its norm in two bytes.
#[test]
fn older_codes_are_doubles_of_older_ones() {
    let (folder, newer) = encoded("doubles-older");
    let older: Vec<Vec<u8>> = newer.iter().map(|code| older(code, &norm_of(code).to_le_bytes())).collect();
    assert_eq!(counted(&folder, &[&older[..], &older[40..42]].concat()), 2);
    let said =
        "counted: 62 codes, of which 2 are doubles of earlier ones; the first is of version 1, with a norm of 4 bytes \
                and 4 indices of 2 bits (nuqtelya convert makes codes of them that can be read)\n";
    assert_eq!(folder.done("inspect counted"), said);
    // Of heads that are not alike none says who reads all.
    assert_eq!(counted(&folder, &[&newer[..], &older].concat()), 0);
    assert!(folder.done("inspect counted").ends_with("4 indices of 2 bits (others have other heads)\n"));
    folder.write("neither", &code(&[0, 60, 0], 2, &[1, 2, 3, 0]));
    assert!(folder
        .done("inspect neither")
        .ends_with("a norm of 3 bytes and 4 indices of 2 bits (no codebook reads such norms)\n"));
    assert_eq!(counted(&folder, &[&older[..9], &newer[2..12], &newer[..5], &older[8..]].concat()), 4);
}

#[test]
fn many_doubles() {
    let folder = Folder::new("many");
    let mut state = 1u32;
    let mut below = |bound: u32| {
        state = state.wrapping_mul(1_664_525).wrapping_add(1_013_904_223);
        (state >> 16) % bound
    };
    // Of small shapes there are few codes, and of large ones many.
    let codes: Vec<Vec<u8>> = (0..20_000)
        .map(|_| {
            let norm = [below(40) as u8, 0x3c, 0x80, 0x3f];
            let (width, count) = (1 + below(3) as u8, 1 + below(4));
            let indices: Vec<u32> = (0..count).map(|_| below(1 << width)).collect();
            code(&norm[..2 + 2 * below(2) as usize], width, &indices)
        })
        .collect();
    let count = counted(&folder, &codes);
    assert!((5000..15_000).contains(&count), "{count}");
    assert_eq!(counted(&folder, &vec![codes[0].clone(); codes.len()]), 19_999);
}

/// Of four codes the third is damaged.
fn with_damaged(folder: &Folder, damaged: &[u8]) {
    let whole = code(&[0, 60], 2, &[1, 2, 3]);
    folder.write("other", &[&whole, &whole, damaged, &whole].concat());
}

#[test]
fn damaged_codes_are_found_without_a_codebook() {
    let folder = Folder::new("found");
    let whole = code(&[0, 60], 2, &[1, 2, 3]);
    // The place of a byte, and what is there.
    for (place, byte, said) in [
        (0, b'f', "8: compact frame: wrong magic"),
        (3, 2, "8: compact frame: unknown version"),
        (13, whole[13] | 0x40, "9: packed indices: padding bit set"),
        (13, whole[13] | 0x80, "9: packed indices: padding bit set"),
    ] {
        let mut damaged = whole.clone();
        damaged[place] = byte;
        with_damaged(&folder, &damaged);
        folder.fails("inspect other", 1, &format!("nuqtelya: other: code 2: refused by {said}\n"));
        folder.fails("inspect other --doubles", 1, "other: code 2: refused by");
    }
}

#[test]
fn damaged_heads_are_found_without_a_codebook() {
    let folder = Folder::new("heads");
    let head =
        |width, count: u32, norm: u16| [&b"FB1\x01"[..], &[width], &count.to_le_bytes(), &norm.to_le_bytes()].concat();
    // However many indices of no bits there are, they take no bytes.
    for damaged in [head(0, 0, 0), head(0, 1, 0), head(0, u32::MAX, 0), [head(33, 2, 2), vec![0; 11]].concat()] {
        with_damaged(&folder, &damaged);
        folder.fails("inspect other", 1, "other: code 2: refused by 9: packed indices: width not 1 to 32");
    }
    // The first two ask for 16 and 128 GB; the bits of the third are 2^32.
    for (width, count, norm) in
        [(32, u32::MAX, 2), (255, u32::MAX, u16::MAX), (32, 1 << 27, 2), (2, 200, 2), (2, 3, 256), (2, 3, u16::MAX)]
    {
        with_damaged(&folder, &head(width, count, norm));
        folder.fails("inspect other", 3, "nuqtelya: other: ends within code 2\n");
        // What begins otherwise is no head, whatever stands there.
        with_damaged(&folder, &head(width, count, norm).to_ascii_lowercase());
        folder.fails("inspect other", 1, "nuqtelya: other: code 2: refused by 8: compact frame: wrong magic\n");
    }
}

#[test]
fn a_cut_code_is_found_without_a_codebook() {
    let folder = Folder::new("cut");
    let codes = [code(&[0, 60], 2, &[1, 2, 3]), code(&[0, 0, 128, 63], 20, &[9; 5])].concat();
    // Below 8 bytes nothing is a code yet, and the first has 14.
    for len in 8..codes.len() {
        folder.write("other", &codes[..len]);
        match len {
            14 => assert!(folder.done("inspect other").contains("other: 1 code, of which 0")),
            _ => {
                folder.fails("inspect other", 3, &format!("nuqtelya: other: ends within code {}\n", u8::from(len > 14)))
            }
        }
    }
    folder.write("other", &codes);
    assert!(folder.done("inspect other").contains("other: 2 codes, of which 0"));
}

/// Between (2, 0) and (-2, 0) a block (0, 1) is a toss, and (1, 0) is none.
#[test]
fn tosses_are_counted() {
    let folder = given("tosses");
    folder.done(GIVEN);
    let (toss, clear) = ([0.0, 1.0], [1.0, 0.0]);
    let encode = |book: &str, vectors: &[[[f32; 2]; 2]]| {
        folder.write("vectors", &bytes32(&vectors.concat().concat()));
        let said = folder.done(&format!("encode --codebook {book} --vectors vectors --out codes"));
        said.lines().last().expect("a line").to_string()
    };
    let told = |tosses: usize, codes: usize, count: usize| {
        let blocks = 2 * count;
        format!(
            "tosses: {tosses} of {blocks} blocks, in {codes} of {count} codes (a toss: another codeword was as near as the \
             one chosen)"
        )
    };
    // Three whole parts, and two vectors more. Each third of them has 0, 1 and 2 tosses.
    let count = 3 * part() + 2;
    let kinds = [[clear, clear], [toss, clear], [toss, toss]];
    let mixed: Vec<_> = (0..count).map(|place| kinds[place % 3]).collect();
    assert_eq!(encode("book", &mixed), told(3 * part() + 1, 2 * part() + 1, count));
    assert_eq!(encode("book", &mixed[..2]), told(1, 1, 2));
    // All of them in one vector, in the part and the thread that come last or first.
    for place in [0, count - 1] {
        let mut vectors = vec![[clear, clear]; count];
        assert_eq!(encode("book", &vectors), told(0, 0, count));
        vectors[place] = [clear, toss];
        assert_eq!(encode("book", &vectors), told(1, 1, count));
    }
    // Two equal codewords, before the rotation of 16 values and the check sum: a toss wherever a block lies.
    let book = folder.read("book");
    folder.write("twice", &changed(&book, book.len() - 8 - 8 * 16 - 8, &bytes32(&[2.0, 0.0])));
    assert_eq!(encode("twice", &mixed), told(2 * count, count, count));
}

/// What is said around blocks. The order of a block's codewords is free, so their lines are sorted.
fn around(folder: &Folder, words: &str) -> String {
    let said = folder.done(&format!("around --codebook book {words}"));
    let mut lines: Vec<&str> = said.split_inclusive('\n').collect();
    lines.chunk_by_mut(|_, next| next.starts_with(' ')).for_each(|block| block[1..].sort());
    lines.concat()
}

/// What is said of a block, and of a codeword around it.
fn heading(block: usize, count: usize, radius: &str) -> String {
    format!("block {block}: {count} of 2 codewords within {radius}\n")
}

fn line(codeword: usize, squared: &str, distance: &str) -> String {
    format!("  codeword {codeword}: squared distance {squared}, distance {distance}\n")
}

/// The codewords are (2, 0) and (-2, 0).
#[test]
fn what_lies_around_blocks() {
    let folder = given("around-blocks");
    folder.done(GIVEN);
    let says = |blocks: &[f32], radius: &str, said: &[String]| {
        folder.write("blocks", &bytes32(blocks));
        assert_eq!(around(&folder, &format!("--blocks blocks --radius {radius}")), said.concat());
    };
    let root = "2.23606797749979";
    let first = [heading(0, 2, "3.0"), line(0, "1.0", "1.0"), line(1, "9.0", "3.0")];
    let second = [heading(1, 2, "3.0"), line(0, "5.0", root), line(1, "5.0", root)];
    let third = [heading(2, 1, "3.0"), line(0, "0.0", "0.0")];
    says(&[1.0, 0.0, 0.0, 1.0, 2.0, 0.0], "3", &[&first[..], &second, &third].concat());
    // At the radius, and beyond it.
    says(&[1.0, 0.0], "1", &[heading(0, 1, "1.0"), line(0, "1.0", "1.0")]);
    says(&[1.0, 0.0], "0.9999999999999999", &[heading(0, 0, "0.9999999999999999")]);
    // The square of the root of 13 is smaller, as both are rounded, and that of the next number is not: that one is shown.
    let [root, next] = ["3.605551275463989", "3.6055512754639896"];
    says(&[0.0, 3.0], root, &[heading(0, 0, root)]);
    says(&[0.0, 3.0], next, &[heading(0, 2, next), line(0, "13.0", next), line(1, "13.0", next)]);
    // Exact hits, of the other zero too.
    for (radius, shown) in [("0", "0.0"), ("-0", "-0.0"), ("1e-300", "1e-300")] {
        let said = [heading(0, 1, shown), line(0, "0.0", "0.0"), heading(1, 0, shown)];
        says(&[2.0, -0.0, 2f32.next_up(), 0.0], radius, &said);
    }
}

/// The blocks of a vector are those of its direction. The rotation leaves it as it is.
#[test]
fn what_lies_around_a_vector() {
    let folder = given("around-vector");
    folder.done(GIVEN);
    folder.write("vectors", &bytes32(&[3.0, 0.0, 0.0, 0.0, 0.0, 0.0, -1e-6, 0.0, 0.0, 0.0, 0.0, 0.0]));
    let says = |which: &str, said: &[String]| {
        assert_eq!(around(&folder, &format!("--vectors vectors {which} --radius 1.5")), said.concat());
    };
    let heading = |vector: usize, block, count| format!("vector {vector}, {}", heading(block, count, "1.5"));
    let first = [heading(0, 0, 1), line(0, "1.0", "1.0"), heading(0, 1, 0)];
    says("", &first);
    says("--vector 0", &first);
    let second = [heading(1, 0, 0), heading(1, 1, 1), line(1, "1.0", "1.0")];
    says("--vector 1", &second);
    says("--vector 1 --only 0", &second[..1]);
    says("--vector 1 --only 1", &second[1..]);
    let zeros = "around --codebook book --vectors vectors --vector 2 --radius 1.5";
    folder.fails(zeros, 1, "vectors: vector 2: refused by 13");
}

#[test]
fn what_cannot_be_looked_around() {
    let folder = trained("around-refused");
    for radius in ["nan", "inf", "-inf", "-1", "1e999", "-4e-324"] {
        for source in ["--vectors vectors", "--vectors vectors --vector 99 --only 3", "--blocks vectors"] {
            let said = "refused by 21: the radius is below zero or not finite";
            folder.fails(&format!("around --codebook book {source} --radius {radius}"), 1, said);
        }
    }
    let mut odd = values(16);
    odd[11] = f32::NEG_INFINITY;
    folder.write("odd", &bytes32(&odd));
    let vector = "around --codebook book --vectors odd --vector 1 --radius nan";
    folder.fails(vector, 1, "odd: vector 1: refused by 12: value 3");
    // Values are tested before the radius, and blocks in their order.
    folder.fails("around --codebook book --blocks odd --radius 1", 1, "odd: block 5: refused by 18: value 1 of input");
    folder.fails("around --codebook book --blocks odd --radius -1", 1, "--radius -1.0: refused by 21");
    folder.write("odd", &bytes32(&odd[10..]));
    folder.fails("around --codebook book --blocks odd --radius -1", 1, "odd: block 0: refused by 18: value 1 of input");
}

/// The codeword that a block is stored under lies within, wherever any does.
#[test]
fn the_chosen_codeword_lies_within() {
    let folder = trained("around-chosen");
    folder.done("encode --codebook book --vectors vectors --out codes");
    let (mut some, mut none) = (0, 0);
    for (vector, code) in folder.read("codes").chunks_exact(14).enumerate() {
        let frame = nuqtelya::parse_frame(code).expect("a code");
        let mut indices = [0; 4];
        nuqtelya::unpack_indices(frame.indices, 4, 2, &mut indices).expect("indices");
        let said = around(&folder, &format!("--vectors vectors --vector {vector} --radius 0.25"));
        let mut lines = said.lines().peekable();
        for (block, index) in indices.iter().enumerate() {
            let head = lines.next().expect("a block");
            let mut within = Vec::new();
            while let Some(line) = lines.next_if(|line| line.starts_with("  codeword ")) {
                within.push(line);
            }
            assert_eq!(head, format!("vector {vector}, block {block}: {} of 4 codewords within 0.25", within.len()));
            assert!(within.is_empty() || within.iter().any(|line| line.starts_with(&format!("  codeword {index}: "))));
            *(if within.is_empty() { &mut none } else { &mut some }) += 1;
        }
        assert_eq!(lines.next(), None);
    }
    assert!(some > 50 && none > 50, "{some} {none}");
}

/// More lines than are in memory at a time.
#[test]
fn many_codewords_lie_within() {
    let folder = Folder::new("around-many");
    folder.write("samples", &bytes64(values(3000).into_iter().map(f64::from)));
    let train = "train --dim 4 --block 2 --codewords 1500 --restarts 1 --iterations 1 --out book";
    folder.done(&format!("{train} --samples samples"));
    folder.write("block", &bytes32(&[0.5, 0.5]));
    let said = folder.done("around --codebook book --blocks block --radius 1e200");
    let (head, lines) = said.split_once('\n').expect("a line");
    assert_eq!(head, "block 0: 1500 of 1500 codewords within 1e200");
    let number = |line: &str| line.strip_prefix("  codeword ")?.split_once(':')?.0.parse::<usize>().ok();
    let mut numbers: Vec<usize> = lines.lines().map(|line| number(line).expect("a number")).collect();
    numbers.sort();
    assert_eq!(numbers, (0..1500).collect::<Vec<_>>());
}

#[test]
fn damage_is_found() {
    let folder = trained("damage");
    let book = folder.read("book");
    let encode = "encode --codebook other --vectors vectors --out codes";
    // Any byte changed or lost is found, whatever it belongs to.
    for place in (0..book.len()).step_by(5) {
        let mut changed = book.clone();
        changed[place] ^= 0x10;
        folder.write("other", &changed);
        assert!(matches!(folder.run(encode).status.code(), Some(1 | 3)), "byte {place} changed");
        folder.write("other", &book[..place]);
        folder.fails(encode, 3, "other");
    }
    folder.done("encode --codebook book --vectors vectors --out codes");
    let codes = folder.read("codes");
    folder.write("decoded", b"the old ones");
    for (place, said) in
        [(14, "refused by 8: compact frame: wrong magic"), (17, "refused by 8"), (26, "code 1: refused by 10")]
    {
        let mut changed = codes.clone();
        changed[place] ^= 0x80;
        folder.write("other", &changed);
        folder.fails("decode --codebook book --codes other --out decoded", 1, said);
    }
    assert_eq!(folder.read("decoded"), b"the old ones");
}

#[test]
fn damage_is_found_with_the_codebook() {
    let folder = trained("inspected");
    folder.done("encode --codebook book --vectors vectors --out codes");
    let mut codes = folder.read("codes");
    codes[0] ^= 0x80;
    folder.write("other", &codes);
    folder.fails("inspect other --codebook book", 1, "other: code 0: refused by 8: compact frame: wrong magic");
    folder.fails("inspect other --codebook nowhere", 3, "nowhere");
    folder.write("other", &folder.read("codes")[..7]);
    folder.fails("inspect other --codebook book", 3, "other: has 7 bytes");
    folder.fails("inspect vectors --codebook book", 3, "vectors: has 3200 bytes");
    // Who asks for doubles has codes too.
    folder.fails("inspect vectors --doubles", 1, "vectors: code 0: refused by 8: compact frame: wrong magic");
    folder.fails("inspect other --doubles", 3, "other: ends within code 0");
    // A codebook is no code, and is shown as what it is.
    for option in ["--codebook book", "--doubles"] {
        assert!(folder.done(&format!("inspect book {option}")).contains("book: a codebook"));
    }
}

/// A codebook with other bytes at a place, and the check sum that goes with them.
fn changed(book: &[u8], place: usize, bytes: &[u8]) -> Vec<u8> {
    let mut book = book[..book.len() - 8].to_vec();
    book[place..place + bytes.len()].copy_from_slice(bytes);
    summed(book)
}

fn summed(mut book: Vec<u8>) -> Vec<u8> {
    let add = |sum: u64, byte: &u8| (sum ^ u64::from(*byte)).wrapping_mul(0x100_0000_01b3);
    let sum = book.iter().fold(0xcbf2_9ce4_8422_2325, add);
    book.extend(sum.to_le_bytes());
    book
}

/// Where a codebook says which codebook won, by docs/FILES.md, with names of 20, 37 and 15 bytes.
const WINNER: usize = 185;

/// A codebook as version 1 has it: without the mark of the start that was kept.
fn version_1(book: &[u8]) -> Vec<u8> {
    let parts = [&book[..8], &[1, 0, 0, 0], &book[12..WINNER], &book[WINNER + 1..book.len() - 8]];
    summed(parts.concat())
}

#[test]
fn values_that_no_training_writes() {
    let folder = Folder::new("values");
    // Of two equal codewords one has no sample: it is repaired, in either restart.
    folder.write("samples", &bytes64([0.0, 0.0, 1.0, 0.0, 3.0, 0.0]));
    folder.write("start", &bytes64([1.0, 0.0, 1.0, 0.0]));
    folder.done(
        "train --dim 4 --block 2 --codewords 2 --samples samples --start start --restarts 2 --iterations 1 --out book",
    );
    assert!(folder.done("inspect book").contains("repaired: 2"));
    let book = folder.read("book");
    // The places by docs/FILES.md, with two events; a number there that is still read, and one that is not.
    let (policy, origin, event, codewords) = (140, WINNER + 21, WINNER + 25, WINNER + 25 + 2 * 44);
    for (place, fits, unfit, said) in [
        (policy, 1, 2, "other: its policy for empty cells is 2, not below 2"),
        (origin, 1, 2, "other: the origin of its samples is 2, not below 2"),
        (origin + 1, 1, 2, "other: the origin of its start is 2, not below 2"),
        (origin + 2, 0, 255, "other: the origin of its restart matrices is 255, not below 2"),
        (event, 1, 2, "other: the restart of event 0 is 2, not below 2"),
        (event + 44 + 4, 0, 1, "other: the round of event 1 is 1, not below 1"),
        (event + 8, 1, 2, "other: the empty cell of event 0 is 2, not below 2"),
        (event + 44 + 12, 1, 2, "other: the donor of event 1 is 2, not below 2"),
    ] {
        folder.write("other", &changed(&book, place, &[fits]));
        folder.done("inspect other");
        folder.write("other", &changed(&book, place, &[unfit]));
        folder.fails("inspect other", 3, said);
    }
    for value in [f32::NAN, f32::INFINITY] {
        folder.write("other", &changed(&book, codewords + 4, &value.to_le_bytes()));
        folder.fails("inspect other", 1, "other: its values: refused by 18: value 1 of codewords");
    }
    folder.write("other", &changed(&book, codewords + 4, &f32::MAX.to_le_bytes()));
    folder.done("inspect other");
}

/// A rotation that was handed in stands in the codebook, after two codewords of two values.
#[test]
fn a_stored_rotation_is_tested() {
    let folder = Folder::new("stored");
    folder.write("samples", &bytes64([1.0, 0.0, 3.0, 0.0, -1.0, 0.0]));
    let unit = [1., 0., 0., 0., 0., 1., 0., 0., 0., 0., 1., 0., 0., 0., 0., 1.];
    folder.write("rotation", &bytes64(unit));
    folder.done("train --dim 4 --block 2 --codewords 2 --samples samples --rotation rotation --restarts 1 --out book");
    let book = folder.read("book");
    let place = book.len() - 8 - 8 * 16 + 8 * 3;
    for value in [f64::NAN, f64::NEG_INFINITY, 1048576.0f64.next_up()] {
        folder.write("other", &changed(&book, place, &value.to_le_bytes()));
        folder.fails("inspect other", 1, "other: its values: refused by 18: value 3 of matri");
    }
    folder.write("other", &changed(&book, place, &1048576.0f64.to_le_bytes()));
    folder.done("inspect other");
}

#[test]
fn every_end_of_a_training_can_be_read() {
    let folder = Folder::new("ends");
    folder.write("samples", &bytes64([0.0, 1.0, 0.0, 3.0, 0.0, -1.0, 0.0, -3.0]));
    folder.write("swap", &bytes64([0.0, 1.0, 1.0, 0.0]));
    let train = "train --dim 4 --block 2 --codewords 2 --samples samples --start start --iterations 1 --out book";
    folder.write("vectors", &bytes32(&values(4 * 3)));
    for (start, options, won, repairs, version_1_says) in [
        (
            [1.0, 0.0, -1.0, 0.0],
            "--restarts 2 --matrices swap",
            "(restart 1 won)",
            "repaired: 1 (policy: split",
            "(restart 1 won)",
        ),
        (
            [0.0, 1.0, 0.0, -1.0],
            "--restarts 1 --empty-cells fail",
            "(restart 0 won)",
            "repaired: 0 (policy: refuse",
            "(restart 0 or the start: a file of version 1 does not say; by its errors restart 0)",
        ),
        (
            [0.0, 2.0, 0.0, -2.0],
            "--restarts 1",
            "(start kept)",
            "repaired: 0 (policy: split",
            "(restart 0 or the start: a file of version 1 does not say; by its errors the start)",
        ),
    ] {
        folder.write("start", &bytes64(start));
        assert!(folder.done(&format!("{train} {options}")).contains(won));
        let said = folder.done("inspect book");
        assert!(said.contains(won) && said.contains(repairs), "{said}");
        // A file of version 1 serves as it did, and says what it does not tell.
        folder.write("old", &version_1(&folder.read("book")));
        assert_eq!(folder.done("inspect old"), said.replacen("book", "old", 1).replace(won, version_1_says));
        folder.done("encode --codebook book --vectors vectors --out codes");
        folder.done("encode --codebook old --vectors vectors --out old-codes");
        assert_eq!(folder.read("old-codes"), folder.read("codes"));
    }
}

#[test]
fn winners_that_no_training_writes() {
    let folder = Folder::new("winners");
    folder.write("samples", &bytes64([0.0, 1.0, 0.0, 3.0, 0.0, -1.0, 0.0, -3.0]));
    folder.done("train --dim 4 --block 2 --codewords 2 --samples samples --restarts 3 --iterations 1 --out book");
    let book = folder.read("book");
    let with = |won: u8, restart: u32| {
        let mut bytes = vec![won];
        bytes.extend(restart.to_le_bytes());
        changed(&book, WINNER, &bytes)
    };
    for (won, restart, said) in [(0, 0, "(start kept)"), (1, 0, "(restart 0 won)"), (1, 2, "(restart 2 won)")] {
        folder.write("other", &with(won, restart));
        assert!(folder.done("inspect other").contains(said));
    }
    for restart in [3, u32::MAX] {
        folder.write("other", &with(1, restart));
        folder.fails("inspect other", 1, "other: its report: refused by 20");
        folder.write("other", &version_1(&with(1, restart)));
        folder.fails("inspect other", 1, "other: its report: refused by 20");
    }
    for (won, restart) in [(0, 1), (2, 0), (255, 2)] {
        folder.write("other", &with(won, restart));
        folder.fails("inspect other", 3, "other: has the winner");
    }
    for version in [0, 3] {
        folder.write("other", &changed(&book, 8, &[version]));
        folder.fails("inspect other", 3, "other: is a codebook of an unknown version");
    }
}

/// Runs the program under a shell that allows no file to grow beyond a few blocks: what a full disk does.
#[test]
fn a_full_disk_leaves_the_old_file() {
    let folder = trained("full");
    folder.write("codes", b"the old ones");
    folder.write("vectors", &bytes32(&values(8 * 2000)));
    let before = folder.names();
    let line =
        format!("trap '' XFSZ; ulimit -f 8; exec {PROGRAM} encode --codebook book --vectors vectors --out codes");
    let output = Command::new("sh").args(["-c", &line]).current_dir(&folder.0).output().expect("a run");
    let stderr = String::from_utf8_lossy(&output.stderr);
    assert_eq!(output.status.code(), Some(3), "{stderr}");
    assert!(stderr.contains("codes: cannot be written"), "{stderr}");
    assert_eq!((folder.names(), folder.read("codes")), (before, b"the old ones".to_vec()));
}

/// Runs the program under a shell that allows it too little memory, which Linux heeds. The places of 600,000 codes take
/// 26 MB, and 13 more for a moment.
#[cfg(target_os = "linux")]
#[test]
fn too_many_codes_for_the_memory() {
    let folder = Folder::new("memory");
    let codes: Vec<Vec<u8>> = (0..600_000).map(|index| code(&[0, 60], 32, &[index])).collect();
    folder.write("codes", &codes.concat());
    let line = format!("ulimit -v 40000; exec {PROGRAM} inspect codes");
    let output = Command::new("sh").args(["-c", &line]).current_dir(&folder.0).output().expect("a run");
    let stderr = String::from_utf8_lossy(&output.stderr);
    assert_eq!(output.status.code(), Some(4), "{stderr}");
    assert!(stderr.contains("no memory to find doubles beyond the first"), "{stderr}");
    assert!(folder.done("inspect codes").contains("600000 codes, of which 0 are doubles"));
}

/// A run that is stopped has written nothing under the output's name.
#[test]
fn an_interrupted_run_leaves_the_old_file() {
    let folder = trained("stopped");
    let book = folder.read("book");
    let words = format!("{TRAIN} --vectors vectors").replace("--iterations 5", "--iterations 100000 --restarts 1024");
    let mut command = Command::new(PROGRAM);
    command.args(words.split_whitespace()).current_dir(&folder.0).stdout(Stdio::null());
    let mut running = command.spawn().expect("a run");
    std::thread::sleep(Duration::from_millis(300));
    assert!(running.try_wait().expect("a state").is_none(), "the training is long");
    running.kill().expect("a stop");
    running.wait().expect("an end");
    assert_eq!(folder.read("book"), book);
    let left: Vec<String> = folder.names().into_iter().filter(|name| Path::new(name) != Path::new("book")).collect();
    assert_eq!(left, ["vectors"]);
}
