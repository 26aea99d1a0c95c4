//! The quantiser as a program: trains codebooks, encodes vectors, decodes codes.
//!
//! The work is done by the proved library (package `nuqtelya`); here are files, options and words.

mod args;
mod around;
mod book;
mod coding;
mod demo;
mod doubles;
mod failure;
mod files;
mod help;
mod inputs;
mod inspect;
mod memory;
mod picture;
mod progress;
mod random;
mod report;
mod rotation;
mod samples;
mod train;

use failure::{Done, Failure};
use std::ffi::OsString;
use std::io::{stdout, ErrorKind, Write};
use std::process::ExitCode;

fn main() -> ExitCode {
    match run(std::env::args_os().skip(1).collect()) {
        Ok(()) => ExitCode::SUCCESS,
        Err(failure) => {
            let _ = writeln!(std::io::stderr(), "nuqtelya: {failure}");
            ExitCode::from(failure.exit_code())
        }
    }
}

fn run(words: Vec<OsString>) -> Done<()> {
    let command = words.first().map(|word| word.to_string_lossy().into_owned()).unwrap_or_default();
    if words.iter().any(|word| word == "--help" || word == "-h") || command == "help" {
        return say(help::text(&command));
    }
    let rest = words.into_iter().skip(1);
    match command.as_str() {
        "train" => train::command(rest),
        "encode" => coding::encode_command(rest),
        "decode" => coding::decode_command(rest),
        "convert" => coding::convert_command(rest),
        "inspect" => inspect::command(rest),
        "around" => around::command(rest),
        "demo" => demo::command(rest),
        "" => {
            Err(Failure::Usage("a command is missing: train, encode, decode, convert, inspect, around or demo".into()))
        }
        _ => Err(Failure::Usage(format!("unknown command {command}"))),
    }
}

/// Writes to stdout. Who closes it early, as `head` does, has read enough.
pub fn say(text: &str) -> Done<()> {
    let mut out = stdout().lock();
    match out.write_all(text.as_bytes()).and_then(|()| out.flush()) {
        Err(error) if error.kind() != ErrorKind::BrokenPipe => {
            Err(Failure::File(format!("stdout cannot be written: {error}")))
        }
        _ => Ok(()),
    }
}
