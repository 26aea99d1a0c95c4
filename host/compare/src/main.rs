//! Differential runs: the proved library against the published Rust and the processor.
//!
//! `compare [--many] [--seed N] [AREA ..]` runs the areas named, or all. Each prints how many cases were equal, or the
//! first difference with its inputs, and then the run ends with status 1.

mod areas;
mod rules;
mod run;

use std::process::ExitCode;

const USAGE: &str = "compare [--many] [--seed N] [AREA ..]";

fn main() -> ExitCode {
    let mut many = false;
    let mut seed = 1;
    let mut wanted = Vec::new();
    let mut args = std::env::args().skip(1);
    while let Some(arg) = args.next() {
        match arg.as_str() {
            "--many" => many = true,
            "--seed" => match args.next().and_then(|n| n.parse().ok()) {
                Some(n) => seed = n,
                None => return usage(),
            },
            name if areas::ALL.iter().any(|(known, _)| *known == name) => wanted.push(arg),
            _ => return usage(),
        }
    }
    for (name, area) in areas::ALL {
        if !wanted.is_empty() && !wanted.iter().any(|w| w == name) {
            continue;
        }
        let mut run = run::Run::new(many, seed);
        match area(&mut run) {
            Ok(()) => println!("{name}: {}", run.counts()),
            Err(difference) => {
                println!("{name}: {difference}");
                return ExitCode::FAILURE;
            }
        }
    }
    ExitCode::SUCCESS
}

fn usage() -> ExitCode {
    let names: Vec<&str> = areas::ALL.iter().map(|(name, _)| *name).collect();
    eprintln!("{USAGE}\nareas: {}", names.join(" "));
    ExitCode::from(2)
}
