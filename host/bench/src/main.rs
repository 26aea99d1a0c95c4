//! Every entry point of the proved library beside the published Rust's: the tables of docs/PERFORMANCE.md, on stdout.
//!
//! Both sides run in one process and in turn. Before training and codes are measured both sides' answers are held to be
//! the same.

mod codes;
mod data;
mod growth;
mod measure;
mod small;
mod training;

use data::Shape;
use measure::{median, quartiles, time, Measured, Side};
use oracle::inputs::Random;
use std::time::Duration;

/// How the run goes.
pub struct Bench {
    /// For each row.
    pub time: Duration,
    pub random: Random,
}

impl Bench {
    /// Measures and prints a row.
    pub fn row(&mut self, name: &str, shape: &str, proved: Side, rust: Side) -> Measured {
        let measured = measure::measure(self.time, proved, rust);
        let (low, high) = quartiles(&measured.ratios);
        println!(
            "| {name} | {shape} | {} | {} | {:.2} | {low:.2} to {high:.2} | {} |",
            time(median(&measured.proved)),
            time(median(&measured.rust)),
            median(&measured.ratios),
            measured.ratios.len()
        );
        measured
    }
}

pub const HEAD: &str =
    "| Entry point | Shape | Proved | Rust | Ratio | Middle half of the ratios | Rounds |\n|---|---|---|---|---|---|---|";

const USAGE: &str =
    "bench [--time MILLISECONDS]: time for each row (default 1000); a row of long calls takes what it needs";

fn main() {
    let words: Vec<String> = std::env::args().skip(1).collect();
    let millis = match words.iter().map(String::as_str).collect::<Vec<_>>()[..] {
        [] => Some(1000),
        ["--time", millis] => millis.parse().ok(),
        _ => None,
    };
    let Some(millis) = millis else {
        eprintln!("{USAGE}");
        std::process::exit(2);
    };
    let mut bench = Bench { time: Duration::from_millis(millis), random: Random::new(1) };
    let shapes = [Shape::new(64, 4, 32), Shape::new(768, 8, 256), Shape::new(1024, 16, 4096)];

    println!("{}\n", machine());
    println!("### Training\n\n{HEAD}");
    shapes.iter().for_each(|shape| training::rows(&mut bench, shape));
    println!("\n### Codes\n\n{HEAD}");
    shapes.iter().for_each(|shape| codes::rows(&mut bench, shape));
    println!("\n### A lookup of 430 ms\n");
    codes::lookups(&mut bench, &shapes);
    println!("\n### The smaller entry points\n\n{HEAD}");
    small::rows(&mut bench);
    println!("\n### How cost grows\n");
    growth::tables(&mut bench);
}

/// Processor, compiler and kit.
fn machine() -> String {
    let cpu = std::fs::read_to_string("/proc/cpuinfo").unwrap_or_default();
    let model = cpu.lines().find_map(|line| line.strip_prefix("model name")?.split_once(": "));
    let cores = std::thread::available_parallelism().map_or(1, usize::from);
    let kit = std::process::Command::new("rt").arg("version").output();
    let kit = kit.ok().and_then(|output| String::from_utf8(output.stdout).ok());
    format!(
        "Machine: {}, {cores} processors, {} {}. Rust: {}, release, no target features. Rattle: {}.",
        model.map_or("unknown processor", |(_, model)| model),
        std::env::consts::OS,
        std::env::consts::ARCH,
        env!("COMPILER"),
        kit.as_deref().map_or("kit unknown", str::trim)
    )
}
