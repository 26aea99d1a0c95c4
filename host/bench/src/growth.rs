//! How the cost of training and of codes grows with one number of the shape at a time.

use crate::codes::Codes;
use crate::data::{Shape, Training};
use crate::measure::{measure, median, time, Side};
use crate::{training, Bench};

pub fn tables(bench: &mut Bench) {
    println!("Each row doubles one number and leaves the others. A factor is that side's time beside the row above.\n");
    println!("| What | Shape | Proved | Factor | Rust | Factor | Ratio |\n|---|---|---|---|---|---|---|");
    let refined = |step: &dyn Fn(usize) -> Shape, bench: &mut Bench| {
        let mut before = None;
        for size in [1, 2, 4, 8] {
            let shape = step(size);
            let data = Training::new(&shape, &mut bench.random);
            let name = format!("k {}, N {}, S {}", shape.k, shape.n, shape.s);
            before = Some(row(bench, "refine, R 1, I 2", &name, training::refine(&shape, &data, 2), before));
        }
    };
    refined(&|size| Shape { d: 64, k: 4, n: 32, s: 1000 * size }, bench);
    refined(&|size| Shape { d: 64, k: 4, n: 16 * size, s: 2000 }, bench);
    refined(&|size| Shape { d: 64, k: 2 * size, n: 64, s: 2000 }, bench);
    coded(bench, "encode", Codes::encode);
    coded(bench, "decode", Codes::decode);
}

fn coded(bench: &mut Bench, what: &str, sides: impl for<'a> Fn(&'a Codes) -> (Side<'a>, Side<'a>)) {
    let mut before = None;
    for d in [128, 256, 512, 1024] {
        let shape = Shape::new(d, 8, 256);
        let codes = Codes::new(bench, &shape);
        before = Some(row(bench, what, &format!("d {d}, k 8, N 256"), sides(&codes), before));
    }
}

/// Prints a row, and gives the two times.
fn row(bench: &Bench, what: &str, shape: &str, (proved, rust): (Side, Side), before: Option<[f64; 2]>) -> [f64; 2] {
    let measured = measure(bench.time / 2, proved, rust);
    let now = [median(&measured.proved), median(&measured.rust)];
    let factor = |at: usize| before.map_or(String::new(), |before: [f64; 2]| format!("{:.2}", now[at] / before[at]));
    println!(
        "| {what} | {shape} | {} | {} | {} | {} | {:.2} |",
        time(now[0]),
        factor(0),
        time(now[1]),
        factor(1),
        median(&measured.ratios)
    );
    now
}
