//! Samples and codewords of two values as a picture: characters for the terminal, and SVG.

use std::fmt::Write;

const COLUMNS: usize = 72;
const ROWS: usize = 28;

/// How many samples stand behind a character: none, few, some, many.
const SHADES: [char; 4] = [' ', '.', ':', '+'];

/// Half the side of the square that is shown.
fn reach(samples: &[f64]) -> f64 {
    samples.iter().fold(1e-9, |most: f64, value| most.max(value.abs()))
}

/// Samples by how dense they are, and codewords as `O`.
pub fn characters(samples: &[f64], codewords: &[f32]) -> String {
    let reach = reach(samples);
    let place = |x: f64, y: f64| {
        let part = |value: f64, steps: usize| (((value / reach + 1.0) / 2.0 * steps as f64) as usize).min(steps - 1);
        // The second value points up.
        part(-y, ROWS) * COLUMNS + part(x, COLUMNS)
    };
    let mut counts = vec![0usize; ROWS * COLUMNS];
    samples.chunks_exact(2).for_each(|pair| counts[place(pair[0], pair[1])] += 1);
    let mut cells: Vec<char> = counts.iter().map(|count| SHADES[(*count).min(3)]).collect();
    codewords.chunks_exact(2).for_each(|pair| cells[place(pair[0].into(), pair[1].into())] = 'O');
    cells.chunks_exact(COLUMNS).map(|row| format!("{}\n", row.iter().collect::<String>().trim_end())).collect()
}

/// Samples in the colour of their cell, the start as rings, and the codewords as discs.
pub fn svg(samples: &[f64], cells: &[u32], start: &[f64], codewords: &[f32]) -> String {
    const SIDE: f64 = 800.0;
    let reach = reach(samples) * 1.05;
    let x = |value: f64| (value / reach + 1.0) / 2.0 * SIDE;
    let y = |value: f64| x(-value);
    let mut text = format!(
        "<svg xmlns=\"http://www.w3.org/2000/svg\" viewBox=\"0 0 {SIDE} {SIDE}\">\n<rect width=\"{SIDE}\" height=\"{SIDE}\" fill=\"white\"/>\n"
    );
    for (pair, cell) in samples.chunks_exact(2).zip(cells) {
        // Neighbouring numbers get colours far apart.
        let colour = cell * 137 % 360;
        let (x, y) = (x(pair[0]), y(pair[1]));
        let _ = writeln!(text, "<circle cx=\"{x:.1}\" cy=\"{y:.1}\" r=\"2.5\" fill=\"hsl({colour},70%,60%)\"/>");
    }
    for pair in start.chunks_exact(2) {
        let (x, y) = (x(pair[0]), y(pair[1]));
        let _ = writeln!(text, "<circle cx=\"{x:.1}\" cy=\"{y:.1}\" r=\"6\" fill=\"none\" stroke=\"gray\"/>");
    }
    for pair in codewords.chunks_exact(2) {
        let (x, y) = (x(pair[0].into()), y(pair[1].into()));
        let _ = writeln!(text, "<circle cx=\"{x:.1}\" cy=\"{y:.1}\" r=\"6\" fill=\"black\"/>");
    }
    text.push_str("</svg>\n");
    text
}
