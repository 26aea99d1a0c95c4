//! Two sides of one measurement, in turn.

use std::hint::black_box;
use std::time::{Duration, Instant};

/// A batch of calls takes at least this long, so that reading the clock does not count, and so that a side works from
/// caches that hold its own matrix and codewords, as a server does that reads many codes.
const BATCH: Duration = Duration::from_millis(50);

/// One side: makes so many calls and says how long they took.
pub type Side<'a> = Box<dyn FnMut(u32) -> Duration + 'a>;

/// A side whose calls are all work.
pub fn side<'a, T>(mut call: impl FnMut() -> T + 'a) -> Side<'a> {
    Box::new(move |calls| {
        let start = Instant::now();
        (0..calls).for_each(|_| {
            black_box(call());
        });
        start.elapsed()
    })
}

/// A side whose calls need something ready that is not measured.
pub fn prepared<'a, S, T>(mut prepare: impl FnMut() -> S + 'a, mut call: impl FnMut(S) -> T + 'a) -> Side<'a> {
    Box::new(move |calls| {
        let time = |_| {
            let ready = prepare();
            let start = Instant::now();
            black_box(call(ready));
            start.elapsed()
        };
        (0..calls).map(time).sum()
    })
}

/// Seconds a call on each side, and their ratios, over all rounds: sorted.
pub struct Measured {
    pub proved: Vec<f64>,
    pub rust: Vec<f64>,
    pub ratios: Vec<f64>,
}

/// Alternates between the sides until the time is over: at most 25 times, and at least three times, or once where a
/// round takes a second or more.
pub fn measure(time: Duration, mut proved: Side, mut rust: Side) -> Measured {
    let end = Instant::now() + time;
    let ((proved_calls, mut ours), (rust_calls, mut theirs)) = (batch(&mut proved), batch(&mut rust));
    // The calls that measured a batch count as a round only where another one would take too long.
    let long = ours + theirs >= Duration::from_secs(1);
    let mut measured = Measured { proved: Vec::new(), rust: Vec::new(), ratios: Vec::new() };
    loop {
        let rounds = measured.ratios.len();
        let enough = if long { 1 } else { 3 };
        if rounds == 25 || rounds >= enough && Instant::now() >= end {
            break;
        }
        if !(long && rounds == 0) {
            (ours, theirs) = (proved(proved_calls), rust(rust_calls));
        }
        let call = |time: Duration, calls: u32| time.as_secs_f64() / f64::from(calls);
        measured.proved.push(call(ours, proved_calls));
        measured.rust.push(call(theirs, rust_calls));
        measured.ratios.push(call(ours, proved_calls) / call(theirs, rust_calls));
    }
    for list in [&mut measured.proved, &mut measured.rust, &mut measured.ratios] {
        list.sort_by(f64::total_cmp);
    }
    measured
}

/// How many calls make a batch, and how long they took. Doubling warms the caches on the way.
fn batch(side: &mut Side) -> (u32, Duration) {
    let mut calls = 1;
    loop {
        let time = side(calls);
        if time >= BATCH || calls >= 1 << 24 {
            return (calls, time);
        }
        calls *= 2;
    }
}

pub fn median(sorted: &[f64]) -> f64 {
    let (low, high) = (sorted[(sorted.len() - 1) / 2], sorted[sorted.len() / 2]);
    (low + high) / 2.0
}

/// The middle half of the values.
pub fn quartiles(sorted: &[f64]) -> (f64, f64) {
    (sorted[(sorted.len() - 1) / 4], sorted[(3 * (sorted.len() - 1)).div_ceil(4)])
}

/// A time in the unit that suits it.
pub fn time(seconds: f64) -> String {
    let (value, unit) = match seconds {
        s if s < 1e-6 => (s * 1e9, "ns"),
        s if s < 1e-3 => (s * 1e6, "µs"),
        s if s < 1.0 => (s * 1e3, "ms"),
        s => (s, "s"),
    };
    match value {
        v if v < 10.0 => format!("{v:.2} {unit}"),
        v if v < 100.0 => format!("{v:.1} {unit}"),
        v => format!("{v:.0} {unit}"),
    }
}
