//! How two answers are compared, and how a difference is shown.

use nuqtelya::Event;
use oracle::inputs::Random;
use oracle::{Answer, Value};
use std::collections::BTreeMap;

/// Completed, or the first difference.
pub type Outcome = Result<(), String>;

pub struct Run {
    /// Whether the long runs are asked for.
    pub many: bool,
    pub random: Random,
    /// How many cases were completed (at 0) or refused by a number.
    pub numbers: [u64; 28],
    /// What else a case showed, and how often.
    seen: BTreeMap<&'static str, u64>,
}

impl Run {
    pub fn new(many: bool, seed: u64) -> Self {
        Run { many, random: Random::new(seed), numbers: [0; 28], seen: BTreeMap::new() }
    }

    /// `default` rounds, or 20 times as many in a long run.
    pub fn rounds(&self, default: u64) -> u64 {
        default * if self.many { 20 } else { 1 }
    }

    /// One case of function `what`: both sides are the same, or this is the difference.
    pub fn same<T: Same>(&mut self, what: &str, expected: &T, proved: &T, inputs: impl FnOnce() -> String) -> Outcome {
        if expected.same(proved) {
            self.numbers[expected.number() as usize] += 1;
            return Ok(());
        }
        Err(format!("{what} differs{}\n  expected: {}\n  proved: {}", inputs(), expected.hex(), proved.hex()))
    }

    pub fn see(&mut self, what: &'static str) {
        *self.seen.entry(what).or_default() += 1;
    }

    /// An area's end: these refusals, among others, came up, and this was seen.
    pub fn met(&self, numbers: &[usize], seen: &[&str]) -> Outcome {
        if let Some(number) = numbers.iter().find(|number| self.numbers[**number] == 0) {
            return Err(format!("no case is refused by {number}"));
        }
        match seen.iter().find(|what| !self.seen.contains_key(*what)) {
            Some(what) => Err(format!("no case shows: {what}")),
            None => Ok(()),
        }
    }

    /// How many cases were equal, how many of them were refused by which number, and what else was seen.
    pub fn counts(&self) -> String {
        let refused = (1..).zip(&self.numbers[1..]).filter(|(_, count)| **count > 0);
        let refused: Vec<String> = refused.map(|(number, count)| format!("{count} by {number}")).collect();
        let seen: Vec<String> = self.seen.iter().map(|(what, count)| format!("{what} {count}")).collect();
        let mut text = format!("{} cases equal", self.numbers.iter().sum::<u64>());
        for (name, parts) in [("refused", refused), ("seen", seen)] {
            if !parts.is_empty() {
                text.push_str(&format!("; {name}: {}", parts.join(", ")));
            }
        }
        text
    }
}

/// The inputs of a case by name, for `Run::same`.
#[macro_export]
macro_rules! inputs {
    ($($name:ident),*) => {
        || {
            let mut text = String::new();
            $(text.push_str(&format!("\n  {}: {}", stringify!($name), $crate::run::Same::hex(&$name)));)*
            text
        }
    };
}

/// What is compared: by bits, but any NaN is the same as any NaN.
pub trait Same {
    fn same(&self, other: &Self) -> bool;
    /// The bits in hexadecimal.
    fn hex(&self) -> String;
    /// Of an answer, the number of its refusal; 0 of all else.
    fn number(&self) -> u32 {
        0
    }
}

macro_rules! whole {
    ($($type:ty),*) => {$(
        impl Same for $type {
            fn same(&self, other: &Self) -> bool {
                self == other
            }
            fn hex(&self) -> String {
                format!("{:#x}", self)
            }
        }
    )*};
}

whole!(u8, u16, u32, u64, usize);

macro_rules! float {
    ($($type:ty),*) => {$(
        impl Same for $type {
            fn same(&self, other: &Self) -> bool {
                self.to_bits() == other.to_bits() || self.is_nan() && other.is_nan()
            }
            fn hex(&self) -> String {
                format!("{:#x} ({self:e})", self.to_bits())
            }
        }
    )*};
}

float!(f32, f64);

impl Same for () {
    fn same(&self, _: &Self) -> bool {
        true
    }
    fn hex(&self) -> String {
        "completed".into()
    }
}

impl Same for bool {
    fn same(&self, other: &Self) -> bool {
        self == other
    }
    fn hex(&self) -> String {
        self.to_string()
    }
}

impl Same for str {
    fn same(&self, other: &Self) -> bool {
        self == other
    }
    fn hex(&self) -> String {
        format!("{self:?}")
    }
}

impl<T: Same + ?Sized> Same for &T {
    fn same(&self, other: &Self) -> bool {
        (**self).same(other)
    }
    fn hex(&self) -> String {
        (**self).hex()
    }
}

/// So many items of a slice are shown.
const SHOWN: usize = 1024;

impl<T: Same> Same for [T] {
    fn same(&self, other: &Self) -> bool {
        self.len() == other.len() && self.iter().zip(other).all(|(a, b)| a.same(b))
    }
    fn hex(&self) -> String {
        let items: Vec<String> = self.iter().take(SHOWN).map(Same::hex).collect();
        let more = if self.len() > SHOWN { ", .." } else { "" };
        format!("{} of [{}{more}]", self.len(), items.join(", "))
    }
}

impl<T: Same> Same for Vec<T> {
    fn same(&self, other: &Self) -> bool {
        self.as_slice().same(other)
    }
    fn hex(&self) -> String {
        self.as_slice().hex()
    }
}

impl<A: Same, B: Same> Same for (A, B) {
    fn same(&self, other: &Self) -> bool {
        self.0.same(&other.0) && self.1.same(&other.1)
    }
    fn hex(&self) -> String {
        format!("{}, {}", self.0.hex(), self.1.hex())
    }
    fn number(&self) -> u32 {
        self.0.number()
    }
}

impl Same for Value {
    fn same(&self, other: &Self) -> bool {
        match (self, other) {
            (Value::Whole(a), Value::Whole(b)) => a == b,
            (Value::Real(a), Value::Real(b)) => a.same(b),
            _ => false,
        }
    }
    fn hex(&self) -> String {
        match self {
            Value::Whole(a) => a.hex(),
            Value::Real(a) => a.hex(),
        }
    }
}

impl Same for Event {
    fn same(&self, other: &Self) -> bool {
        let whole = |e: &Event| [e.restart, e.iteration, e.empty_cell, e.donor_cell, e.donor_count_before];
        whole(self) == whole(other)
            && self.donor_distortion.same(&other.donor_distortion)
            && self.residual_norm.same(&other.residual_norm)
            && self.split_epsilon.same(&other.split_epsilon)
    }
    fn hex(&self) -> String {
        format!("{self:?}")
    }
}

impl<T: Same> Same for Answer<T> {
    fn same(&self, other: &Self) -> bool {
        match (self, other) {
            (Ok(a), Ok(b)) => a.same(b),
            (Err((m, a)), Err((n, b))) => m == n && a.same(b),
            _ => false,
        }
    }
    fn hex(&self) -> String {
        match self {
            Ok(value) => value.hex(),
            Err((number, values)) => format!("refused by {number} with {}", values.hex()),
        }
    }
    fn number(&self) -> u32 {
        match self {
            Ok(_) => 0,
            Err((number, _)) => *number,
        }
    }
}

/// A refusal that the published Rust lacks, as document 01 has it.
pub fn refused<T>(number: u32, values: &[u64]) -> Answer<T> {
    Err((number, values.iter().map(|v| Value::Whole(*v)).collect()))
}

/// What lent buffers are filled with before a call.
pub trait Pattern: Copy {
    const PATTERN: Self;
}

impl Pattern for u8 {
    const PATTERN: u8 = 0xa5;
}

impl Pattern for u32 {
    const PATTERN: u32 = 0xa5a5_a5a5;
}

impl Pattern for u64 {
    const PATTERN: u64 = 0xa5a5_a5a5_a5a5_a5a5;
}

impl Pattern for f32 {
    const PATTERN: f32 = f32::from_bits(u32::PATTERN);
}

impl Pattern for f64 {
    const PATTERN: f64 = f64::from_bits(u64::PATTERN);
}

impl Pattern for Event {
    const PATTERN: Event = Event {
        restart: u32::PATTERN,
        iteration: u32::PATTERN,
        empty_cell: u32::PATTERN,
        donor_cell: u32::PATTERN,
        donor_count_before: u32::PATTERN,
        donor_distortion: f64::PATTERN,
        residual_norm: f64::PATTERN,
        split_epsilon: f64::PATTERN,
    };
}

/// A buffer to lend.
pub fn lent<T: Pattern>(len: usize) -> Vec<T> {
    vec![T::PATTERN; len]
}

/// What an answer must be, and what a buffer lent with `len` values must hold after it: the result, or what it held.
pub fn with_buffer<T: Pattern>(answer: Answer<Vec<T>>, len: usize) -> (Answer<()>, Vec<T>) {
    match answer {
        Ok(result) => (Ok(()), result),
        Err(refusal) => (Err(refusal), lent(len)),
    }
}
