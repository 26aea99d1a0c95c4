//! The published errors as document 01's numbers and values.

use crate::error::FibQuantError;

/// A value that comes back with a refusal.
#[derive(Debug, Clone, Copy)]
pub enum Value {
    Whole(u64),
    Real(f64),
}

/// The number of document 01's table and the values of its row.
pub type Refusal = (u32, Vec<Value>);

pub type Answer<T> = std::result::Result<T, Refusal>;

/// A refusal whose values are all whole numbers.
pub fn refused(number: u32, values: &[u64]) -> Refusal {
    (number, values.iter().map(|v| Value::Whole(*v)).collect())
}

/// The number and values of a published error. Values that the error does not name (15, 16 and the place of 18) are left
/// to the probe; a kind without a number lies outside the domain.
pub fn refusal(error: FibQuantError) -> Refusal {
    use FibQuantError::*;
    match error {
        ZeroDimension => refused(1, &[]),
        InvalidBlockDim { ambient_dim, block_dim } => refused(2, &[ambient_dim as u64, block_dim as u64]),
        DimensionNotDivisible { ambient_dim, block_dim } => refused(3, &[ambient_dim as u64, block_dim as u64]),
        InvalidCodebookSize(n) => refused(4, &[n as u64]),
        ResourceLimitExceeded(_) => refused(5, &[]),
        IndexOutOfRange { index, codebook_size } => refused(11, &[u64::from(index), u64::from(codebook_size)]),
        NonFiniteInput(place) => refused(12, &[place as u64]),
        ZeroNorm => refused(13, &[]),
        CorruptPayload(text) => corrupt(&text),
        EmptyCellRepairFailed(text) => empty_cell(&text),
        NumericalFailure(text) if text.starts_with("empty Lloyd") => refused(1, &[]),
        other => panic!("outside the domain: {other:?}"),
    }
}

/// How the texts of CorruptPayload begin, with number and values.
const TEXTS: [(&str, u32, &[u64]); 34] = [
    ("profile schema_version", 6, &[1]),
    ("paper profile requires fp16", 6, &[2]),
    ("paper profile requires canonical", 6, &[3]),
    ("rotation_algorithm_version", 6, &[4]),
    ("wire_index_bits", 6, &[5]),
    ("paper_rate_bits_per_coord", 6, &[6]),
    ("wire_bits_per_coord", 6, &[7]),
    ("unsupported radius", 6, &[8]),
    ("lloyd_restarts", 6, &[9]),
    ("lloyd_iterations", 6, &[10]),
    ("training_samples", 6, &[11]),
    ("initial codebook has", 7, &[1]),
    ("codebook has", 7, &[4]),
    ("input dimension", 7, &[5]),
    ("rotation expected dimension", 7, &[5]),
    ("metric length", 7, &[12]),
    ("compact FibCodeV1 too short", 8, &[1]),
    ("compact FibCodeV1 bad magic", 8, &[2]),
    ("compact FibCodeV1 version", 8, &[3]),
    ("compact FibCodeV1 truncated", 8, &[4]),
    ("compact FibCodeV1 indices", 8, &[5]),
    ("invalid bit width", 9, &[1]),
    ("payload has", 9, &[2]),
    ("nonzero fixed-rate padding", 9, &[3]),
    ("norm must be", 10, &[]),
    ("norm cannot be", 10, &[]),
    ("fp16 norm length", 10, &[]),
    ("invalid fp16 norm", 10, &[]),
    ("encoded header", 17, &[]),
    ("codebook contains non-finite", 18, &[4]),
    ("lloyd report schema_version", 20, &[1]),
    ("lloyd report does not match", 20, &[1]),
    ("lloyd report contains non-finite", 20, &[2]),
    ("lloyd repair event count", 20, &[3]),
];

fn corrupt(text: &str) -> Refusal {
    let (_, number, values) = TEXTS
        .iter()
        .find(|(start, _, _)| text.starts_with(start))
        .unwrap_or_else(|| panic!("outside the domain: {text}"));
    let mut refusal = refused(*number, values);
    if *number == 6 && (values[0] == 6 || values[0] == 7) {
        // The second word is the rate given, the last one the rate expected; both are printed so that they read back.
        let words: Vec<&str> = text.split(' ').collect();
        for word in [words[1], words[words.len() - 1]] {
            refusal.1.push(Value::Real(word.parse().expect("a rate")));
        }
    }
    refusal
}

fn empty_cell(text: &str) -> Refusal {
    if text.starts_with("no donor") {
        refused(15, &[])
    } else if text.starts_with("donor residual") {
        refused(16, &[])
    } else {
        // The first word is the number of empty cells.
        let count = text.split(' ').next().and_then(|word| word.parse().ok());
        refused(14, &[count.expect("a count")])
    }
}
