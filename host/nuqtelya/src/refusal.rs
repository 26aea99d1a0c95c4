//! Refusals: document 01's table of numbers, and 21 and 27 of document 02, with the values of each row and words for them.

use std::fmt;

/// Why a call was refused: a number of document 01's table, or document 02's 21 or 27, and the values of its row.
///
/// A refused call leaves the lent buffers as they were, except that 14, 15, 16 and 19 zero work buffers and event slots,
/// and 12 from decoding zeroes the float work.
#[derive(Debug, Clone, Copy, PartialEq)]
pub struct Refusal {
    number: u32,
    whole: [u64; 2],
    real: [f64; 2],
}

impl Refusal {
    /// What no row of the table has: the library that was linked is not the one that these functions are written for.
    pub(crate) const FOREIGN: Refusal = Refusal { number: u32::MAX, whole: [0; 2], real: [0.0; 2] };

    pub(crate) fn new(number: u32, whole: [u64; 4], real: [f64; 2]) -> Refusal {
        if matches!(number, 1..=21 | 27) {
            Refusal { number, whole: [whole[0], whole[1]], real }
        } else {
            Refusal::FOREIGN
        }
    }

    /// How many whole and real values the row of `number` has; a rate that disagrees comes with two.
    pub(crate) fn row(number: u32, first: u64) -> (usize, usize) {
        match number {
            2 | 3 | 11 | 18 => (2, 0),
            6 if first == 6 || first == 7 => (1, 2),
            4 | 6 | 7 | 8 | 9 | 12 | 14 | 15 | 16 | 19 | 20 => (1, 0),
            _ => (0, 0),
        }
    }

    /// The number in document 01's table, 1 to 20, or 21 or 27, which document 02 adds; or `u32::MAX`, if the answer is none
    /// of these: then the library that was linked is not the one that these functions are written for.
    pub fn number(&self) -> u32 {
        self.number
    }

    /// The whole values of the row, such as d and k, or a slice and a place in it.
    pub fn values(&self) -> &[u64] {
        &self.whole[..Refusal::row(self.number, self.whole[0]).0]
    }

    /// For a rate that disagrees (6, fields 6 and 7): the value given and the value expected.
    pub fn rates(&self) -> Option<(f64, f64)> {
        (Refusal::row(self.number, self.whole[0]).1 == 2).then_some((self.real[0], self.real[1]))
    }
}

const FIELDS: [&str; 11] = [
    "schema",
    "norm format",
    "source mode",
    "rotation algorithm",
    "wire bits",
    "paper rate",
    "wire rate",
    "radius and direction method",
    "restarts",
    "iterations",
    "training samples",
];
const SLICES: [&str; 12] = [
    "initial codebook",
    "samples",
    "matrices",
    "codewords",
    "input",
    "output",
    "float work",
    "integer work",
    "event slots",
    "assignments",
    "norm payload",
    "right side",
];
const FRAME_SITES: [&str; 5] =
    ["under 11 bytes", "wrong magic", "unknown version", "norm cut off", "wrong length of the indices"];
const PACKED_SITES: [&str; 3] = ["width not 1 to 32", "wrong length", "padding bit set"];
const REPORT_SITES: [&str; 3] =
    ["schema, settings or winner disagree with the profile", "an error is not finite", "repairs and events disagree"];

/// The name at a place that counts from 1.
fn name<'a>(names: &[&'a str], place: u64) -> &'a str {
    let place = usize::try_from(place).unwrap_or(0);
    names.get(place.wrapping_sub(1)).copied().unwrap_or("unnamed")
}

impl fmt::Display for Refusal {
    fn fmt(&self, f: &mut fmt::Formatter) -> fmt::Result {
        let [a, b] = self.whole;
        match self.number {
            1 => write!(f, "1: there is no dimension or no value"),
            2 => write!(f, "2: block dimension {b} does not fit ambient dimension {a}"),
            3 => write!(f, "3: ambient dimension {a} is not divisible by block dimension {b}"),
            4 => write!(f, "4: codebook size {a} is not allowed"),
            5 => write!(f, "5: a resource limit is exceeded"),
            6 => {
                write!(f, "6: profile field unfit: {}", name(&FIELDS, a))?;
                match self.rates() {
                    Some((given, expected)) => write!(f, " {given}, expected {expected}"),
                    None => Ok(()),
                }
            }
            7 => write!(f, "7: wrong length: {}", name(&SLICES, a)),
            8 => write!(f, "8: compact frame: {}", name(&FRAME_SITES, a)),
            9 => write!(f, "9: packed indices: {}", name(&PACKED_SITES, a)),
            10 => write!(f, "10: norm not codable or not valid"),
            11 => write!(f, "11: index {a} out of range, bound {b}"),
            12 => write!(f, "12: value {a} is not finite"),
            13 => write!(f, "13: the norm is zero"),
            14 => write!(f, "14: {a} empty cells under the policy that fails closed"),
            15 => write!(f, "15: no donor for empty cell {a}"),
            16 => write!(f, "16: the residual of donor {a} has no direction"),
            17 => write!(f, "17: the code's header disagrees with the profile"),
            18 => write!(f, "18: value {b} of {} is not finite or too large", name(&SLICES, a)),
            19 => write!(f, "19: a repair finds all {a} event slots used"),
            20 => write!(f, "20: report: {}", name(&REPORT_SITES, a)),
            21 => write!(f, "21: the radius is below zero or not finite"),
            27 => write!(f, "27: the norm is not exact in binary16"),
            _ => write!(f, "an answer that the table of refusals does not have"),
        }
    }
}

impl std::error::Error for Refusal {}
