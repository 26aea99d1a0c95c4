//! The file's form: numbers with the low byte first, lists after their length (1 byte), answers before their results.

use oracle::{Answer, Value};

/// The first line. The program `replay` refuses a file with another.
const HEADER: &[u8] = b"fib-quant answers, format 1: crates/replay/README.md\n";

/// The functions, each at its kind less 1.
pub const NAMES: [&str; 11] = [
    "pack_indices",
    "unpack_indices",
    "wire_index_bits",
    "default_training_samples",
    "write_compact",
    "parse_compact",
    "mse",
    "apply",
    "apply_inverse",
    "nearest_index",
    "mse_for_codebook",
];

pub struct File {
    pub bytes: Vec<u8>,
    pub counts: [u64; NAMES.len()],
}

impl File {
    pub fn new() -> File {
        File { bytes: HEADER.to_vec(), counts: [0; NAMES.len()] }
    }

    /// Adds a record of function `name`.
    pub fn add(&mut self, name: &str, record: &Record) {
        let place = NAMES.iter().position(|known| *known == name).expect("a function");
        self.counts[place] += 1;
        self.bytes.push(place as u8 + 1);
        self.bytes.extend(&record.0);
    }
}

#[derive(Default)]
pub struct Record(Vec<u8>);

impl Record {
    pub fn byte(mut self, x: usize) -> Record {
        self.0.push(x.try_into().expect("a byte"));
        self
    }

    pub fn u32(mut self, x: u32) -> Record {
        self.0.extend(x.to_le_bytes());
        self
    }

    pub fn u64(mut self, x: u64) -> Record {
        self.0.extend(x.to_le_bytes());
        self
    }

    pub fn f64(self, x: f64) -> Record {
        assert!(!x.is_nan());
        self.u64(x.to_bits())
    }

    /// Values without their length.
    pub fn plain<T: Element>(self, values: &[T]) -> Record {
        values.iter().fold(self, |record, value| value.put(record))
    }

    /// Values after their length.
    pub fn list<T: Element>(self, values: &[T]) -> Record {
        assert!(values.len() <= T::MOST);
        self.byte(values.len()).plain(values)
    }

    /// Number 0 and the result, or the number and the two values of a refusal.
    pub fn answer<T>(self, answer: Answer<T>, result: impl FnOnce(Record, T) -> Record) -> Record {
        match answer {
            Ok(value) => result(self.byte(0), value),
            Err((number, values)) => {
                let whole = |place: usize| match values.get(place) {
                    None => 0,
                    Some(Value::Whole(value)) => *value,
                    Some(Value::Real(_)) => panic!("no recorded refusal has a real value"),
                };
                self.byte(number as usize).u64(whole(0)).u64(whole(1))
            }
        }
    }
}

/// What lists hold, and the length of the program's arrays.
pub trait Element: Copy {
    const MOST: usize;
    fn put(self, record: Record) -> Record;
}

impl Element for u8 {
    const MOST: usize = 64;
    fn put(self, record: Record) -> Record {
        record.byte(self.into())
    }
}

impl Element for u32 {
    const MOST: usize = 16;
    fn put(self, record: Record) -> Record {
        record.u32(self)
    }
}

impl Element for f32 {
    const MOST: usize = 8;
    fn put(self, record: Record) -> Record {
        assert!(!self.is_nan());
        record.u32(self.to_bits())
    }
}

impl Element for f64 {
    const MOST: usize = 32;
    fn put(self, record: Record) -> Record {
        record.f64(self)
    }
}
