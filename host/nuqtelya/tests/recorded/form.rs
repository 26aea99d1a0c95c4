//! The form of recorded.bin, for the package `record`, which writes it, and for the test, which replays it.
//!
//! The file is its first line and then `File`. A record is its members one after another; numbers have their low byte
//! first, floats are given by their bits, a list comes after its length (4 bytes), and an answer after a byte that is 0
//! where it is a result and 1 where it is a refusal.

const FIRST_LINE: &[u8] = b"fib-quant answers for training and codes, format 1: host/README.md\n";

/// What the file holds of a kind: how many records, and the numbers by which some of them are refused.
pub struct Kind {
    pub name: &'static str,
    pub count: usize,
    pub refusals: &'static [u8],
}

pub const UPDATE: Kind = Kind { name: "update", count: 160, refusals: &[14, 15, 16] };
pub const REFINE: Kind = Kind { name: "refine", count: 100, refusals: &[1, 2, 3, 4, 5, 6, 7, 14, 16] };
pub const ENCODE: Kind = Kind { name: "encode", count: 160, refusals: &[1, 2, 3, 4, 5, 6, 7, 10, 12, 13, 18] };
pub const DECODE: Kind =
    Kind { name: "decode", count: 180, refusals: &[1, 2, 3, 4, 5, 6, 7, 8, 9, 10, 11, 12, 17, 18] };

impl Kind {
    /// Fails unless these are the answers that the file has to hold, each by the number of its refusal or 0.
    pub fn check(&self, answers: &[u8]) {
        assert_eq!(answers.len(), self.count, "records of {}", self.name);
        assert!(answers.contains(&0), "{} is never completed", self.name);
        for number in self.refusals {
            assert!(answers.contains(number), "{} is never refused by {number}", self.name);
        }
    }
}

pub trait Form: Sized {
    fn put(&self, bytes: &mut Vec<u8>);

    /// Takes a value from the front. None where the bytes end before it does, or have no such form.
    fn take(bytes: &mut &[u8]) -> Option<Self>;
}

/// Declares records by their members.
macro_rules! records {
    ($($(#[$comment:meta])* $name:ident { $($member:ident: $type:ty,)* })*) => {$(
        $(#[$comment])*
        #[derive(Debug, Clone)]
        pub struct $name {
            $(pub $member: $type,)*
        }

        impl Form for $name {
            fn put(&self, bytes: &mut Vec<u8>) {
                $(self.$member.put(bytes);)*
            }

            fn take(bytes: &mut &[u8]) -> Option<Self> {
                Some($name { $($member: Form::take(bytes)?,)* })
            }
        }
    )*};
}

records! {
    File {
        updates: Vec<Update>,
        trainings: Vec<Training>,
        codings: Vec<Coding>,
    }

    /// One update, called alone. The Rust has no slots; there are always enough of them.
    Update {
        codebook_size: u64,
        block_dim: u64,
        policy: u8,
        restart: u32,
        iteration: u32,
        codebook: Vec<f64>,
        samples: Vec<f64>,
        assignments: Vec<u32>,
        slots: u32,
        answer: Answer<Updated>,
    }

    Updated {
        codebook: Vec<f64>,
        repairs: u32,
        events: Vec<Event>,
    }

    Training {
        profile: Profile,
        initial: Vec<f64>,
        samples: Vec<f64>,
        matrices: Vec<f64>,
        slots: u32,
        answer: Answer<Trained>,
    }

    Trained {
        codewords: Vec<f32>,
        report: Report,
        events: Vec<Event>,
    }

    /// Vectors and frames under one profile.
    Coding {
        profile: Profile,
        matrix: Vec<f64>,
        codewords: Vec<f32>,
        encodings: Vec<Encoding>,
        decodings: Vec<Decoding>,
    }

    Encoding {
        input: Vec<f32>,
        answer: Answer<Vec<u8>>,
    }

    Decoding {
        frame: Vec<u8>,
        answer: Answer<Vec<f32>>,
    }

    /// A number of document 01's table with its values: whole ones, and the two rates of a rate that disagrees.
    Refused {
        number: u8,
        values: Vec<u64>,
        rates: Vec<f64>,
    }

    Event {
        restart: u32,
        iteration: u32,
        empty_cell: u32,
        donor_cell: u32,
        donor_count_before: u32,
        donor_distortion: f64,
        residual_norm: f64,
        split_epsilon: f64,
    }

    Report {
        restarts: u32,
        iterations: u32,
        training_samples: u32,
        init_mse: f64,
        best_mse: f64,
        best_restart: u32,
        empty_cells_repaired: u32,
        events_used: u32,
        seed: u64,
    }

    Profile {
        schema: Vec<u8>,
        ambient_dim: u32,
        block_dim: u32,
        codebook_size: u32,
        log2: f64,
        paper_rate: f64,
        wire_index_bits: u8,
        wire_rate: f64,
        norm_format: u8,
        rotation_seed: u64,
        rotation_algorithm: Vec<u8>,
        codebook_seed: u64,
        source_mode: u8,
        radius_method: u8,
        direction_method: u8,
        restarts: u32,
        iterations: u32,
        training_samples: u32,
        empty_cell_policy: u8,
    }
}

pub type Answer<T> = Result<T, Refused>;

impl File {
    pub fn bytes(&self) -> Vec<u8> {
        let mut bytes = FIRST_LINE.to_vec();
        self.put(&mut bytes);
        bytes
    }

    /// The records, if the bytes hold them and nothing else.
    pub fn read(bytes: &[u8]) -> Option<File> {
        let mut rest = bytes.strip_prefix(FIRST_LINE)?;
        let file = File::take(&mut rest)?;
        rest.is_empty().then_some(file)
    }

    /// Fails unless it holds what it has to.
    pub fn check(&self) {
        UPDATE.check(&self.updates.iter().map(|job| number(&job.answer)).collect::<Vec<u8>>());
        REFINE.check(&self.trainings.iter().map(|job| number(&job.answer)).collect::<Vec<u8>>());
        let encodings = self.codings.iter().flat_map(|coding| &coding.encodings);
        ENCODE.check(&encodings.map(|job| number(&job.answer)).collect::<Vec<u8>>());
        let decodings = self.codings.iter().flat_map(|coding| &coding.decodings);
        DECODE.check(&decodings.map(|job| number(&job.answer)).collect::<Vec<u8>>());
    }
}

/// The number of the refusal, or 0.
pub fn number<T>(answer: &Answer<T>) -> u8 {
    answer.as_ref().map_or_else(|refused| refused.number, |_| 0)
}

macro_rules! numbers {
    ($($type:ty),*) => {$(
        impl Form for $type {
            fn put(&self, bytes: &mut Vec<u8>) {
                bytes.extend(self.to_le_bytes());
            }

            fn take(bytes: &mut &[u8]) -> Option<Self> {
                let (first, rest) = bytes.split_first_chunk()?;
                *bytes = rest;
                Some(Self::from_le_bytes(*first))
            }
        }
    )*};
}

numbers!(u8, u32, u64, f32, f64);

impl<T: Form> Form for Vec<T> {
    fn put(&self, bytes: &mut Vec<u8>) {
        (self.len() as u32).put(bytes);
        self.iter().for_each(|item| item.put(bytes));
    }

    fn take(bytes: &mut &[u8]) -> Option<Self> {
        (0..u32::take(bytes)?).map(|_| T::take(bytes)).collect()
    }
}

impl<T: Form> Form for Answer<T> {
    fn put(&self, bytes: &mut Vec<u8>) {
        match self {
            Ok(result) => {
                bytes.push(0);
                result.put(bytes);
            }
            Err(refused) => {
                bytes.push(1);
                refused.put(bytes);
            }
        }
    }

    fn take(bytes: &mut &[u8]) -> Option<Self> {
        match u8::take(bytes)? {
            0 => T::take(bytes).map(Ok),
            1 => Refused::take(bytes).map(Err),
            _ => None,
        }
    }
}
