//! A trained codebook as a file: docs/FILES.md has its layout.

use crate::coding::check_values;
use crate::failure::{Done, Failure};
use crate::files::{Input, Output};
use crate::rotation::{self, Rule};
use nuqtelya::{Event, Profile, Report, Winner, MAX_EVENT_SLOTS, PROFILE_SCHEMA, REPORT_SCHEMA, ROTATION_ALGORITHM};
use std::fmt::Display;
use std::path::Path;

pub const MAGIC: [u8; 8] = *b"NUQTBOOK";
/// Version 1 has no mark of the start that was kept, and is still read.
const VERSION: u32 = 2;

/// The bytes of an event: five numbers of four, three of eight.
const EVENT_LEN: u64 = 44;

/// Which parts of the training were made by the program's rules and not handed in.
#[derive(Debug, Clone, Copy, PartialEq)]
pub struct Made {
    pub samples: bool,
    pub start: bool,
    pub matrices: bool,
}

#[derive(Debug, PartialEq)]
pub struct Book {
    pub profile: Profile<'static>,
    pub report: Report,
    /// Whether a winner 0 is restart 0 and nothing else: in version 1 it may be the start.
    pub marks_start: bool,
    pub made: Made,
    pub rule: Rule,
    pub events: Vec<Event>,
    pub codewords: Vec<f32>,
    /// d × d; what the rule makes of the profile's rotation seed, unless it was handed in.
    pub matrix: Vec<f64>,
}

impl Book {
    pub fn write(&self, path: &Path) -> Done<()> {
        let mut out = Summed::new(Output::create(path)?);
        out.bytes(&MAGIC)?;
        out.u32(VERSION)?;
        self.write_profile(&mut out)?;
        self.write_report(&mut out)?;
        for made in [self.made.samples, self.made.start, self.made.matrices] {
            out.bytes(&[u8::from(made)])?;
        }
        out.bytes(&[self.rule as u8])?;
        for event in &self.events {
            for number in [event.restart, event.iteration, event.empty_cell, event.donor_cell, event.donor_count_before]
            {
                out.u32(number)?;
            }
            for value in [event.donor_distortion, event.residual_norm, event.split_epsilon] {
                out.f64(value)?;
            }
        }
        self.codewords.iter().try_for_each(|value| out.bytes(&value.to_le_bytes()))?;
        if self.rule == Rule::Stored {
            self.matrix.iter().try_for_each(|value| out.f64(*value))?;
        }
        let sum = out.sum.0;
        out.file.bytes(&sum.to_le_bytes())?;
        out.file.finish()
    }

    fn write_profile(&self, out: &mut Summed<Output>) -> Done<()> {
        let p = &self.profile;
        out.text(p.schema)?;
        [p.ambient_dim, p.block_dim, p.codebook_size].into_iter().try_for_each(|number| out.u32(number))?;
        out.f64(p.log2)?;
        out.f64(p.paper_rate)?;
        out.bytes(&[p.wire_index_bits])?;
        out.f64(p.wire_rate)?;
        out.bytes(&[p.norm_format])?;
        out.u64(p.rotation_seed)?;
        out.text(p.rotation_algorithm)?;
        out.u64(p.codebook_seed)?;
        out.bytes(&[p.source_mode, p.radius_method, p.direction_method])?;
        [p.restarts, p.iterations, p.training_samples].into_iter().try_for_each(|number| out.u32(number))?;
        out.bytes(&[p.empty_cell_policy])
    }

    fn write_report(&self, out: &mut Summed<Output>) -> Done<()> {
        let r = &self.report;
        out.text(REPORT_SCHEMA)?;
        [r.restarts, r.iterations, r.training_samples].into_iter().try_for_each(|number| out.u32(number))?;
        out.f64(r.init_mse)?;
        out.f64(r.best_mse)?;
        let (won, restart) = match r.best_restart {
            Winner::StartKept => (0, 0),
            Winner::Restart(restart) => (1, restart),
        };
        out.bytes(&[won])?;
        [restart, r.empty_cells_repaired, r.events_used].into_iter().try_for_each(|number| out.u32(number))?;
        out.u64(r.seed)
    }

    /// Reads a codebook and makes its rotation where the file has only the rule.
    pub fn read(path: &Path) -> Done<Book> {
        let mut file = Summed::new(Input::open(path)?);
        let bad = |what: &str| Failure::file(path, what);
        if file.array()? != MAGIC {
            return Err(bad("is no codebook"));
        }
        let marks_start = match file.u32()? {
            1 => false,
            VERSION => true,
            _ => return Err(bad("is a codebook of an unknown version")),
        };
        let profile = read_profile(&mut file)?;
        let report = read_report(&mut file, &profile, marks_start)?;
        let [samples, start, matrices, rule] = file.array()?;
        for (part, origin) in [("samples", samples), ("start", start), ("restart matrices", matrices)] {
            below(path, format_args!("the origin of its {part}"), origin.into(), 2)?;
        }
        let made = Made { samples: samples == 1, start: start == 1, matrices: matrices == 1 };
        let dim = profile.ambient_dim as usize;
        let rule = match rule {
            0 => Rule::Stored,
            rule if rule == rotation::rule(dim) as u8 => rotation::rule(dim),
            _ => return Err(bad("has a rotation by an unknown rule")),
        };

        // The profile bounds what follows, so its length is tested before room is taken for it.
        let values = profile.codebook_size as usize * profile.block_dim as usize;
        let matrix_len = if rule == Rule::Stored { dim * dim } else { 0 };
        let rest = u64::from(report.events_used) * EVENT_LEN + 4 * values as u64 + 8 * matrix_len as u64 + 8;
        file.file.exactly(file.read + rest, "a codebook with this head")?;
        let events = (0..report.events_used).map(|_| read_event(&mut file)).collect::<Done<Vec<_>>>()?;
        let mut codewords = vec![0.0; values];
        for value in &mut codewords {
            *value = f32::from_le_bytes(file.array()?);
        }
        let mut matrix = vec![0.0; matrix_len];
        for value in &mut matrix {
            *value = file.f64()?;
        }
        let sum = file.sum.0;
        if file.u64()? != sum {
            return Err(bad("is damaged: its check sum is another"));
        }
        check_events(path, &events, &profile)?;
        if rule != Rule::Stored {
            matrix = rotation::rotation(dim, profile.rotation_seed);
        }
        check_values(&profile, &matrix, &codewords)
            .map_err(Failure::refused(format!("{}: its values", path.display())))?;
        Ok(Book { profile, report, marks_start, made, rule, events, codewords, matrix })
    }
}

fn read_profile(file: &mut Summed<Input>) -> Done<Profile<'static>> {
    let schema = file.text()?;
    let (ambient_dim, block_dim, codebook_size) = (file.u32()?, file.u32()?, file.u32()?);
    let (log2, paper_rate) = (file.f64()?, file.f64()?);
    let [wire_index_bits] = file.array()?;
    let wire_rate = file.f64()?;
    let [norm_format] = file.array()?;
    let rotation_seed = file.u64()?;
    let rotation_algorithm = file.text()?;
    let codebook_seed = file.u64()?;
    let [source_mode, radius_method, direction_method] = file.array()?;
    let (restarts, iterations, training_samples) = (file.u32()?, file.u32()?, file.u32()?);
    let [empty_cell_policy] = file.array()?;
    let profile = Profile {
        schema: PROFILE_SCHEMA,
        ambient_dim,
        block_dim,
        codebook_size,
        log2,
        paper_rate,
        wire_index_bits,
        wire_rate,
        norm_format,
        rotation_seed,
        rotation_algorithm: ROTATION_ALGORITHM,
        codebook_seed,
        source_mode,
        radius_method,
        direction_method,
        restarts,
        iterations,
        training_samples,
        empty_cell_policy,
    };
    // The names that were read are tested, and only the accepted ones pass.
    let path = file.file.path();
    let named = Profile { schema: &schema, rotation_algorithm: &rotation_algorithm, ..profile };
    named.validate().map_err(Failure::refused(format!("{}: its profile", path.display())))?;
    // The library reads any other number as to fail closed; a training is given one of these two.
    below(path, "its policy for empty cells", empty_cell_policy.into(), 2)?;
    Ok(profile)
}

fn read_report(file: &mut Summed<Input>, profile: &Profile, marks_start: bool) -> Done<Report> {
    let schema = file.text()?;
    let report = Report {
        restarts: file.u32()?,
        iterations: file.u32()?,
        training_samples: file.u32()?,
        init_mse: file.f64()?,
        best_mse: file.f64()?,
        best_restart: read_winner(file, marks_start)?,
        empty_cells_repaired: file.u32()?,
        events_used: file.u32()?,
        seed: file.u64()?,
    };
    let path = file.file.path();
    report.validate(&schema, profile).map_err(Failure::refused(format!("{}: its report", path.display())))?;
    if report.events_used as usize > MAX_EVENT_SLOTS {
        return Err(Failure::file(path, "has more repairs than a training can"));
    }
    Ok(report)
}

fn read_winner(file: &mut Summed<Input>, marks_start: bool) -> Done<Winner> {
    let won = if marks_start { file.array()? } else { [1] };
    match (won, file.u32()?) {
        ([0], 0) => Ok(Winner::StartKept),
        ([1], restart) => Ok(Winner::Restart(restart)),
        ([won], restart) => {
            Err(Failure::file(file.file.path(), format!("has the winner {won} {restart}, which no training writes")))
        }
    }
}

fn read_event(file: &mut Summed<Input>) -> Done<Event> {
    Ok(Event {
        restart: file.u32()?,
        iteration: file.u32()?,
        empty_cell: file.u32()?,
        donor_cell: file.u32()?,
        donor_count_before: file.u32()?,
        donor_distortion: file.f64()?,
        residual_norm: file.f64()?,
        split_epsilon: file.f64()?,
    })
}

/// Tests the numbers that a training takes from the profile.
fn check_events(path: &Path, events: &[Event], p: &Profile) -> Done<()> {
    for (place, event) in events.iter().enumerate() {
        for (what, number, bound) in [
            ("restart", event.restart, p.restarts),
            ("round", event.iteration, p.iterations),
            ("empty cell", event.empty_cell, p.codebook_size),
            ("donor", event.donor_cell, p.codebook_size),
        ] {
            below(path, format_args!("the {what} of event {place}"), number, bound)?;
        }
    }
    Ok(())
}

/// Refuses a number that no training writes; `what` says where it stands.
fn below(path: &Path, what: impl Display, number: u32, bound: u32) -> Done<()> {
    if number < bound {
        return Ok(());
    }
    Err(Failure::file(path, format!("{what} is {number}, not below {bound}")))
}

/// The check sum at the end of the file: FNV-1a of 64 bits over all bytes before it.
struct Fnv(u64);

impl Fnv {
    fn add(&mut self, bytes: &[u8]) {
        for byte in bytes {
            self.0 = (self.0 ^ u64::from(*byte)).wrapping_mul(0x100_0000_01b3);
        }
    }
}

/// A file with the sum and the number of the bytes that have passed.
struct Summed<F> {
    file: F,
    sum: Fnv,
    read: u64,
}

impl<F> Summed<F> {
    fn new(file: F) -> Summed<F> {
        Summed { file, sum: Fnv(0xcbf2_9ce4_8422_2325), read: 0 }
    }
}

impl Summed<Output> {
    fn bytes(&mut self, bytes: &[u8]) -> Done<()> {
        self.sum.add(bytes);
        self.file.bytes(bytes)
    }

    fn u32(&mut self, number: u32) -> Done<()> {
        self.bytes(&number.to_le_bytes())
    }

    fn u64(&mut self, number: u64) -> Done<()> {
        self.bytes(&number.to_le_bytes())
    }

    fn f64(&mut self, value: f64) -> Done<()> {
        self.bytes(&value.to_le_bytes())
    }

    /// A name of at most 255 bytes, after its length.
    fn text(&mut self, text: &[u8]) -> Done<()> {
        let len = u8::try_from(text.len()).unwrap_or(u8::MAX);
        self.bytes(&[len])?;
        self.bytes(&text[..usize::from(len)])
    }
}

impl Summed<Input> {
    fn array<const LEN: usize>(&mut self) -> Done<[u8; LEN]> {
        let mut bytes = [0; LEN];
        self.file.bytes(&mut bytes)?;
        self.sum.add(&bytes);
        self.read += LEN as u64;
        Ok(bytes)
    }

    fn u32(&mut self) -> Done<u32> {
        self.array().map(u32::from_le_bytes)
    }

    fn u64(&mut self) -> Done<u64> {
        self.array().map(u64::from_le_bytes)
    }

    fn f64(&mut self) -> Done<f64> {
        self.array().map(f64::from_le_bytes)
    }

    fn text(&mut self) -> Done<Vec<u8>> {
        let [len] = self.array()?;
        (0..len).map(|_| self.array().map(|[byte]| byte)).collect()
    }
}
