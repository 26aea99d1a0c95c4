//! `train`: from vectors or samples to a codebook file.

use crate::args::Args;
use crate::book::Book;
use crate::failure::{Done, Failure};
use crate::files::{Input, Output};
use crate::inputs::{Inputs, Lent};
use crate::memory::{zeros, Need};
use crate::progress::while_waiting;
use crate::{report, say};
use nuqtelya::{Event, Profile, Room, FAIL_CLOSED, MAX_EVENT_SLOTS, SPLIT_HIGHEST_DISTORTION};
use std::ffi::OsString;
use std::path::{Path, PathBuf};
use std::time::{Duration, Instant};

/// What is trained on: vectors, from which samples are made, or the samples themselves.
pub enum Source {
    Vectors(PathBuf),
    Samples(PathBuf),
}

pub struct Job {
    pub profile: Profile<'static>,
    pub source: Source,
    pub start: Option<PathBuf>,
    pub matrices: Option<PathBuf>,
    pub rotation: Option<PathBuf>,
    pub event_slots: Option<usize>,
    pub anyway: bool,
}

pub fn command(words: impl IntoIterator<Item = OsString>) -> Done<()> {
    let options = [
        "vectors",
        "samples",
        "dim",
        "block",
        "codewords",
        "out",
        "start",
        "matrices",
        "rotation",
        "seed",
        "restarts",
        "iterations",
        "training-samples",
        "empty-cells",
        "event-slots",
    ];
    let args = Args::parse(words, &options, &["anyway"], 0)?;
    let out = args.needed_path("out")?;
    let job = Job::from_args(&args)?;
    Output::apart(&out, &job.files())?;
    Output::check(&out)?;
    let book = job.run()?;
    book.write(&out)?;
    say(&format!("{}codebook: {}\n", report::training(&book), out.display()))
}

impl Job {
    fn from_args(args: &Args) -> Done<Job> {
        let source = match (args.path("vectors"), args.path("samples")) {
            (Some(path), None) => Source::Vectors(path),
            (None, Some(path)) => Source::Samples(path),
            _ => return Err(Failure::Usage("one of --vectors and --samples is needed".into())),
        };
        let (d, k, n) = (args.needed_number("dim")?, args.needed_number("block")?, args.needed_number("codewords")?);
        let seed = args.number("seed")?.unwrap_or(1);
        let mut profile = Profile::paper_default(d, k, n, seed).map_err(Failure::refused("the shape"))?;
        profile.restarts = args.number("restarts")?.unwrap_or(profile.restarts);
        profile.iterations = args.number("iterations")?.unwrap_or(profile.iterations);
        profile.training_samples = training_samples(args, &source, &profile)?;
        profile.empty_cell_policy = match args.text("empty-cells").as_deref() {
            None | Some("split") => SPLIT_HIGHEST_DISTORTION,
            Some("fail") => FAIL_CLOSED,
            Some(other) => return Err(Failure::Usage(format!("--empty-cells {other}: split or fail"))),
        };
        profile.validate().map_err(Failure::refused("the settings"))?;
        Ok(Job {
            profile,
            source,
            start: args.path("start"),
            matrices: args.path("matrices"),
            rotation: args.path("rotation"),
            event_slots: args.number("event-slots")?,
            anyway: args.flag("anyway"),
        })
    }

    /// All files that are read.
    fn files(&self) -> Vec<&Path> {
        let (Source::Vectors(source) | Source::Samples(source)) = &self.source;
        let given = [&self.start, &self.matrices, &self.rotation].into_iter().flatten();
        given.chain([source]).map(PathBuf::as_path).collect()
    }

    /// Every length is tested and the need of memory told before anything large is read.
    pub fn run(&self) -> Done<Book> {
        let p = &self.profile;
        let inputs = Inputs::open(self)?;
        let made = inputs.made(p);
        let slots = self.slots();
        let room = Room::of(p).map_err(Failure::refused("the settings"))?;
        let need = self.need(room, slots);
        if !self.anyway {
            need.check()?;
        }
        say(&format!("memory: {}\n", need.in_words()))?;

        let mut codewords = zeros::<f32>(p.codebook_size as usize * p.block_dim as usize)?;
        let mut work = zeros::<f64>(room.floats)?;
        let mut counts = zeros::<u32>(room.counts)?;
        let mut events = zeros::<Event>(slots)?;
        let Lent { rule, matrix, samples, start, matrices } = inputs.read(p)?;
        let report = while_waiting("training", self.estimate(&start, &samples), || {
            nuqtelya::refine(p, &start, &samples, &matrices, &mut codewords, &mut work, &mut counts, &mut events)
        });
        let report = report.map_err(Failure::refused("the training"))?;
        events.truncate(report.events_used as usize);
        Ok(Book { profile: *p, report, marks_start: true, made, rule, events, codewords, matrix })
    }

    /// Event slots: as many as asked for, else as there can be repairs, since a round leaves at least one cell alone.
    /// One more than can be lent is enough for the library to refuse them.
    fn slots(&self) -> usize {
        let p = &self.profile;
        let most = u64::from(p.codebook_size - 1) * u64::from(p.restarts) * u64::from(p.iterations);
        let slots = self.event_slots.unwrap_or(most.min(MAX_EVENT_SLOTS as u64) as usize);
        slots.min(MAX_EVENT_SLOTS + 1)
    }

    fn need(&self, room: Room, slots: usize) -> Need {
        let p = &self.profile;
        let (d, k, n) = (p.ambient_dim as usize, p.block_dim as usize, p.codebook_size as usize);
        Need::new()
            .of::<f64>("samples", p.training_samples as usize * k)
            .of::<f64>("start", n * k)
            .of::<f64>("matrices", (p.restarts as usize - 1) * k * k)
            .of::<f64>("rotation", d * d)
            .of::<f32>("codewords", n * k)
            .of::<f64>("float work", room.floats)
            .of::<u32>("counts", room.counts)
            .of::<Event>("event slots", slots)
    }

    /// How long the training may take: as long as its searches, by the time of some of them.
    fn estimate(&self, start: &[f64], samples: &[f64]) -> Duration {
        let p = &self.profile;
        let k = p.block_dim as usize;
        let some = &samples[..samples.len().min(64 * k)];
        let begin = Instant::now();
        // A refusal here comes again from the training itself.
        let _ = nuqtelya::mean_error(start, p.codebook_size.into(), p.block_dim.into(), some);
        let passes = 1.0 + f64::from(p.restarts) * (f64::from(p.iterations) + 1.0);
        begin.elapsed().mul_f64(passes * samples.len() as f64 / some.len() as f64)
    }
}

/// S: of samples as many as the file has, of vectors as many as asked for.
fn training_samples(args: &Args, source: &Source, profile: &Profile) -> Done<u32> {
    match (source, args.number("training-samples")?) {
        (Source::Vectors(_), wanted) => Ok(wanted.unwrap_or(profile.training_samples)),
        (Source::Samples(path), None) => {
            let count = Input::open(path)?.pieces(8 * u64::from(profile.block_dim), "a sample")?;
            u32::try_from(count).map_err(|_| Failure::file(path, format!("has {count} samples: too many")))
        }
        (Source::Samples(_), Some(_)) => {
            Err(Failure::Usage("--training-samples goes with --vectors: a file of samples is used whole".into()))
        }
    }
}
