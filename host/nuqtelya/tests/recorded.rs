//! Answers of the published Rust for training and codes, recorded in recorded.bin, beside the library's own: results
//! and refusals bit for bit, and every lent buffer. The norm of an encoded vector, and refusal 10 of it, were recorded as
//! document 02 (K3) has them. The published sources are not needed; host/README.md says how the file is made.

#[path = "recorded/form.rs"]
mod form;

use form::{number, File, Form, Refused, Trained, Updated};
use nuqtelya::{Coder, Event, Profile, Refusal, Report, UpdateTerms, Winner};

const BYTES: &[u8] = include_bytes!("recorded.bin");

/// Every byte of a buffer that is lent.
const PATTERN: u8 = 0xa5;
const WHOLE: u32 = u32::from_le_bytes([PATTERN; 4]);
const REAL: f64 = f64::from_le_bytes([PATTERN; 8]);
const EVENT: Event = Event {
    restart: WHOLE,
    iteration: WHOLE,
    empty_cell: WHOLE,
    donor_cell: WHOLE,
    donor_count_before: WHOLE,
    donor_distortion: REAL,
    residual_norm: REAL,
    split_epsilon: REAL,
};

fn file() -> File {
    File::read(BYTES).expect("records and nothing else")
}

#[test]
fn the_file_is_whole() {
    file().check();
    assert!(file().bytes() == BYTES, "written again, the records are another file");
}

#[test]
fn updates() {
    for (place, job) in file().updates.iter().enumerate() {
        let terms = UpdateTerms {
            codebook_size: job.codebook_size,
            block_dim: job.block_dim,
            policy: job.policy,
            restart: job.restart,
            iteration: job.iteration,
        };
        let (n, values) = (job.codebook_size as usize, job.codebook.len());
        let mut codebook = job.codebook.clone();
        let mut lent = Lent::new(2 * values + 2 * n, n, job.slots);
        let Lent { work, counts, events } = &mut lent;
        let repairs = nuqtelya::update(terms, &mut codebook, &job.samples, &job.assignments, work, counts, events);
        let answer = repairs.map_err(refused).map(|repairs| {
            let events = lent.events(repairs);
            Updated { codebook: codebook.clone(), repairs, events }
        });
        same("update", place, &answer, &job.answer);
        if answer.is_err() {
            same("codebook of update", place, &codebook, &job.codebook);
        }
        lent.check(number(&answer), answer.map_or(0, |done| done.repairs));
    }
}

#[test]
fn trainings() {
    for (place, job) in file().trainings.iter().enumerate() {
        let profile = profile(&job.profile);
        let n = profile.codebook_size as usize;
        let values = n * profile.block_dim as usize;
        let mut codewords = vec![f32::from_bits(WHOLE); values];
        let mut lent = Lent::new(3 * values + 2 * n, 2 * n, job.slots);
        let Lent { work, counts, events } = &mut lent;
        let (initial, samples, matrices) = (&job.initial, &job.samples, &job.matrices);
        let found = nuqtelya::refine(&profile, initial, samples, matrices, &mut codewords, work, counts, events);
        let answer = found.map_err(refused).map(|found| {
            let events = lent.events(found.events_used);
            Trained { codewords: codewords.clone(), report: report(found), events }
        });
        same("training", place, &answer, &job.answer);
        if answer.is_err() {
            holds(&codewords, PATTERN);
        }
        lent.check(number(&answer), answer.map_or(0, |done| done.report.events_used));
    }
}

#[test]
fn codes() {
    for (place, coding) in file().codings.iter().enumerate() {
        let (profile, matrix, codewords) = (profile(&coding.profile), &coding.matrix, &coding.codewords);
        let d = profile.ambient_dim as usize;
        // No length is looked at under a profile that is unfit.
        let frame_len = Coder::new(profile, matrix, codewords).map_or(0, |coder| coder.frame_len());
        for job in &coding.encodings {
            let (mut output, mut work) = (vec![PATTERN; frame_len], vec![REAL; 2 * d]);
            let answer = nuqtelya::encode(&profile, matrix, codewords, &job.input, &mut output, &mut work);
            // The number of tied blocks is not recorded: the published Rust counts none.
            let answer = answer.map_err(refused).map(|_| output.clone());
            same("encoding under coder", place, &answer, &job.answer);
            holds(&work, if answer.is_ok() { 0 } else { PATTERN });
            if answer.is_err() {
                holds(&output, PATTERN);
            }
        }
        for job in &coding.decodings {
            let (mut output, mut work) = (vec![f32::from_bits(WHOLE); d], vec![REAL; 2 * d]);
            let answer = nuqtelya::decode(&profile, matrix, codewords, &job.frame, &mut output, &mut work);
            let answer = answer.map_err(refused).map(|()| output.clone());
            same("decoding under coder", place, &answer, &job.answer);
            holds(&work, if matches!(number(&answer), 0 | 12) { 0 } else { PATTERN });
            if answer.is_err() {
                holds(&output, PATTERN);
            }
        }
    }
}

/// The buffers that an update or a training is lent.
struct Lent {
    work: Vec<f64>,
    counts: Vec<u32>,
    events: Vec<Event>,
}

impl Lent {
    fn new(work: usize, counts: usize, slots: u32) -> Lent {
        Lent { work: vec![REAL; work], counts: vec![WHOLE; counts], events: vec![EVENT; slots as usize] }
    }

    /// The events in the first slots.
    fn events(&self, used: u32) -> Vec<form::Event> {
        self.events[..used as usize].iter().map(event).collect()
    }

    /// Once updating has begun, work ends as zeros; if it was then refused, so do the slots. All else is as it was.
    fn check(&self, number: u8, used: u32) {
        let begun = matches!(number, 14..=16);
        let left = if begun || number == 0 { 0 } else { PATTERN };
        holds(&self.work, left);
        holds(&self.counts, left);
        let unused: Vec<_> = self.events[used as usize..].iter().map(event).collect();
        holds(&unused, if begun { 0 } else { PATTERN });
    }
}

fn same<T: Form + std::fmt::Debug>(what: &str, place: usize, found: &T, recorded: &T) {
    assert!(bytes(found) == bytes(recorded), "{what} {place}:\n  found    {found:?}\n  recorded {recorded:?}");
}

/// Fails unless each value is made of this byte alone.
fn holds<T: Form + std::fmt::Debug>(values: &[T], byte: u8) {
    let wrong = values.iter().position(|value| bytes(value).iter().any(|found| *found != byte));
    assert!(wrong.is_none(), "bytes {byte:#x} expected at {wrong:?} of {values:?}");
}

fn bytes(value: &impl Form) -> Vec<u8> {
    let mut bytes = Vec::new();
    value.put(&mut bytes);
    bytes
}

fn refused(refusal: Refusal) -> Refused {
    let rates = refusal.rates().map_or(Vec::new(), |(given, expected)| vec![given, expected]);
    Refused { number: refusal.number() as u8, values: refusal.values().to_vec(), rates }
}

fn event(event: &Event) -> form::Event {
    form::Event {
        restart: event.restart,
        iteration: event.iteration,
        empty_cell: event.empty_cell,
        donor_cell: event.donor_cell,
        donor_count_before: event.donor_count_before,
        donor_distortion: event.donor_distortion,
        residual_norm: event.residual_norm,
        split_epsilon: event.split_epsilon,
    }
}

/// The published report says 0 where the start was kept.
fn report(report: Report) -> form::Report {
    form::Report {
        restarts: report.restarts,
        iterations: report.iterations,
        training_samples: report.training_samples,
        init_mse: report.init_mse,
        best_mse: report.best_mse,
        best_restart: match report.best_restart {
            Winner::StartKept => 0,
            Winner::Restart(number) => number,
        },
        empty_cells_repaired: report.empty_cells_repaired,
        events_used: report.events_used,
        seed: report.seed,
    }
}

fn profile(p: &form::Profile) -> Profile<'_> {
    Profile {
        schema: &p.schema,
        ambient_dim: p.ambient_dim,
        block_dim: p.block_dim,
        codebook_size: p.codebook_size,
        log2: p.log2,
        paper_rate: p.paper_rate,
        wire_index_bits: p.wire_index_bits,
        wire_rate: p.wire_rate,
        norm_format: p.norm_format,
        rotation_seed: p.rotation_seed,
        rotation_algorithm: &p.rotation_algorithm,
        codebook_seed: p.codebook_seed,
        source_mode: p.source_mode,
        radius_method: p.radius_method,
        direction_method: p.direction_method,
        restarts: p.restarts,
        iterations: p.iterations,
        training_samples: p.training_samples,
        empty_cell_policy: p.empty_cell_policy,
    }
}
