//! Training: its answer and every buffer, and the test of a report.

use super::profile::{published, validity};
use super::training::{Left, Lent};
use crate::inputs;
use crate::rules::{bounded, edges, grid, length, samples, shorten, values, with_slots};
use crate::run::{lent, refused, Outcome, Run, Same};
use beside::{event, proved};
use nuqtelya::{Report, Winner};
use oracle::inputs::fitting;
use oracle::lloyd::probe;
use oracle::profile::probe::Profile;
use oracle::Answer;

/// 2^20
const LIMIT: f64 = (1u64 << 20) as f64;

/// A job, with the lengths of the buffers that it writes.
#[derive(Clone)]
struct Job {
    profile: Profile<'static>,
    log2: f64,
    initial: Vec<f64>,
    samples: Vec<f64>,
    matrices: Vec<f64>,
    codewords: usize,
    lent: Lent,
}

pub fn run(run: &mut Run) -> Outcome {
    small(run)?;
    for _ in 0..run.rounds(30_000) {
        let (n, k, more) = (2 + run.random.index(7), 1 + run.random.index(4), run.random.index(30));
        let (restarts, iterations) = (1 + run.random.index(4), 1 + run.random.index(6));
        random(run, n, k, n + more, restarts, iterations)?;
    }
    for _ in 0..run.rounds(200) {
        let (n, k, more) = (2 + run.random.index(100), 1 + run.random.index(40), run.random.index(3_000));
        let (restarts, iterations) = (1 + run.random.index(4), 1 + run.random.index(8));
        let work = n * k * restarts * iterations;
        random(run, n, k, n + more.min(8_000_000 / work), restarts, iterations)?;
    }
    many_rounds(run)?;
    rooms(run)?;
    wrong(run)?;
    winners(run)?;
    reports(run)?;
    run.met(
        &[2, 4, 6, 7, 14, 16, 18, 19, 20],
        &[
            "restart 0 won",
            "the start was kept",
            "a later restart won",
            "with repairs",
            "a winner stated apart",
            "a restart as good as the start that was kept",
            "a later restart as good as the winner",
        ],
    )
}

/// A job whose lengths are right.
fn job(n: usize, k: usize, initial: &[f64], samples: &[f64], restarts: usize, iterations: usize, slots: usize) -> Job {
    let count = samples.len() / k;
    let profile = Profile {
        restarts: restarts as u32,
        iterations: iterations as u32,
        training_samples: count as u32,
        ..fitting(2 * k as u32, k as u32, n as u32)
    };
    // A turn, unless the caller sets another matrix.
    let matrix: Vec<f64> = (0..k * k).map(|i| if i % k == (i / k + 1) % k { -1.0 } else { 0.0 }).collect();
    Job {
        profile,
        log2: oracle::log2(n as u64),
        initial: initial.to_vec(),
        samples: samples.to_vec(),
        matrices: matrix.repeat(restarts - 1),
        codewords: n * k,
        lent: Lent { work: 3 * n * k + 2 * n, counts: 2 * n, slots },
    }
}

/// Few samples and codewords of small whole numbers, in every way.
fn small(run: &mut Run) -> Outcome {
    for initial in grid(&[-1.0, 0.0, 1.0, 2.0], 2) {
        for count in 2..=4 {
            for samples in grid(&[0.0, 1.0, 2.0, 4.0], count) {
                small_case(run, 2, &initial, &samples)?;
            }
        }
    }
    for initial in grid(&[0.0, 1.0, 3.0], 3) {
        for count in 3..=4 {
            for samples in grid(&[0.0, 1.0, 2.0], count) {
                small_case(run, 3, &initial, &samples)?;
            }
        }
    }
    Ok(())
}

fn small_case(run: &mut Run, n: usize, initial: &[f64], samples: &[f64]) -> Outcome {
    let random = &mut run.random;
    let (restarts, iterations) = (random.pick(&[1, 1, 2, 3]), random.pick(&[1, 2, 5]));
    let slots = random.pick(&[0, 1, 2, 40]);
    let mut job = job(n, 1, initial, samples, restarts, iterations, slots);
    for value in &mut job.matrices {
        *value = random.pick(&[-1.0, 0.0, 1.0, 2.0]);
    }
    job.profile.empty_cell_policy = u8::from(random.one_in(6));
    case(run, &job)
}

fn random(run: &mut Run, n: usize, k: usize, count: usize, restarts: usize, iterations: usize) -> Outcome {
    let random = &mut run.random;
    let samples = samples(random, count, k, LIMIT);
    // The first samples, or any values.
    let initial = if random.one_in(3) { samples[..n * k].to_vec() } else { values(random, n * k, LIMIT) };
    let slots = if random.one_in(3) { random.index(4) } else { n * restarts * iterations };
    let mut job = job(n, k, &initial, &samples, restarts, iterations, slots);
    if !random.one_in(3) {
        let limit = random.pick(&[1.0, 4.0, LIMIT]);
        job.matrices = values(random, job.matrices.len(), limit);
    }
    job.profile.empty_cell_policy = if random.one_in(8) { 1 } else { 0 };
    job.profile.codebook_seed = random.bits();
    case(run, &job)
}

/// The most restarts and rounds, on the least job.
fn many_rounds(run: &mut Run) -> Outcome {
    let iterations = if run.many { 100_000 } else { 20_000 };
    case(run, &job(2, 1, &[0.0, 1.0], &[0.0, 1.0, 3.0], 1, iterations, 0))?;
    case(run, &job(2, 1, &[0.0, 1.0], &[0.0, 1.0, 3.0], 1_024, 3, 4_096))?;
    // Codewords that coincide are repaired in every round and restart; the last slot is used, or one is missing.
    let same = job(2, 1, &[1.0, 1.0], &[0.0, 1.0, 3.0], 3, 1, 3);
    case(run, &same)?;
    case(run, &lending(same, 2))
}

fn lending(mut job: Job, slots: usize) -> Job {
    job.lent.slots = slots;
    job
}

/// Every length of the work up to those of document 01 and one more, also where the samples are wrong.
fn rooms(run: &mut Run) -> Outcome {
    for (n, k, count) in [(2, 1, 2), (2, 1, 4), (2, 2, 3), (3, 1, 3), (3, 2, 5)] {
        let samples: Vec<f64> = (0..count * k).map(|i| (i % 3) as f64).collect();
        for initial in [&samples[..n * k], &vec![1.0; n * k]] {
            for work in 0..=4 * n * k + 2 * n + 1 {
                for counts in 0..=n + count + 1 {
                    let mut job = job(n, k, initial, &samples, 2, 2, 3);
                    (job.lent.work, job.lent.counts) = (work, counts);
                    case(run, &job)?;
                    job.samples[0] = f64::NAN;
                    case(run, &job)?;
                }
            }
        }
    }
    Ok(())
}

/// Every small job of codewords and samples of one value: the winner is the one that the errors of all codebooks name.
fn winners(run: &mut Run) -> Outcome {
    for restarts in 1..=3 {
        for matrices in grid(&[-1.0, 0.0, 1.0, 2.0], restarts - 1) {
            for initial in grid(&[-1.0, 0.0, 1.0, 2.0], 2) {
                for samples in (2..=3).flat_map(|count| grid(&[0.0, 1.0, 3.0], count)) {
                    for iterations in 1..=2 {
                        let job = job(2, 1, &initial, &samples, restarts, iterations, 12);
                        winner(run, &Job { matrices: matrices.clone(), ..job })?;
                    }
                }
            }
        }
    }
    Ok(())
}

fn winner(run: &mut Run, job: &Job) -> Outcome {
    case(run, job)?;
    // One that is refused has no winner.
    let Some(errors) = errors(job) else { return Ok(()) };
    run.see("a winner stated apart");
    let least = errors.iter().copied().fold(f64::INFINITY, f64::min);
    let first = errors.iter().position(|error| *error == least).expect("an error");
    let expected = first.checked_sub(1).map_or(Winner::StartKept, |restart| Winner::Restart(restart as u32));
    if errors[first + 1..].contains(&least) {
        run.see(match expected {
            Winner::StartKept => "a restart as good as the start that was kept",
            Winner::Restart(_) => "a later restart as good as the winner",
        });
    }
    let found = leaves(job).answer.map(|report| report.best_restart);
    run.same("the winner", &Ok(expected), &found, || {
        let Job { profile, initial, samples, matrices, .. } = job;
        inputs!(profile, initial, samples, matrices)()
    })
}

/// The mean errors of the start and of the end of each restart, of codewords of one value: round by round, by the
/// published search, update and mean error.
fn errors(job: &Job) -> Option<Vec<f64>> {
    let Job { profile, initial, samples, .. } = job;
    let error = |codebook: &[f64]| probe::mse_for_codebook(codebook, 1, samples).ok();
    let mut errors = vec![error(initial)?];
    for restart in 0..profile.restarts {
        let turned = |matrix: &f64| initial.iter().map(|value| 0.0 + matrix * value).collect();
        let mut codebook: Vec<f64> =
            (restart as usize).checked_sub(1).map_or_else(|| initial.clone(), |place| turned(&job.matrices[place]));
        for iteration in 0..profile.iterations {
            let nearest = |sample: &[f64]| probe::nearest_index(sample, &codebook, 1).0 as usize;
            let assignments: Vec<usize> = samples.chunks(1).map(nearest).collect();
            let policy = profile.empty_cell_policy;
            let updated =
                probe::update_centroids(&codebook, 1, samples, &assignments, policy, restart, iteration).ok()?;
            codebook = updated.codebook;
        }
        errors.push(error(&codebook)?);
    }
    Some(errors)
}

/// What makes a job wrong, or right at its limit.
const FAULTS: [fn(&mut Job); 44] = [
    |j| j.log2 = f64::NAN,
    |j| (j.log2, j.profile.paper_rate) = (7.0, 7.0 / f64::from(j.profile.block_dim)),
    |j| j.log2 += 1e-9,
    |j| j.profile.schema = "",
    |j| j.profile.ambient_dim = 0,
    |j| j.profile.ambient_dim += 1,
    |j| j.profile.ambient_dim = 1 << 15,
    |j| j.profile.block_dim = 0,
    |j| j.profile.block_dim = 257,
    |j| j.profile.codebook_size = 0,
    |j| j.profile.codebook_size = (1 << 20) + 1,
    |j| j.profile.paper_rate = f64::NAN,
    |j| j.profile.wire_index_bits = 9,
    |j| j.profile.rotation_algorithm = "",
    |j| j.profile.restarts = 0,
    |j| j.profile.restarts += 1,
    |j| j.profile.restarts = 1_025,
    |j| j.profile.iterations = 0,
    |j| j.profile.iterations = 100_001,
    |j| j.profile.training_samples = 1,
    |j| j.profile.training_samples += 1,
    |j| j.profile.training_samples = 10_000_001,
    |j| j.profile.empty_cell_policy = 1,
    |j| j.profile.empty_cell_policy = 255,
    |j| shorten(&mut j.initial),
    |j| j.initial.push(0.0),
    |j| j.initial.clear(),
    |j| shorten(&mut j.samples),
    |j| j.samples.push(0.0),
    |j| j.samples.clear(),
    |j| shorten(&mut j.matrices),
    |j| j.matrices.push(0.0),
    |j| j.matrices.clear(),
    |j| j.codewords -= 1,
    |j| j.codewords += 1,
    |j| j.lent.work -= 1,
    |j| j.lent.work += 1,
    |j| j.lent.work += j.initial.len(),
    |j| j.lent.counts -= 1,
    |j| j.lent.counts += 1,
    |j| j.lent.slots = 0,
    |j| j.initial.iter_mut().for_each(|v| *v = f64::NAN),
    |j| j.samples.iter_mut().for_each(|v| *v = f64::INFINITY),
    |j| j.matrices.iter_mut().for_each(|v| *v = 2.0 * LIMIT),
];

/// Every fault, every two of them, every odd value anywhere, and too many event slots.
fn wrong(run: &mut Run) -> Outcome {
    let good = [
        job(2, 1, &[0.0, 10.0], &[1.0, 3.0, 9.0], 2, 2, 2),
        job(2, 2, &[5.0, 5.0, 5.0, 5.0], &[0.0, 0.0, 1.0, 2.0, 2.0, 1.0], 3, 1, 1),
    ];
    for good in good {
        for first in FAULTS {
            for second in FAULTS {
                let mut job = good.clone();
                first(&mut job);
                case(run, &job)?;
                second(&mut job);
                case(run, &job)?;
            }
        }
        for edge in edges(LIMIT) {
            for place in 0..good.initial.len() + good.samples.len() + good.matrices.len() {
                let mut job = good.clone();
                let mut values = job.initial.iter_mut().chain(&mut job.samples).chain(&mut job.matrices);
                *values.nth(place).expect("a value") = edge;
                case(run, &job)?;
            }
        }
        for slots in [1 << 20, (1 << 20) + 1] {
            case(run, &lending(good.clone(), slots))?;
        }
    }
    Ok(())
}

fn case(run: &mut Run, job: &Job) -> Outcome {
    let expected = expected(job);
    if let Ok(report) = &expected.answer {
        run.see(match report.best_restart {
            Winner::StartKept => "the start was kept",
            Winner::Restart(0) => "restart 0 won",
            Winner::Restart(_) => "a later restart won",
        });
        if report.events_used > 0 {
            run.see("with repairs");
        }
    }
    run.same("refine", &expected, &leaves(job), || {
        let Job { profile, log2, initial, samples, matrices, codewords, lent: Lent { work, counts, slots } } = job;
        inputs!(profile, log2, initial, samples, matrices, codewords, work, counts, slots)()
    })
}

/// What the proved training leaves behind.
fn leaves(job: &Job) -> Left<Report, f32> {
    let Lent { work, counts, slots } = job.lent;
    let mut words = lent(job.codewords);
    let (mut work, mut counts, mut events) = (lent(work), lent(counts), lent(slots));
    let answer = nuqtelya::refine(
        &beside::profile(&job.profile, job.log2),
        &job.initial,
        &job.samples,
        &job.matrices,
        &mut words,
        &mut work,
        &mut counts,
        &mut events,
    );
    Left { answer: proved(answer), words, work, counts, events }
}

/// What the published training gives, and what document 01 says of the buffers.
fn expected(job: &Job) -> Left<Report, f32> {
    if let Err(refusal) = checks(job) {
        return job.lent.untouched(refusal, lent(job.codewords));
    }
    let attempt = probe::refine_codebook(&published(&job.profile), &job.initial, &job.samples, &job.matrices);
    match with_slots(attempt, |done| done.report.empty_cells_repaired, job.lent.slots) {
        Ok(done) => {
            let events = done.report.repair_events.iter().map(event).collect();
            job.lent.completed(beside::report(&done.report), done.codewords, events)
        }
        Err(refusal) => job.lent.zeroed(refusal, lent(job.codewords)),
    }
}

fn checks(job: &Job) -> Answer<()> {
    let p = &job.profile;
    validity(p, job.log2)?;
    let (n, k, count) = (p.codebook_size as usize, p.block_dim as usize, p.training_samples as usize);
    length(1, job.initial.len() == n * k)?;
    length(2, job.samples.len() == count * k)?;
    length(3, job.matrices.len() == (p.restarts as usize - 1) * k * k)?;
    length(4, job.codewords == n * k)?;
    length(7, job.lent.work == 3 * n * k + 2 * n)?;
    length(8, job.lent.counts == 2 * n)?;
    length(9, job.lent.slots <= 1 << 20)?;
    bounded(1, &job.initial, LIMIT)?;
    bounded(2, &job.samples, LIMIT)?;
    bounded(3, &job.matrices, LIMIT)
}

/// What makes a report wrong, or leaves it right.
const CHANGES: [fn(&mut probe::Report); 20] = [
    |_| (),
    |r| r.schema_version.clear(),
    |r| r.schema_version.push('1'),
    |r| r.schema_version.truncate(14),
    |r| r.schema_version = "fib_quant_profile_v1".into(),
    |r| r.restarts += 1,
    |r| r.restarts = 0,
    |r| r.iterations = 0,
    |r| r.iterations = u32::MAX,
    |r| r.training_samples += 1,
    |r| r.seed ^= 1 << 63,
    |r| r.init_mse = f64::NAN,
    |r| r.init_mse = f64::NEG_INFINITY,
    |r| r.init_mse = -0.0,
    |r| r.best_mse = f64::INFINITY,
    |r| r.best_mse = f64::NAN,
    |r| r.best_mse = f64::MAX,
    |r| r.empty_cells_repaired = 2,
    |r| r.empty_cells_repaired = u32::MAX,
    |r| shorten(&mut r.repair_events),
];

/// Reports with one or two members changed, and every kind of winner. The Rust does not look at the winner; one that is
/// not below R is refused before anything that it refuses with another site.
fn reports(run: &mut Run) -> Outcome {
    // One repair.
    let job = job(2, 1, &[5.0, 5.0], &[0.0, 1.0, 3.0], 1, 1, 1);
    let good = probe::refine_codebook(&job.profile, &job.initial, &job.samples, &job.matrices).expect("a training");
    // The profile's own checks are no part of the test.
    let unfit = Profile { ambient_dim: 0, schema: "", ..job.profile };
    let other = Profile { restarts: 9, codebook_seed: 1, ..job.profile };
    for profile in [job.profile, unfit, other] {
        for first in CHANGES {
            for second in CHANGES {
                let mut report = good.report.clone();
                first(&mut report);
                second(&mut report);
                for number in [0, 1, 8, 9, u32::MAX] {
                    report.best_restart = number;
                    for winner in [Winner::Restart(number), Winner::StartKept] {
                        report_case(run, &report, winner, &profile)?;
                    }
                }
            }
        }
    }
    Ok(())
}

fn report_case(run: &mut Run, report: &probe::Report, winner: Winner, profile: &Profile) -> Outcome {
    let expected = match winner {
        Winner::Restart(number) if number >= profile.restarts => refused(20, &[1]),
        _ => probe::validate_report(report, profile),
    };
    let given = Report { best_restart: winner, ..beside::report(report) };
    let found = given.validate(report.schema_version.as_bytes(), &beside::profile(profile, 1.0));
    run.same("validate_report", &expected, &proved(found), || format!("\n  {report:?}\n  {winner}\n  {profile:?}"))
}

impl Same for Winner {
    fn same(&self, other: &Self) -> bool {
        self == other
    }
    fn hex(&self) -> String {
        self.to_string()
    }
}

impl Same for Report {
    fn same(&self, other: &Self) -> bool {
        let whole = |r: &Report| [r.restarts, r.iterations, r.training_samples, r.empty_cells_repaired, r.events_used];
        whole(self) == whole(other)
            && self.best_restart == other.best_restart
            && self.seed == other.seed
            && self.init_mse.same(&other.init_mse)
            && self.best_mse.same(&other.best_mse)
    }
    fn hex(&self) -> String {
        format!("{self:?}, errors {} and {}", self.init_mse.hex(), self.best_mse.hex())
    }
}
