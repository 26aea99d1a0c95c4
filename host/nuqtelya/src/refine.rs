//! Training: Lloyd's rounds over several restarts, and the report of a training.

use crate::call::{call, call_checked, fits, profile_export, with_profile, Real, Whole};
use crate::update::{Event, MAX_EVENT_SLOTS};
use crate::{Profile, Refusal};
use std::fmt;

// init_mse and best_mse in `real`, the other members of the report in `report`; a refusal leaves them as they were.
profile_export!(fib_refine(
    initial: *const f64,
    initial_len: usize,
    samples: *const f64,
    samples_len: usize,
    matrices: *const f64,
    matrices_len: usize,
    codewords: *mut f32,
    codewords_len: usize,
    work: *mut f64,
    work_len: usize,
    counts: *mut u32,
    counts_len: usize,
    events: *mut Event,
    events_len: usize,
    report: &mut [u64; 8]
));

extern "C" {
    // A profile's fields without its texts and log2, which the test of a report does not ask for.
    fn fib_validate_report(
        report_schema: *const u8,
        report_schema_len: usize,
        restarts_reported: u32,
        iterations_reported: u32,
        training_samples_reported: u32,
        init_mse: f64,
        best_mse: f64,
        restart_won: u8,
        best_restart: u32,
        empty_cells_repaired: u32,
        events_used: u32,
        seed: u64,
        ambient_dim: u32,
        block_dim: u32,
        codebook_size: u32,
        paper_rate: f64,
        wire_index_bits: u8,
        wire_rate: f64,
        norm_format: u8,
        rotation_seed: u64,
        codebook_seed: u64,
        source_mode: u8,
        radius_method: u8,
        direction_method: u8,
        restarts: u32,
        iterations: u32,
        training_samples: u32,
        empty_cell_policy: u8,
        whole: Whole,
        real: Real,
    ) -> u32;
}

/// The schema that a report must name.
pub const REPORT_SCHEMA: &[u8] = b"lloyd_report_v1";

/// Which codebook a training returns.
///
/// ```
/// use nuqtelya::{train, Profile, Winner};
///
/// let mut profile = Profile::paper_default(4, 2, 2, 7)?;
/// profile.training_samples = 4;
/// profile.restarts = 1;
/// let samples = [1.0, 0.0, 3.0, 0.0, -1.0, 0.0, -3.0, 0.0];
///
/// let report = train(&profile, &[1.0, 0.0, -1.0, 0.0], &samples, &[], 0)?.report;
/// assert_eq!(report.best_restart, Winner::Restart(0));
/// assert_eq!(report.best_restart.to_string(), "restart 0 won");
///
/// // From the means of the samples on nothing gets better.
/// let report = train(&profile, &[2.0, 0.0, -2.0, 0.0], &samples, &[], 0)?.report;
/// assert_eq!(report.best_restart, Winner::StartKept);
/// assert_eq!(report.best_restart.to_string(), "start kept");
/// # Ok::<(), nuqtelya::Refusal>(())
/// ```
#[derive(Debug, Clone, Copy, PartialEq, Eq)]
pub enum Winner {
    /// The start: no restart's error is below its own.
    StartKept,
    /// The end of the restart with this number, the first of least error.
    Restart(u32),
}

impl fmt::Display for Winner {
    fn fmt(&self, f: &mut fmt::Formatter) -> fmt::Result {
        match self {
            Winner::StartKept => f.write_str("start kept"),
            Winner::Restart(number) => write!(f, "restart {number} won"),
        }
    }
}

impl Winner {
    // As the exports hand it over: whether a restart won, and its number.
    fn from_members(won: u64, number: u64) -> Result<Winner, Refusal> {
        match (won, number) {
            (0, 0) => Ok(Winner::StartKept),
            (1, number) => Ok(Winner::Restart(fits(number)?)),
            _ => Err(Refusal::FOREIGN),
        }
    }

    fn members(self) -> (u8, u32) {
        match self {
            Winner::StartKept => (0, 0),
            Winner::Restart(number) => (1, number),
        }
    }
}

/// What a training found.
#[derive(Debug, Clone, Copy, PartialEq)]
pub struct Report {
    pub restarts: u32,
    pub iterations: u32,
    pub training_samples: u32,
    /// The mean error of the initial codebook.
    pub init_mse: f64,
    /// The least mean error, before the codewords were narrowed.
    pub best_mse: f64,
    /// Whose codebook is returned.
    pub best_restart: Winner,
    pub empty_cells_repaired: u32,
    pub events_used: u32,
    pub seed: u64,
}

impl Report {
    /// Whether a report of this schema fits the profile's settings and is sound in itself.
    pub fn validate(&self, schema: &[u8], profile: &Profile) -> Result<(), Refusal> {
        let (restart_won, best_restart) = self.best_restart.members();
        call_checked(|whole, real| unsafe {
            fib_validate_report(
                schema.as_ptr(),
                schema.len(),
                self.restarts,
                self.iterations,
                self.training_samples,
                self.init_mse,
                self.best_mse,
                restart_won,
                best_restart,
                self.empty_cells_repaired,
                self.events_used,
                self.seed,
                profile.ambient_dim,
                profile.block_dim,
                profile.codebook_size,
                profile.paper_rate,
                profile.wire_index_bits,
                profile.wire_rate,
                profile.norm_format,
                profile.rotation_seed,
                profile.codebook_seed,
                profile.source_mode,
                profile.radius_method,
                profile.direction_method,
                profile.restarts,
                profile.iterations,
                profile.training_samples,
                profile.empty_cell_policy,
                whole,
                real,
            )
        })
    }
}

/// How long the work is that a training is lent. It does not grow with the samples.
#[derive(Debug, Clone, Copy, PartialEq, Eq)]
pub struct Room {
    /// 3×N×k + 2×N
    pub floats: usize,
    /// 2×N
    pub counts: usize,
}

impl Room {
    /// What [`refine`] takes under this profile, which has to be valid.
    pub fn of(profile: &Profile) -> Result<Room, Refusal> {
        profile.validate()?;
        let (n, k) = (profile.codebook_size as usize, profile.block_dim as usize);
        Ok(Room { floats: 3 * n * k + 2 * n, counts: 2 * n })
    }
}

/// Trains N codewords of k values on S samples, from an initial codebook and R - 1 matrices of k × k values.
///
/// Work and counts are as long as [`Room`] says, and end as zeros; there may be 2^20 event slots at most, and the report
/// says how many of them hold an event.
///
/// ```
/// use nuqtelya::{refine, Event, Profile, Room};
///
/// // Vectors of 4 values in blocks of 2, and 2 codewords.
/// let mut profile = Profile::paper_default(4, 2, 2, 7)?;
/// profile.training_samples = 4;
/// profile.restarts = 1;
/// let room = Room::of(&profile)?;
/// let (mut work, mut counts) = (vec![0.0; room.floats], vec![0; room.counts]);
///
/// let (initial, samples) = ([1.0, 0.0, -1.0, 0.0], [1.0, 0.0, 3.0, 0.0, -1.0, 0.0, -3.0, 0.0]);
/// let (mut codewords, mut events) = ([0.0; 4], [Event::default(); 16]);
/// refine(&profile, &initial, &samples, &[], &mut codewords, &mut work, &mut counts, &mut events)?;
/// assert_eq!(codewords, [2.0, 0.0, -2.0, 0.0]);
///
/// // Ten million samples need no more room.
/// profile.training_samples = 10_000_000;
/// assert_eq!(Room::of(&profile)?, room);
/// # Ok::<(), nuqtelya::Refusal>(())
/// ```
#[allow(clippy::too_many_arguments)]
pub fn refine(
    profile: &Profile,
    initial: &[f64],
    samples: &[f64],
    matrices: &[f64],
    codewords: &mut [f32],
    work: &mut [f64],
    counts: &mut [u32],
    events: &mut [Event],
) -> Result<Report, Refusal> {
    let mut report = [u64::MAX; 8];
    let answer = call((0, 2), |whole, real| unsafe {
        with_profile!(fib_refine(
            profile;
            initial.as_ptr(),
            initial.len(),
            samples.as_ptr(),
            samples.len(),
            matrices.as_ptr(),
            matrices.len(),
            codewords.as_mut_ptr(),
            codewords.len(),
            work.as_mut_ptr(),
            work.len(),
            counts.as_mut_ptr(),
            counts.len(),
            events.as_mut_ptr(),
            events.len(),
            &mut report,
            whole,
            real
        ))
    });
    if answer.is_err() && report != [u64::MAX; 8] {
        return Err(Refusal::FOREIGN);
    }
    let (_, [init_mse, best_mse]) = answer?;
    Ok(Report {
        restarts: fits(report[0])?,
        iterations: fits(report[1])?,
        training_samples: fits(report[2])?,
        init_mse,
        best_mse,
        best_restart: Winner::from_members(report[3], report[4])?,
        empty_cells_repaired: fits(report[5])?,
        events_used: fits(report[6])?,
        seed: report[7],
    })
}

/// A completed training.
#[derive(Debug, Clone, PartialEq)]
pub struct Trained {
    /// N codewords of k values.
    pub codewords: Vec<f32>,
    pub report: Report,
    /// The repairs, in order.
    pub events: Vec<Event>,
}

/// [`refine`] with buffers of its own; `event_slots` is the number of repairs that it has room for, and one more is
/// refused (19).
pub fn train(
    profile: &Profile,
    initial: &[f64],
    samples: &[f64],
    matrices: &[f64],
    event_slots: usize,
) -> Result<Trained, Refusal> {
    // Only a profile that is valid bounds the lengths below.
    let room = Room::of(profile)?;
    let (n, k) = (profile.codebook_size as usize, profile.block_dim as usize);
    let (count, restarts) = (profile.training_samples as usize, profile.restarts as usize);
    // A profile alone can ask for gigabytes, so there is room only beside slices of the right lengths. Others are
    // refused by their own numbers, since they come before the buffers.
    let fit = [initial.len(), samples.len(), matrices.len()] == [n * k, count * k, (restarts - 1) * k * k];
    let fitting = |len: usize| if fit { len } else { 0 };
    let mut codewords = vec![0.0; fitting(n * k)];
    let mut work = vec![0.0; fitting(room.floats)];
    let mut counts = vec![0; fitting(room.counts)];
    // More slots than can be lent are refused all the same.
    let mut events = vec![Event::default(); fitting(event_slots.min(MAX_EVENT_SLOTS + 1))];
    let report = refine(profile, initial, samples, matrices, &mut codewords, &mut work, &mut counts, &mut events)?;
    events.truncate(report.events_used as usize);
    Ok(Trained { codewords, report, events })
}
