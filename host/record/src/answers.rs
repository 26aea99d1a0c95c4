//! The oracle's answers as the host's file has them.

use crate::form::{Answer, Event, Profile, Refused, Report};
use oracle::profile::probe;
use oracle::{lloyd, Refusal, Value};

pub fn answer<T, R>(answer: Result<T, Refusal>, result: impl FnOnce(T) -> R) -> Answer<R> {
    let (number, values) = match answer {
        Ok(value) => return Ok(result(value)),
        Err(refusal) => refusal,
    };
    let mut refused = Refused { number: number as u8, values: Vec::new(), rates: Vec::new() };
    for value in values {
        match value {
            Value::Whole(whole) => refused.values.push(whole),
            Value::Real(rate) => refused.rates.push(rate),
        }
    }
    Err(refused)
}

pub fn events(events: &[lloyd::probe::Event]) -> Vec<Event> {
    let event = |event: &lloyd::probe::Event| Event {
        restart: event.restart,
        iteration: event.iteration,
        empty_cell: event.empty_cell,
        donor_cell: event.donor_cell,
        donor_count_before: event.donor_count_before,
        donor_distortion: event.donor_distortion,
        residual_norm: event.residual_norm,
        split_epsilon: event.split_epsilon,
    };
    events.iter().map(event).collect()
}

pub fn report(report: &lloyd::probe::Report) -> Report {
    Report {
        restarts: report.restarts,
        iterations: report.iterations,
        training_samples: report.training_samples,
        init_mse: report.init_mse,
        best_mse: report.best_mse,
        best_restart: report.best_restart,
        empty_cells_repaired: report.empty_cells_repaired,
        events_used: report.repair_events.len() as u32,
        seed: report.seed,
    }
}

/// A profile with log2 of its N.
pub fn profile(p: &probe::Profile) -> Profile {
    Profile {
        schema: p.schema.into(),
        ambient_dim: p.ambient_dim,
        block_dim: p.block_dim,
        codebook_size: p.codebook_size,
        log2: oracle::log2(p.codebook_size.into()),
        paper_rate: p.paper_rate,
        wire_index_bits: p.wire_index_bits,
        wire_rate: p.wire_rate,
        norm_format: p.norm_format,
        rotation_seed: p.rotation_seed,
        rotation_algorithm: p.rotation_algorithm.into(),
        codebook_seed: p.codebook_seed,
        source_mode: p.source_mode,
        radius_method: p.radius_method,
        direction_method: p.direction_method,
        restarts: p.restarts,
        iterations: p.iterations,
        training_samples: p.training_samples,
        empty_cell_policy: p.empty_cell_policy,
    }
}

/// What makes a profile unfit, by each of 1 to 6 and each field of 6.
pub const UNFIT: [fn(&mut probe::Profile); 16] = [
    |p| p.schema = "fib_quant_profile_v2",
    |p| p.ambient_dim = 0,
    |p| p.block_dim = 0,
    |p| p.ambient_dim += 1,
    |p| p.ambient_dim = 1 << 15,
    |p| p.codebook_size = 1,
    |p| p.norm_format = 1,
    |p| p.source_mode = 1,
    |p| p.rotation_algorithm = "",
    |p| p.wire_index_bits += 1,
    |p| p.paper_rate += 0.125,
    |p| p.wire_rate = -0.5,
    |p| p.direction_method = 2,
    |p| p.restarts = 0,
    |p| p.iterations = 100_001,
    |p| p.training_samples = p.codebook_size - 1,
];
