//! The proved library's answers and types beside the oracle's.

use nuqtelya::Winner;
use oracle::codec::probe::Frame;
use oracle::profile::probe::{Profile, ROTATION_ALGORITHM, SCHEMA};
use oracle::{lloyd, Answer, Value};

/// An answer with the values of its refusal in the order of the table's row.
pub fn proved<T>(answer: Result<T, nuqtelya::Refusal>) -> Answer<T> {
    answer.map_err(|refusal| {
        let mut values: Vec<Value> = refusal.values().iter().map(|v| Value::Whole(*v)).collect();
        if let Some((given, expected)) = refusal.rates() {
            values.extend([Value::Real(given), Value::Real(expected)]);
        }
        (refusal.number(), values)
    })
}

/// A profile with a log2 of its own.
pub fn profile<'a>(p: &Profile<'a>, log2: f64) -> nuqtelya::Profile<'a> {
    nuqtelya::Profile {
        schema: p.schema.as_bytes(),
        ambient_dim: p.ambient_dim,
        block_dim: p.block_dim,
        codebook_size: p.codebook_size,
        log2,
        paper_rate: p.paper_rate,
        wire_index_bits: p.wire_index_bits,
        wire_rate: p.wire_rate,
        norm_format: p.norm_format,
        rotation_seed: p.rotation_seed,
        rotation_algorithm: p.rotation_algorithm.as_bytes(),
        codebook_seed: p.codebook_seed,
        source_mode: p.source_mode,
        radius_method: p.radius_method,
        direction_method: p.direction_method,
        restarts: p.restarts,
        iterations: p.iterations,
        training_samples: p.training_samples,
        empty_cell_policy: p.empty_cell_policy,
    }
}

/// The default profile; its two texts are constants on both sides.
pub fn paper_default(d: u64, k: u64, n: u64, log2: f64, seed: u64) -> Answer<Profile<'static>> {
    let p = proved(nuqtelya::Profile::paper_default_with(d, k, n, log2, seed))?;
    assert_eq!((p.schema, p.rotation_algorithm), (SCHEMA.as_bytes(), ROTATION_ALGORITHM.as_bytes()));
    Ok(Profile {
        schema: SCHEMA,
        ambient_dim: p.ambient_dim,
        block_dim: p.block_dim,
        codebook_size: p.codebook_size,
        paper_rate: p.paper_rate,
        wire_index_bits: p.wire_index_bits,
        wire_rate: p.wire_rate,
        norm_format: p.norm_format,
        rotation_seed: p.rotation_seed,
        rotation_algorithm: ROTATION_ALGORITHM,
        codebook_seed: p.codebook_seed,
        source_mode: p.source_mode,
        radius_method: p.radius_method,
        direction_method: p.direction_method,
        restarts: p.restarts,
        iterations: p.iterations,
        training_samples: p.training_samples,
        empty_cell_policy: p.empty_cell_policy,
    })
}

pub fn parse_frame(bytes: &[u8]) -> Answer<Frame> {
    let frame = proved(nuqtelya::parse_frame(bytes))?;
    let (norm, indices) = (frame.norm.to_vec(), frame.indices.to_vec());
    Ok(Frame { width: frame.width, count: frame.count, norm, indices })
}

/// A published event as the library's.
pub fn event(event: &lloyd::probe::Event) -> nuqtelya::Event {
    nuqtelya::Event {
        restart: event.restart,
        iteration: event.iteration,
        empty_cell: event.empty_cell,
        donor_cell: event.donor_cell,
        donor_count_before: event.donor_count_before,
        donor_distortion: event.donor_distortion,
        residual_norm: event.residual_norm,
        split_epsilon: event.split_epsilon,
    }
}

/// A published report as the library's, which holds the number of its events. The published 0 may be a start that was
/// kept: a restart wins only with a smaller error.
pub fn report(report: &lloyd::probe::Report) -> nuqtelya::Report {
    nuqtelya::Report {
        restarts: report.restarts,
        iterations: report.iterations,
        training_samples: report.training_samples,
        init_mse: report.init_mse,
        best_mse: report.best_mse,
        best_restart: match report.best_restart {
            0 if report.best_mse >= report.init_mse => Winner::StartKept,
            number => Winner::Restart(number),
        },
        empty_cells_repaired: report.empty_cells_repaired,
        events_used: report.repair_events.len() as u32,
        seed: report.seed,
    }
}
