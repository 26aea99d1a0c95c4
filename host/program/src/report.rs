//! What is told about a codebook, its training and its codes.

use crate::book::Book;
use crate::coding::Encoded;
use crate::rotation::Rule;
use nuqtelya::{Event, Profile, Winner, HEADER_LEN, SPLIT_HIGHEST_DISTORTION};
use std::fmt::Write;

/// The shape, the training's report, how its parts came about, and the number of repairs.
pub fn training(book: &Book) -> String {
    let (p, r) = (&book.profile, &book.report);
    let mut text = format!(
        "shape: vectors of {} values (d), blocks of {} (k), {} codewords (N)\n",
        p.ambient_dim, p.block_dim, p.codebook_size
    );
    let _ = writeln!(text, "samples: {} (S)", p.training_samples);
    text.push_str(&origins(book));
    let _ = writeln!(text, "rounds: {} in each of {} restarts", r.iterations, r.restarts);
    let _ = writeln!(text, "mean error of the start: {:.9}", r.init_mse);
    let _ = writeln!(text, "mean error of the codebook: {:.9} ({})", r.best_mse, winner(book));
    let policy = if p.empty_cell_policy == SPLIT_HIGHEST_DISTORTION { "split the worst cell" } else { "refuse" };
    let _ = writeln!(text, "empty cells repaired: {} (policy: {policy})", r.empty_cells_repaired);
    text
}

/// Whose codebook it is. What version 1 does not say the errors do: a restart wins only with a smaller one.
fn winner(book: &Book) -> String {
    let r = &book.report;
    match r.best_restart {
        Winner::Restart(0) if !book.marks_start => {
            let likely = if r.best_mse < r.init_mse { "restart 0" } else { "the start" };
            format!("restart 0 or the start: a file of version 1 does not say; by its errors {likely}")
        }
        winner => winner.to_string(),
    }
}

/// Which parts were handed in, and which were made, by what.
fn origins(book: &Book) -> String {
    let p = &book.profile;
    let parts = [
        ("samples", book.made.samples, true),
        ("start", book.made.start, true),
        ("restart matrices", book.made.matrices, p.restarts > 1),
    ];
    let named = |made: bool| {
        let names = parts.iter().filter(|part| part.2 && part.1 == made).map(|part| part.0);
        names.collect::<Vec<_>>().join(", ")
    };
    let mut text = String::new();
    if !named(true).is_empty() {
        let _ = writeln!(text, "made by the rules of docs/FILES.md: {} (seed {})", named(true), p.codebook_seed);
    }
    if !named(false).is_empty() {
        let _ = writeln!(text, "handed in: {}", named(false));
    }
    let seed = p.rotation_seed;
    text.push_str(&match book.rule {
        Rule::Stored => "rotation: handed in, stored with the codebook\n".to_string(),
        Rule::Reflections => format!("rotation: made by reflections (seed {seed})\n"),
        Rule::Pairs => format!("rotation: made by rotations of pairs (seed {seed})\n"),
    });
    text
}

/// The repairs, at most so many of them.
pub fn repairs(events: &[Event], most: usize) -> String {
    let mut text = String::new();
    for event in events.iter().take(most) {
        let _ = writeln!(
            text,
            "  restart {}, round {}: empty cell {} filled from cell {}, which had {} samples and distortion {:.6}",
            event.restart,
            event.iteration,
            event.empty_cell,
            event.donor_cell,
            event.donor_count_before,
            event.donor_distortion
        );
    }
    if events.len() > most {
        let _ = writeln!(text, "  and {} more", events.len() - most);
    }
    text
}

/// What a code is made of, beside the vector.
pub fn sizes(profile: &Profile, frame_len: usize) -> String {
    let vector = 4 * profile.ambient_dim as usize;
    let indices = frame_len - HEADER_LEN - 2;
    format!(
        "code: {frame_len} bytes for a vector of {vector} ({:.1} times smaller): head {HEADER_LEN}, norm 2, {} indices of {} bits {indices}\n",
        vector as f64 / frame_len as f64,
        profile.ambient_dim / profile.block_dim,
        profile.wire_index_bits
    )
}

/// How many choices of a codeword were tosses.
pub fn tosses(profile: &Profile, encoded: &Encoded) -> String {
    let Encoded { count, tied_blocks, tied_codes, .. } = encoded;
    let blocks = count * u64::from(profile.ambient_dim / profile.block_dim);
    format!(
        "tosses: {tied_blocks} of {blocks} blocks, in {tied_codes} of {count} codes (a toss: another codeword was as near \
         as the one chosen)\n"
    )
}
