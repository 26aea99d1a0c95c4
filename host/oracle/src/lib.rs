//! The published fib-quant Rust as an oracle.
//!
//! Each module below includes one published file unchanged, from the folder FIB_SRC at build time, and has under it a
//! module `probe`: plain functions on slices, whose refusals are the numbers and values of document 01. Probes are meant
//! for the domain of the comparison; where the Rust panics, or fails in a way that has no number, so do they.

#![allow(dead_code, unexpected_cfgs, unused_variables)]

mod answer;
mod ext;
mod half;
mod standins;

pub mod binary16;
pub mod bitpack;
pub mod codebook;
pub mod codec;
pub mod error;
pub mod inputs;
pub mod lloyd;
pub mod metrics;
pub mod profile;
pub mod rotation;

pub use answer::{Answer, Refusal, Value};
pub use half::f16;

// The names by which the published files reach each other.
use error::{FibQuantError, Result};
use standins::{digest, directions, receipt, spherical_beta};

/// log2 of the library, at run time: the argument is hidden from the compiler, which might work out another.
pub fn log2(n: u64) -> f64 {
    std::hint::black_box(n as f64).log2()
}
