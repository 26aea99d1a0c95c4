//! The areas, in the order in which they run.

mod around;
mod bitpack;
mod codebook;
mod codes;
mod convert;
mod decode;
mod doubles;
mod encode;
mod frame;
mod metrics;
mod narrow;
mod norm;
mod profile;
mod refine;
mod root;
mod rotation;
mod search;
mod training;
mod update;

use crate::run::{Outcome, Run};

type Area = fn(&mut Run) -> Outcome;

pub const ALL: [(&str, Area); 17] = [
    ("narrow", narrow::run),
    ("root", root::run),
    ("bitpack", bitpack::run),
    ("profile", profile::run),
    ("frame", frame::run),
    ("metrics", metrics::run),
    ("rotation", rotation::run),
    ("search", search::run),
    ("update", update::run),
    ("refine", refine::run),
    ("codebook", codebook::run),
    ("norm", norm::run),
    ("encode", encode::run),
    ("decode", decode::run),
    ("convert", convert::run),
    ("doubles", doubles::run),
    ("around", around::run),
];
