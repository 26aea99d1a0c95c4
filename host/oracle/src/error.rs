//! error.rs as published. Its numbers are in `answer`.

use crate::ext::*;

include!(concat!(env!("FIB_SRC"), "error.rs"));
