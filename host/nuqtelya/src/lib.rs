//! The proved quantiser, for a Rust program to call.
//!
//! A codebook is trained on sample vectors ([`train`]); a vector is then stored as a short frame of codeword numbers
//! and read back ([`Coder`]). The work is done by functions that are proved (crates `ffi`, `ffi_codes`, `ffi_training` and what they stand on); here
//! are only their calls. Every call is completed or gives a [`Refusal`] with a number of document 01's table, to which
//! document 02 adds 21 and 27; no input makes one panic.
//!
//! Training and coding lend their buffers ([`refine`], [`update`], [`encode`], [`decode`]); `train` and `Coder` bring
//! their own. Frames of older collections, whose norm has four bytes, are written anew by [`frame_to_f16`], and back by
//! [`frame_to_f32`]. Which codewords lie around a block, and not only the nearest, is told by [`codewords_within`];
//! [`Coder::blocks`] has the blocks of a vector.
//!
//! ```
//! use nuqtelya::{train, Coder, Profile};
//!
//! // Vectors of 4 values in blocks of 2, and 2 codewords.
//! let mut profile = Profile::paper_default(4, 2, 2, 7)?;
//! profile.training_samples = 4;
//! profile.restarts = 1;
//! let samples = [1.0, 0.0, 3.0, 0.0, -1.0, 0.0, -3.0, 0.0];
//! let trained = train(&profile, &[1.0, 0.0, -1.0, 0.0], &samples, &[], 16)?;
//! assert_eq!(trained.codewords, [2.0, 0.0, -2.0, 0.0]);
//! assert_eq!((trained.report.init_mse, trained.report.best_mse), (2.0, 1.0));
//!
//! // The matrix would be a rotation; here it leaves a vector as it is.
//! let matrix = [1., 0., 0., 0., 0., 1., 0., 0., 0., 0., 1., 0., 0., 0., 0., 1.];
//! let mut coder = Coder::new(profile, &matrix, &trained.codewords)?;
//! let code = coder.encode(&[3.0, 0.0, -4.0, 0.0])?;
//! assert_eq!(coder.decode(&code.frame)?, [10.0, 0.0, -10.0, 0.0]);
//! // For no block another codeword was as near as the one chosen.
//! assert_eq!(code.tied_blocks, 0);
//!
//! // A frame that was cut is refused, by number and in words.
//! let refusal = coder.decode(&code.frame[..5]).unwrap_err();
//! assert_eq!((refusal.number(), refusal.values()), (8, &[1][..]));
//! assert_eq!(refusal.to_string(), "8: compact frame: under 11 bytes");
//! # Ok::<(), nuqtelya::Refusal>(())
//! ```

mod arithmetic;
mod around;
mod call;
mod codebook;
mod coder;
mod convert;
mod frame;
mod norm;
mod packing;
mod profile;
mod refine;
mod refusal;
mod search;
mod update;
mod vectors;

pub use arithmetic::{f16_to_f32, f64_to_f16, f64_to_f32, sqrt};
pub use around::codewords_within;
pub use codebook::{check_codewords, codeword};
pub use coder::{decode, encode, Code, Coder};
pub use convert::{frame_to_f16, frame_to_f32};
pub use frame::{parse_frame, write_frame, Frame, HEADER_LEN};
pub use norm::{decode_norm, encode_norm};
pub use packing::{pack_indices, unpack_indices};
pub use profile::{
    block_count, default_training_samples, wire_index_bits, Profile, FAIL_CLOSED, NORM_FP16, PROFILE_SCHEMA,
    ROTATION_ALGORITHM, SOURCE_SPHERICAL_BETA, SPLIT_HIGHEST_DISTORTION,
};
pub use refine::{refine, train, Report, Room, Trained, Winner, REPORT_SCHEMA};
pub use refusal::Refusal;
pub use search::{mean_error, nearest, Nearest};
pub use update::{update, Event, UpdateTerms, MAX_EVENT_SLOTS};
pub use vectors::{apply, apply_inverse, mse};
