//! How an export is called.
//!
//! An export takes its arguments, a slice as a pointer and a length, then room for values, and returns 0 or the number
//! of a refusal. The values of the refusal's row, or of a result that is a number, stand in `whole` and `real`, and what
//! is left of both holds zeros.

use crate::Refusal;

pub type Whole<'a> = &'a mut [u64; 4];
pub type Real<'a> = &'a mut [f64; 2];

/// Calls an export with room for values, and takes its answer apart. `results` is how many whole and real values a
/// completed call has. It is inlined, since a short search takes hardly longer than a call.
#[inline(always)]
pub fn call(results: (usize, usize), export: impl FnOnce(Whole, Real) -> u32) -> Result<([u64; 4], [f64; 2]), Refusal> {
    let mut whole = [u64::MAX; 4];
    let mut real = [f64::NAN; 2];
    let number = export(&mut whole, &mut real);
    if number != 0 {
        return Err(refused(number, whole, real));
    }
    if no_more(results, &whole, &real) {
        Ok((whole, real))
    } else {
        Err(Refusal::FOREIGN)
    }
}

/// The refusal of this number, with the values of its row.
#[cold]
fn refused(number: u32, whole: [u64; 4], real: [f64; 2]) -> Refusal {
    if no_more(Refusal::row(number, whole[0]), &whole, &real) {
        Refusal::new(number, whole, real)
    } else {
        Refusal::FOREIGN
    }
}

/// Whether zeros follow so many whole and real values.
#[inline(always)]
fn no_more((wholes, reals): (usize, usize), whole: &[u64; 4], real: &[f64; 2]) -> bool {
    whole[wholes..].iter().all(|v| *v == 0) && real[reals..].iter().all(|v| v.to_bits() == 0)
}

/// The same for an export whose result is no number.
pub fn call_checked(export: impl FnOnce(Whole, Real) -> u32) -> Result<(), Refusal> {
    call((0, 0), export).map(|_| ())
}

/// A value as the type that it must fit.
pub fn fits<T: TryFrom<u64>>(value: u64) -> Result<T, Refusal> {
    T::try_from(value).map_err(|_| Refusal::FOREIGN)
}

/// A value that must be 0 or 1.
#[inline]
pub fn mark(value: u64) -> Result<bool, Refusal> {
    match value {
        0 => Ok(false),
        1 => Ok(true),
        _ => Err(Refusal::FOREIGN),
    }
}

/// Declares an export that takes a profile's fields, and then these arguments.
macro_rules! profile_export {
    ($name:ident($($after:ident: $after_type:ty),*)) => {
        extern "C" {
            fn $name(
                schema: *const u8,
                schema_len: usize,
                ambient_dim: u32,
                block_dim: u32,
                codebook_size: u32,
                log2: f64,
                paper_rate: f64,
                wire_index_bits: u8,
                wire_rate: f64,
                norm_format: u8,
                rotation_seed: u64,
                rotation_algorithm: *const u8,
                rotation_algorithm_len: usize,
                codebook_seed: u64,
                source_mode: u8,
                radius_method: u8,
                direction_method: u8,
                restarts: u32,
                iterations: u32,
                training_samples: u32,
                empty_cell_policy: u8,
                $($after: $after_type,)*
                whole: $crate::call::Whole,
                real: $crate::call::Real,
            ) -> u32;
        }
    };
}

/// Calls such an export with the fields of profile `$p`.
macro_rules! with_profile {
    ($name:ident($p:expr; $($after:expr),*)) => {
        $name(
            $p.schema.as_ptr(),
            $p.schema.len(),
            $p.ambient_dim,
            $p.block_dim,
            $p.codebook_size,
            $p.log2,
            $p.paper_rate,
            $p.wire_index_bits,
            $p.wire_rate,
            $p.norm_format,
            $p.rotation_seed,
            $p.rotation_algorithm.as_ptr(),
            $p.rotation_algorithm.len(),
            $p.codebook_seed,
            $p.source_mode,
            $p.radius_method,
            $p.direction_method,
            $p.restarts,
            $p.iterations,
            $p.training_samples,
            $p.empty_cell_policy,
            $($after),*
        )
    };
}

pub(crate) use {profile_export, with_profile};
