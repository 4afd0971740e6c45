// @generated from crates/font_c/src/delta.rt by tools/erase

//! Sums of deltas, and what they move.

use crate::font_c::status::{COUNT_MISMATCH, OK, OUT_OF_RANGE};
use crate::font_types::{DeltaSum, F48Dot16, FWord, Fixed, UfWord};

/// Adds up the products of 16.16 scalars and deltas, item by item, in 48.16.
#[unsafe(no_mangle)]
pub unsafe extern "C" fn fty_abi_delta_sum(
    scalars: *const i32,
    scalars_len: usize,
    deltas: *const i32,
    deltas_len: usize,
    sum: &mut i64,
) -> u32 {
    let scalars = unsafe { crate::slice(scalars, scalars_len) };
    let deltas = unsafe { crate::slice(deltas, deltas_len) };
    if scalars.len() != deltas.len() {
        return COUNT_MISMATCH;
    }
    let Some(exact) = sum_in_range(scalars, deltas) else {
        return OUT_OF_RANGE;
    };
    *sum = exact.to_bits();
    OK
}

/// Adds a 48.16 delta to signed font units in place, and rounds to the nearest font unit, half up.
#[unsafe(no_mangle)]
pub unsafe extern "C" fn fty_checked_add_delta_i16(delta: i64, units: &mut i16) -> u32 {
    let delta = F48Dot16::from_bits(delta);
    let Some(moved) = FWord::new(*units).checked_add_delta(delta) else {
        return OUT_OF_RANGE;
    };
    *units = moved.to_i16();
    OK
}

/// Adds a 48.16 delta to unsigned font units, as advances are, in place, and rounds to the nearest
/// font unit, half up.
#[unsafe(no_mangle)]
pub unsafe extern "C" fn fty_checked_add_delta_u16(delta: i64, units: &mut u16) -> u32 {
    let delta = F48Dot16::from_bits(delta);
    let Some(moved) = UfWord::new(*units).checked_add_delta(delta) else {
        return OUT_OF_RANGE;
    };
    *units = moved.to_u16();
    OK
}

// Returns the exact sum of the products, item by item, or `None` if it does not fit in 64 bits.
fn sum_in_range(scalars: &[i32], deltas: &[i32]) -> Option<F48Dot16> {
    let mut sum = DeltaSum::new();
    for i in 0..scalars.len() {
        sum.add_product(Fixed::from_bits(scalars[i]), deltas[i]);
    }
    sum.checked_finish()
}
