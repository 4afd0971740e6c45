// @generated from crates/font_c/src/parse.rt by tools/erase

//! Decimals parsed to raw values.

use crate::font_c::fraction::{FontFraction, is_fraction};
use crate::font_c::status::{BAD_FRACTION, NOT_DECIMAL, OK, OUT_OF_RANGE};
use crate::font_fixed::{read_bits_16, read_bits_32, read_bits_64};
use crate::font_types::DecimalFault;

/// Parses a decimal as the nearest 16-bit raw value, rounding half away from zero.
#[unsafe(no_mangle)]
pub unsafe extern "C" fn fty_parse_i16(
    text: *const u8,
    text_len: usize,
    fraction: FontFraction,
    bits: &mut i16,
) -> u32 {
    let text = unsafe { crate::slice(text, text_len) };
    if !is_fraction(16, fraction.bits) {
        return BAD_FRACTION;
    }
    store_reading(read_bits_16(text, fraction.bits), bits)
}

/// Parses a decimal as the nearest 32-bit raw value, rounding half away from zero.
#[unsafe(no_mangle)]
pub unsafe extern "C" fn fty_parse_i32(
    text: *const u8,
    text_len: usize,
    fraction: FontFraction,
    bits: &mut i32,
) -> u32 {
    let text = unsafe { crate::slice(text, text_len) };
    if !is_fraction(32, fraction.bits) {
        return BAD_FRACTION;
    }
    store_reading(read_bits_32(text, fraction.bits), bits)
}

/// Parses a decimal as the nearest 64-bit raw value, rounding half away from zero.
#[unsafe(no_mangle)]
pub unsafe extern "C" fn fty_parse_i64(
    text: *const u8,
    text_len: usize,
    fraction: FontFraction,
    bits: &mut i64,
) -> u32 {
    let text = unsafe { crate::slice(text, text_len) };
    if !is_fraction(64, fraction.bits) {
        return BAD_FRACTION;
    }
    store_reading(read_bits_64(text, fraction.bits), bits)
}

// Stores a parsed value, and returns the status.
fn store_reading<T: Copy>(reading: Result<T, DecimalFault>, place: &mut T) -> u32 {
    match reading {
        Ok(number) => {
            *place = number;
            OK
        }
        Err(DecimalFault::Syntax) => NOT_DECIMAL,
        Err(DecimalFault::OutOfRange) => OUT_OF_RANGE,
    }
}
