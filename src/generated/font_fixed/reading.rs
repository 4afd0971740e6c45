// @generated from crates/font_fixed/src/reading.rt by tools/erase

//! Parsing decimals to the raw bits of fixed-point numbers.

#[cfg(doc)]
use crate::definitions::font_fixed::Reading_antt::ParsesFixedPoint;

use crate::font_decimal::{DecimalFault, read_decimal_bytes};

/// Parses a decimal as the nearest 16-bit raw value with `f` fraction bits, rounding half away from
/// zero.
///
/// <details><summary>Contract</summary>
///
/// ```text
/// requires { (6 ≤ f) × (f ≤ 30) }
/// ensures { ParsesFixedPoint w16 f (λ bits. bits) text.now result }
/// ```
/// [Notation](crate::definitions): [`ParsesFixedPoint`]
/// </details>
#[inline(always)]
pub const fn read_bits_16(text: &[u8], f: u32) -> Result<i16, DecimalFault> {
    match read_decimal_bytes(text, f, i16::MIN as i64, i16::MAX as i64) {
        Ok(bits) => Ok(bits as i16),
        Err(fault) => Err(fault),
    }
}

/// Parses a decimal as the nearest 32-bit raw value with `f` fraction bits, rounding half away from
/// zero.
///
/// <details><summary>Contract</summary>
///
/// ```text
/// requires { (6 ≤ f) × (f ≤ 30) }
/// ensures { ParsesFixedPoint w32 f (λ bits. bits) text.now result }
/// ```
/// [Notation](crate::definitions): [`ParsesFixedPoint`]
/// </details>
#[inline(always)]
pub const fn read_bits_32(text: &[u8], f: u32) -> Result<i32, DecimalFault> {
    match read_decimal_bytes(text, f, i32::MIN as i64, i32::MAX as i64) {
        Ok(bits) => Ok(bits as i32),
        Err(fault) => Err(fault),
    }
}

/// Parses a decimal as the nearest 64-bit raw value with `f` fraction bits, rounding half away from
/// zero.
///
/// <details><summary>Contract</summary>
///
/// ```text
/// requires { (6 ≤ f) × (f ≤ 30) }
/// ensures { ParsesFixedPoint w64 f (λ bits. bits) text.now result }
/// ```
/// [Notation](crate::definitions): [`ParsesFixedPoint`]
/// </details>
#[inline(always)]
pub const fn read_bits_64(text: &[u8], f: u32) -> Result<i64, DecimalFault> {
    read_decimal_bytes(text, f, i64::MIN, i64::MAX)
}
