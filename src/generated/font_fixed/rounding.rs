// @generated from crates/font_fixed/src/rounding.rt by tools/erase

//! Rounding the raw bits of fixed-point numbers to integers.

#[cfg(doc)]
use crate::definitions::font_base::Wrap_antt::FitsBits;
#[cfg(doc)]
use crate::definitions::font_decimal::Near_antt::Up as up;
#[cfg(doc)]
use crate::definitions::font_fixed::{Operations_antt::IsFloor, Rounding_antt::rounded};

/// Returns the raw value of the largest integer less than or equal to a 16-bit value with `f`
/// fraction bits.
///
/// <details><summary>Contract</summary>
///
/// ```text
/// requires { f + 2 ≤ 16 }
/// ensures { IsFloor f bits result }
/// ```
/// [Notation](crate::definitions): [`IsFloor`]
/// </details>
#[must_use]
#[inline(always)]
pub const fn floor_bits_16(bits: i16, f: u32) -> i16 {
    (bits >> f) << f
}

/// Returns the raw value of the largest integer less than or equal to a 32-bit value with `f`
/// fraction bits.
///
/// <details><summary>Contract</summary>
///
/// ```text
/// requires { f + 2 ≤ 32 }
/// ensures { IsFloor f bits result }
/// ```
/// [Notation](crate::definitions): [`IsFloor`]
/// </details>
#[must_use]
#[inline(always)]
pub const fn floor_bits_32(bits: i32, f: u32) -> i32 {
    (bits >> f) << f
}

/// Returns the raw value of the largest integer less than or equal to a 64-bit value with `f`
/// fraction bits.
///
/// <details><summary>Contract</summary>
///
/// ```text
/// requires { f + 2 ≤ 64 }
/// ensures { IsFloor f bits result }
/// ```
/// [Notation](crate::definitions): [`IsFloor`]
/// </details>
#[must_use]
#[inline(always)]
pub const fn floor_bits_64(bits: i64, f: u32) -> i64 {
    (bits >> f) << f
}

/// Returns the raw value of the integer nearest to a 16-bit value with `f` fraction bits, half up,
/// or `None` if it does not fit in 16 bits.
///
/// <details><summary>Contract</summary>
///
/// ```text
/// requires { (6 ≤ f) × (f + 2 ≤ 16) }
/// ensures variant { IsSome result ↔ FitsBits 16 (rounded f bits) }
/// ensures value { IfSome result (λ whole. whole ≡ rounded f bits) }
/// ```
/// [Notation](crate::definitions): [`FitsBits`], [`rounded`]
/// </details>
#[must_use]
#[inline(always)]
pub const fn round_bits_16(bits: i16, f: u32) -> Option<i16> {
    match bits.checked_add(1 << (f - 1)) {
        Some(moved) => Some(floor_bits_16(moved, f)),
        None => None,
    }
}

/// Returns the raw value of the integer nearest to a 32-bit value with `f` fraction bits, half up,
/// or `None` if it does not fit in 32 bits.
///
/// <details><summary>Contract</summary>
///
/// ```text
/// requires { (6 ≤ f) × (f + 2 ≤ 32) }
/// ensures variant { IsSome result ↔ FitsBits 32 (rounded f bits) }
/// ensures value { IfSome result (λ whole. whole ≡ rounded f bits) }
/// ```
/// [Notation](crate::definitions): [`FitsBits`], [`rounded`]
/// </details>
#[must_use]
#[inline(always)]
pub const fn round_bits_32(bits: i32, f: u32) -> Option<i32> {
    match bits.checked_add(1 << (f - 1)) {
        Some(moved) => Some(floor_bits_32(moved, f)),
        None => None,
    }
}

/// Returns the raw value of the integer nearest to a 64-bit value with `f` fraction bits, half up,
/// or `None` if it does not fit in 64 bits.
///
/// <details><summary>Contract</summary>
///
/// ```text
/// requires { (6 ≤ f) × (f + 2 ≤ 64) }
/// ensures variant { IsSome result ↔ FitsBits 64 (rounded f bits) }
/// ensures value { IfSome result (λ whole. whole ≡ rounded f bits) }
/// ```
/// [Notation](crate::definitions): [`FitsBits`], [`rounded`]
/// </details>
#[must_use]
#[inline(always)]
pub const fn round_bits_64(bits: i64, f: u32) -> Option<i64> {
    match bits.checked_add(1 << (f - 1)) {
        Some(moved) => Some(floor_bits_64(moved, f)),
        None => None,
    }
}

/// Returns `n / 2^f`, rounded half up.
///
/// <details><summary>Contract</summary>
///
/// ```text
/// requires { (2 ≤ f) × (f ≤ 30) }
/// ensures { result ≡ up n (2 ^ f) }
/// ```
/// [Notation](crate::definitions): [`up`]
/// </details>
#[inline(always)]
pub(crate) const fn half_up_32(n: i32, f: u32) -> i32 {
    ((n >> (f - 1)) + 1) >> 1
}

/// Returns `bits / 2^f`, rounded half up, or `None` if it does not fit in `32 - f` bits.
///
/// <details><summary>Contract</summary>
///
/// ```text
/// requires { (6 ≤ f) × (f + 2 ≤ 32) }
/// ensures variant { IsSome result ↔ FitsBits (32 - f) (up bits (2 ^ f)) }
/// ensures value { IfSome result (λ number. number ≡ up bits (2 ^ f)) }
/// ```
/// [Notation](crate::definitions): [`FitsBits`], [`up`]
/// </details>
#[inline(always)]
pub(crate) const fn narrow_32(bits: i32, f: u32) -> Option<i32> {
    match round_bits_32(bits, f) {
        Some(whole) => Some(whole >> f),
        None => None,
    }
}

/// Returns `bits / 2^f`, rounded half up, or `None` if it does not fit in `64 - f` bits.
///
/// <details><summary>Contract</summary>
///
/// ```text
/// requires { (6 ≤ f) × (f + 2 ≤ 64) }
/// ensures variant { IsSome result ↔ FitsBits (64 - f) (up bits (2 ^ f)) }
/// ensures value { IfSome result (λ number. number ≡ up bits (2 ^ f)) }
/// ```
/// [Notation](crate::definitions): [`FitsBits`], [`up`]
/// </details>
#[inline(always)]
pub(crate) const fn narrow_64(bits: i64, f: u32) -> Option<i64> {
    match round_bits_64(bits, f) {
        Some(whole) => Some(whole >> f),
        None => None,
    }
}

/// Returns `n / 2^f`, rounded half up.
///
/// <details><summary>Contract</summary>
///
/// ```text
/// requires { (2 ≤ f) × (f ≤ 30) }
/// ensures { result ≡ up n (2 ^ f) }
/// ```
/// [Notation](crate::definitions): [`up`]
/// </details>
#[inline(always)]
pub(crate) const fn half_up_64(n: i64, f: u32) -> i64 {
    ((n >> (f - 1)) + 1) >> 1
}

/// Returns the number, or `None` if it does not fit in 16 bits.
///
/// <details><summary>Contract</summary>
///
/// ```text
/// ensures variant { IsSome result ↔ FitsBits 16 n }
/// ensures value { IfSome result (λ number. number ≡ n) }
/// ```
/// [Notation](crate::definitions): [`FitsBits`]
/// </details>
#[must_use]
#[inline(always)]
pub const fn fitting_16(n: i64) -> Option<i16> {
    if n < -0x8000 || n > 0x7FFF { None } else { Some(n as i16) }
}

/// Returns the number, or `None` if it does not fit in 32 bits.
///
/// <details><summary>Contract</summary>
///
/// ```text
/// ensures variant { IsSome result ↔ FitsBits 32 n }
/// ensures value { IfSome result (λ number. number ≡ n) }
/// ```
/// [Notation](crate::definitions): [`FitsBits`]
/// </details>
#[inline(always)]
pub(crate) const fn fitting_32(n: i64) -> Option<i32> {
    if n < -0x8000_0000 || n > 0x7FFF_FFFF { None } else { Some(n as i32) }
}
