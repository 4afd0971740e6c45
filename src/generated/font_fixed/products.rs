// @generated from crates/font_fixed/src/products.rt by tools/erase

//! Products and quotients of 32-bit fixed-point numbers, over their raw bits.

#[cfg(doc)]
use crate::definitions::font_base::Wrap_antt::wrap;
#[cfg(doc)]
use crate::definitions::font_decimal::Near_antt::{Near as near, signed};
#[cfg(doc)]
use crate::definitions::font_fixed::Operations_antt::{
    IsMulDiv, IsProduct, differ_in_sign, rounded_mul_div,
};

/// Multiplies two numbers with `f` fraction bits, rounding half away from zero and wrapping on
/// overflow.
///
/// <details><summary>Contract</summary>
///
/// ```text
/// requires { (6 ≤ f) × (f ≤ 30) }
/// ensures { IsProduct 32 f x y result }
/// ```
/// [Notation](crate::definitions): [`IsProduct`]
/// </details>
#[must_use]
#[inline(always)]
pub const fn product(x: i32, y: i32, f: u32) -> i32 {
    low_bits(nearest_product(x, y, f))
}

/// Returns `x * a / c`, rounded once, half away from zero, wrapping on overflow.
///
/// If `c` is zero, the result is `i32::MAX`, negated if exactly one of `x` and `a` is negative.
///
/// <details><summary>Contract</summary>
///
/// ```text
/// ensures { IsMulDiv 32 x a c result }
/// ```
/// [Notation](crate::definitions): [`IsMulDiv`]
/// </details>
#[must_use]
#[inline(always)]
pub const fn mul_div(x: i32, a: i32, c: i32) -> i32 {
    low_bits(nearest_mul_div(x, a, c))
}

/// Truncates to the low 32 bits.
///
/// <details><summary>Contract</summary>
///
/// ```text
/// ensures { result ≡ wrap 32 n }
/// ```
/// [Notation](crate::definitions): [`wrap`]
/// </details>
#[must_use]
#[inline(always)]
pub const fn low_bits(n: i64) -> i32 {
    // In Rattle, `as` may lose no bit.
    ((n << 32) >> 32) as i32
}

/// Multiplies two numbers with `f` fraction bits, rounding half away from zero.
///
/// <details><summary>Contract</summary>
///
/// ```text
/// requires { (6 ≤ f) × (f ≤ 30) }
/// ensures { result ≡ near (x *ℤ y) (2 ^ f) }
/// ```
/// [Notation](crate::definitions): [`near`]
/// </details>
#[must_use]
#[inline(always)]
pub const fn nearest_product(x: i32, y: i32, f: u32) -> i64 {
    rounded_shift(x as i64 * y as i64, f)
}

// Returns `n / 2^f`, rounded half away from zero.
#[inline(always)]
const fn rounded_shift(n: i64, f: u32) -> i64 {
    let half = 1 << (f - 1);
    (n + half - (n < 0) as i64) >> f
}

/// Returns `x * a / c`, rounded half away from zero, or, if `c` is zero, `i32::MAX`, negated if
/// exactly one of `x` and `a` is negative.
///
/// <details><summary>Contract</summary>
///
/// ```text
/// ensures nearest { c ≢ pos 0 → result ≡ rounded_mul_div x a c }
/// ensures zero { c ≡ pos 0 → result ≡ signed (differ_in_sign x a) (2 ^ 31 - 1) }
/// ```
/// [Notation](crate::definitions): [`rounded_mul_div`], [`signed`], [`differ_in_sign`]
/// </details>
#[inline]
pub(crate) const fn nearest_mul_div(x: i32, a: i32, c: i32) -> i64 {
    let product = magnitude(x) * magnitude(a);
    let negative = differs_in_sign(x, a) != c.is_negative();
    with_sign(negative, rounded_quotient(product, magnitude(c)))
}

// Returns `n / d`, rounded half away from zero, or `i32::MAX` if `d` is zero.
#[inline(always)]
const fn rounded_quotient(n: u64, d: u64) -> u64 {
    if d == 0 { 0x7FFF_FFFF } else { (n + d / 2) / d }
}

// Applies a sign to a magnitude.
#[inline(always)]
const fn with_sign(negative: bool, magnitude: u64) -> i64 {
    if negative { -(magnitude as i64) } else { magnitude as i64 }
}

#[inline(always)]
const fn differs_in_sign(x: i32, y: i32) -> bool {
    x.is_negative() != y.is_negative()
}

// Returns the absolute value.
#[inline(always)]
const fn magnitude(x: i32) -> u64 {
    x.unsigned_abs() as u64
}
