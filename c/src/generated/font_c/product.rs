// @generated from crates/font_c/src/product.rt by tools/erase

//! Products and quotients of 16.16 and 26.6 raw values.

use crate::font_types::{F26Dot6, Fixed};

/// Multiplies 16.16 values, rounding half away from zero and wrapping on overflow.
#[unsafe(no_mangle)]
pub extern "C" fn fty_fixed_mul(x: i32, y: i32) -> i32 {
    (Fixed::from_bits(x) * Fixed::from_bits(y)).to_bits()
}

/// Divides 16.16 values, rounding half away from zero and wrapping on overflow. Division by zero
/// gives the largest value, negated if `x` is negative.
#[unsafe(no_mangle)]
pub extern "C" fn fty_fixed_div(x: i32, y: i32) -> i32 {
    (Fixed::from_bits(x) / Fixed::from_bits(y)).to_bits()
}

/// Returns `x * a / c`, rounded once, half away from zero, wrapping on overflow. If `c` is zero,
/// the result is the largest value, negated if exactly one of `x` and `a` is negative.
#[unsafe(no_mangle)]
pub extern "C" fn fty_fixed_mul_div(x: i32, a: i32, c: i32) -> i32 {
    Fixed::from_bits(x).mul_div(Fixed::from_bits(a), Fixed::from_bits(c)).to_bits()
}

/// Multiplies 26.6 values, rounding half away from zero and wrapping on overflow.
#[unsafe(no_mangle)]
pub extern "C" fn fty_f26dot6_mul(x: i32, y: i32) -> i32 {
    (F26Dot6::from_bits(x) * F26Dot6::from_bits(y)).to_bits()
}

/// Divides 26.6 values, rounding half away from zero and wrapping on overflow. Division by zero
/// gives the largest value, negated if `x` is negative.
#[unsafe(no_mangle)]
pub extern "C" fn fty_f26dot6_div(x: i32, y: i32) -> i32 {
    (F26Dot6::from_bits(x) / F26Dot6::from_bits(y)).to_bits()
}
