// @generated from crates/font_fixed/src/fixed_i32/f26dot6.rt by tools/erase

//! 26.6 fixed-point numbers: the unit of scaled outlines, and not stored in any table.

#[cfg(doc)]
use crate::definitions::font_base::Wrap_antt::{FitsBits, wrap};
#[cfg(doc)]
use crate::definitions::font_decimal::Near_antt::{Near as near, Up as up};
#[cfg(doc)]
use crate::definitions::font_fixed::{
    F26Dot6_antt::f26dot6_bits as bits_of,
    Operations_antt::{IsNarrowed, IsProduct, IsQuotient, rounded_mul_div},
};

use super::FixedI32;
use crate::font_fixed::formats::Format;
use crate::font_fixed::{
    fitting_32, mul_div, narrow_32, nearest_mul_div, nearest_product, product,
};
use core::ops::{Div, DivAssign, Mul, MulAssign};

/// A signed 26.6 fixed-point number, the unit of scaled outlines.
///
/// The raw value is an `i32` in units of `1 / 64`. Sums, products and quotients wrap on overflow.
///
/// ```
/// use font_types_proved::F26Dot6;
/// let number = F26Dot6::from_bits(96);
/// assert_eq!(number.to_string(), "1.5");
/// assert_eq!("1.5".parse(), Ok(number));
/// ```
///
/// The source and its contracts: `crates/font_fixed/src/fixed_i32/f26dot6.rt`.
pub type F26Dot6 = FixedI32<6>;

impl Format<32, 6> for F26Dot6 {}

impl F26Dot6 {
    /// The smallest value, -33554432.
    pub const MIN: Self = Self(-0x8000_0000);

    /// The largest value, `33554432 - 1 / 64`.
    pub const MAX: Self = Self(0x7FFF_FFFF);

    /// The smallest positive value, `1 / 64`.
    pub const EPSILON: Self = Self(1);

    /// The value 0.
    pub const ZERO: Self = Self(0);

    /// The value 1.
    pub const ONE: Self = Self(64);

    /// The value -1.
    pub const NEG_ONE: Self = Self(-64);

    /// Returns `self * other`, rounded half away from zero, or `None` on overflow.
    ///
    /// <details><summary>Contract</summary>
    ///
    /// ```text
    /// ensures variant { IsSome result
    ///     ↔ FitsBits 32 (near (bits_of self *ℤ bits_of other) (2 ^ 6)) }
    /// ensures value { IfSome result
    ///     (λ product. bits_of product ≡ near (bits_of self *ℤ bits_of other) (2 ^ 6)) }
    /// ```
    /// [Notation](crate::definitions): [`FitsBits`], [`near`], [`bits_of`]
    /// </details>
    #[must_use]
    #[inline]
    pub const fn checked_mul(self, other: Self) -> Option<Self> {
        match fitting_32(nearest_product(self.0, other.0, 6)) {
            Some(bits) => Some(Self(bits)),
            None => None,
        }
    }

    /// Returns `self / other`, rounded half away from zero, or `None` on overflow or division by
    /// zero.
    ///
    /// <details><summary>Contract</summary>
    ///
    /// ```text
    /// ensures variant { IsSome result ↔ ((bits_of other ≢ pos 0)
    ///     × FitsBits 32 (rounded_mul_div (bits_of self) (pos (2 ^ 6)) (bits_of other))) }
    /// ensures value { IfSome result (λ quotient. bits_of quotient
    ///     ≡ rounded_mul_div (bits_of self) (pos (2 ^ 6)) (bits_of other)) }
    /// ```
    /// [Notation](crate::definitions): [`bits_of`], [`FitsBits`], [`rounded_mul_div`]
    /// </details>
    #[must_use]
    #[inline]
    pub const fn checked_div(self, other: Self) -> Option<Self> {
        if other.0 == 0 {
            return None;
        }
        match fitting_32(nearest_mul_div(self.0, Self::ONE.0, other.0)) {
            Some(bits) => Some(Self(bits)),
            None => None,
        }
    }

    /// Converts an integer from -33554432 to 33554431, wrapping on overflow.
    ///
    /// <details><summary>Contract</summary>
    ///
    /// ```text
    /// ensures wrapped { bits_of result ≡ wrap 32 (number *ℤ pos (2 ^ 6)) }
    /// ensures exact { FitsBits 26 number → bits_of result ≡ (number *ℤ pos (2 ^ 6)) }
    /// ```
    /// [Notation](crate::definitions): [`bits_of`], [`wrap`], [`FitsBits`]
    /// </details>
    #[must_use]
    #[inline(always)]
    pub const fn from_i32(number: i32) -> Self {
        Self(number.wrapping_mul(64))
    }

    /// Converts an integer from -33554432 to 33554431, or returns `None` on overflow.
    ///
    /// <details><summary>Contract</summary>
    ///
    /// ```text
    /// ensures variant { IsSome result ↔ FitsBits 32 (number *ℤ pos (2 ^ 6)) }
    /// ensures value { IfSome result (λ long. bits_of long ≡ (number *ℤ pos (2 ^ 6))) }
    /// ```
    /// [Notation](crate::definitions): [`FitsBits`], [`bits_of`]
    /// </details>
    #[must_use]
    #[inline]
    pub const fn checked_from_i32(number: i32) -> Option<Self> {
        match number.checked_mul(64) {
            Some(bits) => Some(Self(bits)),
            None => None,
        }
    }

    /// Rounds to the nearest integer, half up, wrapped to 26 bits: from 33554431.5 on it gives
    /// -33554432.
    ///
    /// <details><summary>Contract</summary>
    ///
    /// ```text
    /// ensures { IsNarrowed 26 (bits_of self) (2 ^ 6) result }
    /// ```
    /// [Notation](crate::definitions): [`IsNarrowed`], [`bits_of`]
    /// </details>
    #[must_use]
    #[inline(always)]
    pub const fn to_i32(self) -> i32 {
        self.wrapping_add(Self(32)).0 >> 6
    }

    /// Rounds to the nearest integer, half up, or returns `None` if `to_i32` wraps.
    ///
    /// <details><summary>Contract</summary>
    ///
    /// ```text
    /// ensures variant { IsSome result ↔ FitsBits 26 (up (bits_of self) (2 ^ 6)) }
    /// ensures value { IfSome result (λ number. number ≡ up (bits_of self) (2 ^ 6)) }
    /// ```
    /// [Notation](crate::definitions): [`FitsBits`], [`up`], [`bits_of`]
    /// </details>
    #[must_use]
    #[inline]
    pub const fn checked_to_i32(self) -> Option<i32> {
        narrow_32(self.0, 6)
    }
}

/// Rounds half away from zero, and wraps on overflow.
///
/// <details><summary>Contract</summary>
///
/// ```text
/// ghost mul_gives = { λ x y product.
///     IsProduct 32 6 (bits_of x) (bits_of y) (bits_of product) };
/// ```
/// [Notation](crate::definitions): [`IsProduct`], [`bits_of`]
/// </details>
impl Mul for F26Dot6 {
    type Output = F26Dot6;

    #[inline(always)]
    fn mul(self, other: F26Dot6) -> F26Dot6 {
        Self(product(self.0, other.0, 6))
    }
}

/// Rounds half away from zero, and wraps on overflow.
///
/// <details><summary>Contract</summary>
///
/// ```text
/// ghost mul_assign_gives = { λ x y product.
///     IsProduct 32 6 (bits_of x) (bits_of y) (bits_of product) };
/// ```
/// [Notation](crate::definitions): [`IsProduct`], [`bits_of`]
/// </details>
impl MulAssign for F26Dot6 {
    #[inline(always)]
    fn mul_assign(&mut self, other: F26Dot6) {
        *self = *self * other;
    }
}

/// Rounds half away from zero, and wraps on overflow.
///
/// Division by zero gives [`F26Dot6::MAX`], or `-F26Dot6::MAX` if the dividend is negative.
///
/// <details><summary>Contract</summary>
///
/// ```text
/// ghost div_gives = { λ x y quotient.
///     IsQuotient 32 6 (bits_of x) (bits_of y) (bits_of quotient) };
/// ```
/// [Notation](crate::definitions): [`IsQuotient`], [`bits_of`]
/// </details>
impl Div for F26Dot6 {
    type Output = F26Dot6;

    #[inline(always)]
    fn div(self, other: F26Dot6) -> F26Dot6 {
        Self(mul_div(self.0, Self::ONE.0, other.0))
    }
}

/// Divides as `/` does.
///
/// <details><summary>Contract</summary>
///
/// ```text
/// ghost div_assign_gives = { λ x y quotient.
///     IsQuotient 32 6 (bits_of x) (bits_of y) (bits_of quotient) };
/// ```
/// [Notation](crate::definitions): [`IsQuotient`], [`bits_of`]
/// </details>
impl DivAssign for F26Dot6 {
    #[inline(always)]
    fn div_assign(&mut self, other: F26Dot6) {
        *self = *self / other;
    }
}
