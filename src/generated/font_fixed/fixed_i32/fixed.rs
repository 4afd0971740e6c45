// @generated from crates/font_fixed/src/fixed_i32/fixed.rt by tools/erase

//! 16.16 fixed-point numbers.

#[cfg(doc)]
use crate::definitions::font_base::{
    Bytes_antt::{bytes_of, signed_numeral},
    Wrap_antt::{FitsBits, fits_bits, wrap},
};
#[cfg(doc)]
use crate::definitions::font_decimal::Near_antt::{Near as near, Up as up};
#[cfg(doc)]
use crate::definitions::font_fixed::{
    F2Dot14_antt::f2dot14_bits,
    F2Dot30_antt::f2dot30_bits,
    F26Dot6_antt::f26dot6_bits,
    F48Dot16_antt::f48dot16_bits,
    Fixed_antt::{fixed_bits as bits_of, fixed_of as of_bits},
    Operations_antt::{IsMulDiv, IsNarrowed, IsProduct, IsQuotient, rounded_mul_div},
};

use super::FixedI32;
use crate::font_base::{FixedSize, IdentityEq, Scalar};
use crate::font_fixed::formats::Format;
use crate::font_fixed::{
    F2Dot14, F2Dot30, F26Dot6, F48Dot16, fitting_16, fitting_32, half_up_32, half_up_64, mul_div,
    narrow_32, nearest_mul_div, nearest_product, product,
};
use core::ops::{Div, DivAssign, Mul, MulAssign};

/// A signed 16.16 fixed-point number.
///
/// The raw value is an `i32` in units of `1 / 65536`. Sums, products and quotients wrap on
/// overflow.
///
/// ```
/// use font_types_proved::Fixed;
/// let number = Fixed::from_bits(0x18000);
/// assert_eq!(number.to_string(), "1.5");
/// assert_eq!("1.5".parse(), Ok(number));
/// ```
///
/// The source and its contracts: `crates/font_fixed/src/fixed_i32/fixed.rt`.
pub type Fixed = FixedI32<16>;

impl Format<32, 16> for Fixed {}

impl Fixed {
    /// The smallest value, -32768.
    pub const MIN: Self = Self(-0x8000_0000);

    /// The largest value, `32768 - 1 / 65536`.
    pub const MAX: Self = Self(0x7FFF_FFFF);

    /// The smallest positive value, `1 / 65536`.
    pub const EPSILON: Self = Self(1);

    /// The value 0.
    pub const ZERO: Self = Self(0);

    /// The value 1.
    pub const ONE: Self = Self(0x1_0000);

    /// The value -1.
    pub const NEG_ONE: Self = Self(-0x1_0000);

    /// Returns `self * a / c`, rounded once, half away from zero, wrapping on overflow.
    ///
    /// If `c` is zero, the result is [`Fixed::MAX`], negated if exactly one of `self` and `a` is
    /// negative.
    ///
    /// ```
    /// use font_types_proved::Fixed;
    /// let [hundred, three] = [100, 3].map(Fixed::from_i32);
    /// assert_eq!(hundred.mul_div(Fixed::ONE, three), Fixed::from_bits(2_184_533));
    /// ```
    ///
    /// <details><summary>Contract</summary>
    ///
    /// ```text
    /// ensures { IsMulDiv 32 (bits_of self.now) (bits_of a) (bits_of c)
    ///     (bits_of result) }
    /// ```
    /// [Notation](crate::definitions): [`IsMulDiv`], [`bits_of`]
    /// </details>
    #[doc(alias = "FT_MulDiv")]
    #[must_use]
    #[inline(always)]
    pub const fn mul_div(&self, a: Self, c: Self) -> Self {
        Self(mul_div(self.0, a.0, c.0))
    }

    /// Returns `self * other`, rounded half away from zero, or `None` on overflow.
    ///
    /// <details><summary>Contract</summary>
    ///
    /// ```text
    /// ensures variant { IsSome result
    ///     ↔ FitsBits 32 (near (bits_of self *ℤ bits_of other) (2 ^ 16)) }
    /// ensures value { IfSome result
    ///     (λ product. bits_of product ≡ near (bits_of self *ℤ bits_of other) (2 ^ 16)) }
    /// ```
    /// [Notation](crate::definitions): [`FitsBits`], [`near`], [`bits_of`]
    /// </details>
    #[doc(alias = "FT_MulFix")]
    #[must_use]
    #[inline]
    pub const fn checked_mul(self, other: Self) -> Option<Self> {
        match fitting_32(nearest_product(self.0, other.0, 16)) {
            Some(bits) => Some(Self(bits)),
            None => None,
        }
    }

    /// Returns `self / other`, rounded half away from zero, or `None` on overflow or division by
    /// zero.
    ///
    /// <details><summary>Contract</summary>
    ///
    /// ```text
    /// ensures variant { IsSome result ↔ ((bits_of other ≢ pos 0)
    ///     × FitsBits 32 (rounded_mul_div (bits_of self) (pos (2 ^ 16)) (bits_of other))) }
    /// ensures value { IfSome result (λ quotient. bits_of quotient
    ///     ≡ rounded_mul_div (bits_of self) (pos (2 ^ 16)) (bits_of other)) }
    /// ```
    /// [Notation](crate::definitions): [`bits_of`], [`FitsBits`], [`rounded_mul_div`]
    /// </details>
    #[doc(alias = "FT_DivFix")]
    #[must_use]
    #[inline]
    pub const fn checked_div(self, other: Self) -> Option<Self> {
        self.checked_mul_div(Self::ONE, other)
    }

    /// Returns `self * a / c`, rounded once, half away from zero, or `None` on overflow or if `c`
    /// is zero.
    ///
    /// <details><summary>Contract</summary>
    ///
    /// ```text
    /// ensures variant { IsSome result ↔ ((bits_of c ≢ pos 0)
    ///     × FitsBits 32 (rounded_mul_div (bits_of self) (bits_of a) (bits_of c))) }
    /// ensures value { IfSome result (λ quotient. bits_of quotient
    ///     ≡ rounded_mul_div (bits_of self) (bits_of a) (bits_of c)) }
    /// ```
    /// [Notation](crate::definitions): [`bits_of`], [`FitsBits`], [`rounded_mul_div`]
    /// </details>
    #[must_use]
    #[inline]
    pub const fn checked_mul_div(self, a: Self, c: Self) -> Option<Self> {
        if c.0 == 0 {
            return None;
        }
        match fitting_32(nearest_mul_div(self.0, a.0, c.0)) {
            Some(bits) => Some(Self(bits)),
            None => None,
        }
    }

    /// Converts an integer from -32768 to 32767, wrapping on overflow.
    ///
    /// <details><summary>Contract</summary>
    ///
    /// ```text
    /// ensures wrapped { bits_of result ≡ wrap 32 (number *ℤ pos (2 ^ 16)) }
    /// ensures exact { FitsBits 16 number → bits_of result ≡ (number *ℤ pos (2 ^ 16)) }
    /// ```
    /// [Notation](crate::definitions): [`bits_of`], [`wrap`], [`FitsBits`]
    /// </details>
    #[must_use]
    #[inline(always)]
    pub const fn from_i32(number: i32) -> Self {
        Self(number.wrapping_mul(0x1_0000))
    }

    /// Converts an integer from -32768 to 32767, or returns `None` on overflow.
    ///
    /// <details><summary>Contract</summary>
    ///
    /// ```text
    /// ensures variant { IsSome result ↔ FitsBits 32 (number *ℤ pos (2 ^ 16)) }
    /// ensures value { IfSome result (λ fixed. bits_of fixed ≡ (number *ℤ pos (2 ^ 16))) }
    /// ```
    /// [Notation](crate::definitions): [`FitsBits`], [`bits_of`]
    /// </details>
    #[must_use]
    #[inline]
    pub const fn checked_from_i32(number: i32) -> Option<Self> {
        match number.checked_mul(0x1_0000) {
            Some(bits) => Some(Self(bits)),
            None => None,
        }
    }

    /// Rounds to the nearest integer, half up, wrapped to 16 bits: from 32767.5 on it gives -32768.
    ///
    /// <details><summary>Contract</summary>
    ///
    /// ```text
    /// ensures { IsNarrowed 16 (bits_of self) (2 ^ 16) result }
    /// ```
    /// [Notation](crate::definitions): [`IsNarrowed`], [`bits_of`]
    /// </details>
    #[must_use]
    #[inline(always)]
    pub const fn to_i32(self) -> i32 {
        self.wrapping_add(Self(0x8000)).0 >> 16
    }

    /// Rounds to the nearest integer, half up, or returns `None` if `to_i32` wraps.
    ///
    /// <details><summary>Contract</summary>
    ///
    /// ```text
    /// ensures variant { IsSome result ↔ FitsBits 16 (up (bits_of self) (2 ^ 16)) }
    /// ensures value { IfSome result (λ number. number ≡ up (bits_of self) (2 ^ 16)) }
    /// ```
    /// [Notation](crate::definitions): [`FitsBits`], [`up`], [`bits_of`]
    /// </details>
    #[must_use]
    #[inline]
    pub const fn checked_to_i32(self) -> Option<i32> {
        narrow_32(self.0, 16)
    }

    /// Rounds to the nearest [`F26Dot6`], half up, its raw bits wrapped to 22 bits: from
    /// `32768 - 1 / 128` on it gives -32768.
    ///
    /// <details><summary>Contract</summary>
    ///
    /// ```text
    /// ensures { IsNarrowed 22 (bits_of self) (2 ^ 10) (f26dot6_bits result) }
    /// ```
    /// [Notation](crate::definitions): [`IsNarrowed`], [`bits_of`], [`f26dot6_bits`]
    /// </details>
    #[must_use]
    #[inline(always)]
    pub const fn to_f26dot6(self) -> F26Dot6 {
        F26Dot6::from_bits(self.wrapping_add(Self(0x200)).0 >> 10)
    }

    /// Rounds to the nearest [`F26Dot6`], half up, or returns `None` if `to_f26dot6` wraps.
    ///
    /// <details><summary>Contract</summary>
    ///
    /// ```text
    /// ensures variant { IsSome result ↔ FitsBits 22 (up (bits_of self) (2 ^ 10)) }
    /// ensures value { IfSome result (λ long. f26dot6_bits long ≡ up (bits_of self) (2 ^ 10)) }
    /// ```
    /// [Notation](crate::definitions): [`FitsBits`], [`up`], [`bits_of`], [`f26dot6_bits`]
    /// </details>
    #[must_use]
    #[inline]
    pub const fn checked_to_f26dot6(self) -> Option<F26Dot6> {
        match narrow_32(self.0, 10) {
            Some(bits) => Some(F26Dot6::from_bits(bits)),
            None => None,
        }
    }

    /// Rounds to the nearest [`F2Dot14`], half up, wrapping on overflow.
    ///
    /// <details><summary>Contract</summary>
    ///
    /// ```text
    /// ensures { IsNarrowed 16 (bits_of self) 4 (f2dot14_bits result) }
    /// ```
    /// [Notation](crate::definitions): [`IsNarrowed`], [`bits_of`], [`f2dot14_bits`]
    /// </details>
    #[must_use]
    #[inline(always)]
    pub const fn to_f2dot14(self) -> F2Dot14 {
        F2Dot14::from_bits(low_half(self.quarter()))
    }

    /// Rounds to the nearest [`F2Dot14`], half up, or returns `None` on overflow.
    ///
    /// <details><summary>Contract</summary>
    ///
    /// ```text
    /// ensures variant { IsSome result ↔ FitsBits 16 (up (bits_of self) 4) }
    /// ensures value { IfSome result (λ narrow. f2dot14_bits narrow ≡ up (bits_of self) 4) }
    /// ```
    /// [Notation](crate::definitions): [`FitsBits`], [`up`], [`bits_of`], [`f2dot14_bits`]
    /// </details>
    #[must_use]
    #[inline]
    pub const fn checked_to_f2dot14(self) -> Option<F2Dot14> {
        match fitting_16(half_up_32(self.0, 2) as i64) {
            Some(bits) => Some(F2Dot14::from_bits(bits)),
            None => None,
        }
    }

    /// Converts to [`F2Dot30`], wrapping on overflow: exact from -2 up to but not including 2.
    ///
    /// <details><summary>Contract</summary>
    ///
    /// ```text
    /// ensures { f2dot30_bits result ≡ wrap 32 (bits_of self *ℤ pos (2 ^ 14)) }
    /// ```
    /// [Notation](crate::definitions): [`f2dot30_bits`], [`wrap`], [`bits_of`]
    /// </details>
    #[must_use]
    #[inline]
    pub const fn to_f2dot30(self) -> F2Dot30 {
        F2Dot30::from_bits(self.0.wrapping_mul(0x4000))
    }

    /// Converts to [`F2Dot30`], or returns `None` on overflow.
    ///
    /// <details><summary>Contract</summary>
    ///
    /// ```text
    /// ensures variant { IsSome result ↔ FitsBits 32 (bits_of self *ℤ pos (2 ^ 14)) }
    /// ensures value { IfSome result (λ long. f2dot30_bits long ≡ (bits_of self *ℤ pos (2 ^ 14))) }
    /// ```
    /// [Notation](crate::definitions): [`FitsBits`], [`bits_of`], [`f2dot30_bits`]
    /// </details>
    #[must_use]
    #[inline]
    pub const fn checked_to_f2dot30(self) -> Option<F2Dot30> {
        match self.0.checked_mul(0x4000) {
            Some(bits) => Some(F2Dot30::from_bits(bits)),
            None => None,
        }
    }

    /// Converts to [`F48Dot16`], exactly.
    ///
    /// <details><summary>Contract</summary>
    ///
    /// ```text
    /// ensures { f48dot16_bits result ≡ bits_of self }
    /// ```
    /// [Notation](crate::definitions): [`f48dot16_bits`], [`bits_of`]
    /// </details>
    #[must_use]
    #[inline(always)]
    pub const fn to_f48dot16(self) -> F48Dot16 {
        F48Dot16::from_bits(self.0 as i64)
    }

    /// Returns the exact product with an integer.
    ///
    /// <details><summary>Contract</summary>
    ///
    /// ```text
    /// ensures { f48dot16_bits result ≡ (bits_of self *ℤ number) }
    /// ```
    /// [Notation](crate::definitions): [`f48dot16_bits`], [`bits_of`]
    /// </details>
    #[must_use]
    #[inline(always)]
    pub const fn mul_i32(self, number: i32) -> F48Dot16 {
        F48Dot16::from_bits(self.0 as i64 * number as i64)
    }

    /// Adds a sum of deltas, exactly. The result is in units of `2^-32`.
    ///
    /// A delta of 1 is one unit of the raw value, `1 / 65536`.
    ///
    /// ```
    /// use font_types_proved::{F48Dot16, Fixed};
    /// let moved = Fixed::ONE.apply_delta(F48Dot16::from_i64(3));
    /// assert_eq!(moved, (65536 + 3) << 16);
    /// ```
    ///
    /// <details><summary>Contract</summary>
    ///
    /// ```text
    /// ensures { result ≡ (bits_of self *ℤ pos 65536 +ℤ f48dot16_bits delta) }
    /// ```
    /// [Notation](crate::definitions): [`bits_of`], [`f48dot16_bits`]
    /// </details>
    #[must_use]
    #[inline]
    pub fn apply_delta(self, delta: F48Dot16) -> i128 {
        i128::from(self.0) * 0x1_0000 + i128::from(delta.to_bits())
    }

    // Rounds a result of `apply_delta` to a value, half up, or returns `None` if that is out of
    // range.
    #[inline]
    pub(crate) fn round_delta(moved: i128) -> Option<Self> {
        Some(Self(i32::try_from(nearest_step(moved)).ok()?))
    }

    /// Adds a sum of deltas and rounds to the nearest value, half up, or returns `None` if that is
    /// out of range.
    ///
    /// A delta of 1 is one unit of the raw value, `1 / 65536`.
    ///
    /// ```
    /// use font_types_proved::{F48Dot16, Fixed};
    /// let moved = Fixed::ONE.checked_add_delta(F48Dot16::ONE);
    /// assert_eq!(moved, Some(Fixed::from_bits(0x1_0001)));
    /// ```
    ///
    /// <details><summary>Contract</summary>
    ///
    /// ```text
    /// ensures variant { IsSome result
    ///     ↔ FitsBits 32 (up (bits_of self *ℤ pos 65536 +ℤ f48dot16_bits delta) 65536) }
    /// ensures value { IfSome result (λ number. bits_of number
    ///     ≡ up (bits_of self *ℤ pos 65536 +ℤ f48dot16_bits delta) 65536) }
    /// ```
    /// [Notation](crate::definitions): [`FitsBits`], [`up`], [`bits_of`], [`f48dot16_bits`]
    /// </details>
    #[must_use]
    #[inline]
    pub const fn checked_add_delta(self, delta: F48Dot16) -> Option<Self> {
        match fitting_32(nearest_sum(self.0, delta)) {
            Some(bits) => Some(Self(bits)),
            None => None,
        }
    }

    // A quarter of the raw bits, rounded half up, wrapped to 30 bits.
    #[inline(always)]
    const fn quarter(self) -> i32 {
        self.wrapping_add(Self(2)).0 >> 2
    }
}

/// Returns `moved / 65536`, rounded to the nearest integer, half up.
///
/// <details><summary>Contract</summary>
///
/// ```text
/// ensures { result ≡ up moved 65536 }
/// ```
/// [Notation](crate::definitions): [`up`]
/// </details>
#[must_use]
#[inline]
pub fn nearest_step(moved: i128) -> i128 {
    ((moved >> 15) + 1) >> 1
}

/// Returns the sum of an integer and a delta, rounded to the nearest integer, half up.
///
/// <details><summary>Contract</summary>
///
/// ```text
/// ensures { result ≡ up (number *ℤ pos 65536 +ℤ f48dot16_bits delta) 65536 }
/// ```
/// [Notation](crate::definitions): [`up`], [`f48dot16_bits`]
/// </details>
#[must_use]
#[inline(always)]
pub const fn nearest_sum(number: i32, delta: F48Dot16) -> i64 {
    number as i64 + nearest_integer(delta)
}

// Rounds to the nearest integer, half up.
#[inline(always)]
const fn nearest_integer(delta: F48Dot16) -> i64 {
    half_up_64(delta.to_bits(), 16)
}

// Truncates to the low 16 bits.
#[inline(always)]
const fn low_half(n: i32) -> i16 {
    // In Rattle, `as` may lose no bit.
    ((n.cast_unsigned() & 0xFFFF) as u16).cast_signed()
}

/// Rounds half away from zero, and wraps on overflow.
///
/// <details><summary>Contract</summary>
///
/// ```text
/// ghost mul_gives = { λ x y product.
///     IsProduct 32 16 (bits_of x) (bits_of y) (bits_of product) };
/// ```
/// [Notation](crate::definitions): [`IsProduct`], [`bits_of`]
/// </details>
impl Mul for Fixed {
    type Output = Fixed;

    #[inline(always)]
    fn mul(self, other: Fixed) -> Fixed {
        Self(product(self.0, other.0, 16))
    }
}

/// Rounds half away from zero, and wraps on overflow.
///
/// <details><summary>Contract</summary>
///
/// ```text
/// ghost mul_assign_gives = { λ x y product.
///     IsProduct 32 16 (bits_of x) (bits_of y) (bits_of product) };
/// ```
/// [Notation](crate::definitions): [`IsProduct`], [`bits_of`]
/// </details>
impl MulAssign for Fixed {
    #[inline(always)]
    fn mul_assign(&mut self, other: Fixed) {
        *self = *self * other;
    }
}

/// Rounds half away from zero, and wraps on overflow.
///
/// Division by zero gives [`Fixed::MAX`], or `-Fixed::MAX` if the dividend is negative.
///
/// <details><summary>Contract</summary>
///
/// ```text
/// ghost div_gives = { λ x y quotient.
///     IsQuotient 32 16 (bits_of x) (bits_of y) (bits_of quotient) };
/// ```
/// [Notation](crate::definitions): [`IsQuotient`], [`bits_of`]
/// </details>
impl Div for Fixed {
    type Output = Fixed;

    #[inline(always)]
    fn div(self, other: Fixed) -> Fixed {
        self.mul_div(Self::ONE, other)
    }
}

/// Divides as `/` does.
///
/// <details><summary>Contract</summary>
///
/// ```text
/// ghost div_assign_gives = { λ x y quotient.
///     IsQuotient 32 16 (bits_of x) (bits_of y) (bits_of quotient) };
/// ```
/// [Notation](crate::definitions): [`IsQuotient`], [`bits_of`]
/// </details>
impl DivAssign for Fixed {
    #[inline(always)]
    fn div_assign(&mut self, other: Fixed) {
        *self = *self / other;
    }
}

/// Converts as `from_i32` does, wrapping on overflow.
///
/// `try_from` of an `i32` is std's, and wraps too. To be told of overflow, call
/// `checked_from_i32`:
///
/// ```
/// use font_types_proved::Fixed;
/// assert_eq!(Fixed::try_from(40_000), Ok(Fixed::from_i32(-25_536)));
/// assert_eq!(Fixed::checked_from_i32(40_000), None);
/// ```
///
/// <details><summary>Contract</summary>
///
/// ```text
/// ghost from_gives = { λ number fixed. bits_of fixed ≡ wrap 32 (number *ℤ pos (2 ^ 16)) };
/// ```
/// [Notation](crate::definitions): [`bits_of`], [`wrap`]
/// </details>
impl From<i32> for Fixed {
    #[inline]
    fn from(number: i32) -> Fixed {
        Fixed::from_i32(number)
    }
}

/// Converts exactly, as `to_fixed` does.
///
/// <details><summary>Contract</summary>
///
/// ```text
/// ghost from_gives = { λ number fixed. bits_of fixed ≡ (f2dot14_bits number *ℤ pos 4) };
/// ```
/// [Notation](crate::definitions): [`bits_of`], [`f2dot14_bits`]
/// </details>
impl From<F2Dot14> for Fixed {
    #[inline]
    fn from(number: F2Dot14) -> Fixed {
        number.to_fixed()
    }
}

impl FixedSize for Fixed {
    const RAW_BYTE_LEN: usize = 4;
}

/// <details><summary>Contract</summary>
///
/// ```text
/// ghost is_scalar = { λ x. fits_bits 32 (bits_of x) };
/// ghost of_raw = { λ bytes. of_bits (signed_numeral 4 bytes) };
/// ghost raw_of = { λ x. bytes_of 4 (bits_of x) };
/// ```
/// [Notation](crate::definitions): [`fits_bits`], [`bits_of`], [`of_bits`], [`signed_numeral`], [`bytes_of`]
/// </details>
impl Scalar for Fixed {
    type Raw = [u8; 4];

    #[inline(always)]
    fn from_raw(raw: [u8; 4]) -> Fixed {
        Self(i32::from_raw(raw))
    }

    #[inline(always)]
    fn to_raw(self) -> [u8; 4] {
        self.0.to_raw()
    }
}

impl IdentityEq for Fixed {}
