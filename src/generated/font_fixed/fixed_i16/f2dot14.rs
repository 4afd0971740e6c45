// @generated from crates/font_fixed/src/fixed_i16/f2dot14.rt by tools/erase

//! 2.14 fixed-point numbers (OpenType, data types: F2DOT14, "16-bit signed fixed number with the
//! low 14 bits of fraction (2.14)").

#[cfg(doc)]
use crate::definitions::font_base::Wrap_antt::FitsBits;
#[cfg(doc)]
use crate::definitions::font_decimal::Near_antt::Up as up;
#[cfg(doc)]
use crate::definitions::font_fixed::{
    F2Dot14_antt::f2dot14_bits as bits_of, F2Dot30_antt::f2dot30_bits,
    F48Dot16_antt::f48dot16_bits, Fixed_antt::fixed_bits,
};

use super::FixedI16;
use crate::font_fixed::formats::Format;
use crate::font_fixed::{F2Dot30, F48Dot16, Fixed, fitting_16, nearest_sum};

/// A signed 2.14 fixed-point number, such as a coordinate of a normalized design space.
///
/// The raw value is an `i16` in units of `1 / 16384`. Sums wrap on overflow.
///
/// ```
/// use font_types_proved::F2Dot14;
/// let number = F2Dot14::from_bits(0x6000);
/// assert_eq!(number.to_string(), "1.5");
/// assert_eq!("1.5".parse(), Ok(number));
/// ```
///
/// The source and its contracts: `crates/font_fixed/src/fixed_i16/f2dot14.rt`.
pub type F2Dot14 = FixedI16<14>;

impl Format<16, 14> for F2Dot14 {}

impl F2Dot14 {
    /// The smallest value, -2.
    pub const MIN: Self = Self(-0x8000);

    /// The largest value, `2 - 1 / 16384`.
    pub const MAX: Self = Self(0x7FFF);

    /// The smallest positive value, `1 / 16384`.
    pub const EPSILON: Self = Self(1);

    /// The value 0.
    pub const ZERO: Self = Self(0);

    /// The value 1.
    pub const ONE: Self = Self(0x4000);

    /// The value -1.
    pub const NEG_ONE: Self = Self(-0x4000);

    /// Converts to [`Fixed`], exactly.
    ///
    /// <details><summary>Contract</summary>
    ///
    /// ```text
    /// ensures { fixed_bits result ≡ (bits_of self *ℤ pos 4) }
    /// ```
    /// [Notation](crate::definitions): [`fixed_bits`], [`bits_of`]
    /// </details>
    #[must_use]
    #[inline(always)]
    pub const fn to_fixed(self) -> Fixed {
        Fixed::from_bits(self.0 as i32 * 4)
    }

    /// Converts to [`F2Dot30`], exactly.
    ///
    /// <details><summary>Contract</summary>
    ///
    /// ```text
    /// ensures { f2dot30_bits result ≡ (bits_of self *ℤ pos (2 ^ 16)) }
    /// ```
    /// [Notation](crate::definitions): [`f2dot30_bits`], [`bits_of`]
    /// </details>
    #[must_use]
    #[inline]
    pub const fn to_f2dot30(self) -> F2Dot30 {
        F2Dot30::from_bits(self.0 as i32 * 0x1_0000)
    }

    /// Adds a sum of deltas, exactly. The result is in units of `2^-30`.
    ///
    /// A delta of 1 is one unit of the raw value, `1 / 16384`.
    ///
    /// ```
    /// use font_types_proved::{F2Dot14, F48Dot16};
    /// let moved = F2Dot14::ONE.apply_delta(F48Dot16::from_i64(3));
    /// assert_eq!(moved, (16384 + 3) << 16);
    /// ```
    ///
    /// <details><summary>Contract</summary>
    ///
    /// ```text
    /// ensures { result ≡ (bits_of self *ℤ pos 65536 +ℤ f48dot16_bits delta) }
    /// ```
    /// [Notation](crate::definitions): [`bits_of`], [`f48dot16_bits`]
    /// </details>
    #[must_use]
    #[inline]
    pub fn apply_delta(self, delta: F48Dot16) -> i128 {
        i128::from(self.0) * 0x1_0000 + i128::from(delta.to_bits())
    }

    /// Adds a sum of deltas and rounds to the nearest value, half up, or returns `None` if that is
    /// out of range.
    ///
    /// A delta of 1 is one unit of the raw value, `1 / 16384`.
    ///
    /// ```
    /// use font_types_proved::{F2Dot14, F48Dot16};
    /// let moved = F2Dot14::ONE.checked_add_delta(F48Dot16::ONE);
    /// assert_eq!(moved, Some(F2Dot14::from_bits(0x4001)));
    /// ```
    ///
    /// <details><summary>Contract</summary>
    ///
    /// ```text
    /// ensures variant { IsSome result
    ///     ↔ FitsBits 16 (up (bits_of self *ℤ pos 65536 +ℤ f48dot16_bits delta) 65536) }
    /// ensures value { IfSome result (λ number. bits_of number
    ///     ≡ up (bits_of self *ℤ pos 65536 +ℤ f48dot16_bits delta) 65536) }
    /// ```
    /// [Notation](crate::definitions): [`FitsBits`], [`up`], [`bits_of`], [`f48dot16_bits`]
    /// </details>
    #[must_use]
    #[inline]
    pub const fn checked_add_delta(self, delta: F48Dot16) -> Option<Self> {
        match fitting_16(nearest_sum(self.0 as i32, delta)) {
            Some(bits) => Some(Self(bits)),
            None => None,
        }
    }
}
