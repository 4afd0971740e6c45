// @generated from crates/font_fixed/src/fixed_i64/f48dot16.rt by tools/erase

//! 48.16 fixed-point numbers: wide enough for sums of deltas, and not stored in any table.

#[cfg(doc)]
use crate::definitions::font_base::Wrap_antt::{FitsBits, wrap};
#[cfg(doc)]
use crate::definitions::font_decimal::Near_antt::Up as up;
#[cfg(doc)]
use crate::definitions::font_fixed::{
    F48Dot16_antt::f48dot16_bits as bits_of, Fixed_antt::fixed_bits, Operations_antt::IsNarrowed,
};

use super::FixedI64;
use crate::font_fixed::formats::Format;
use crate::font_fixed::{Fixed, fitting_32, half_up_64, low_bits, narrow_64};

/// A signed 48.16 fixed-point number, such as a sum of deltas.
///
/// The raw value is an `i64` in units of `1 / 65536`. Sums wrap on overflow.
///
/// ```
/// use font_types_proved::F48Dot16;
/// let number = F48Dot16::from_bits(0x18000);
/// assert_eq!(number.to_string(), "1.5");
/// assert_eq!("1.5".parse(), Ok(number));
/// ```
///
/// The source and its contracts: `crates/font_fixed/src/fixed_i64/f48dot16.rt`.
pub type F48Dot16 = FixedI64<16>;

impl Format<64, 16> for F48Dot16 {}

impl F48Dot16 {
    /// The smallest value, -140737488355328.
    pub const MIN: Self = Self(-0x8000_0000_0000_0000);

    /// The largest value, `140737488355328 - 1 / 65536`.
    pub const MAX: Self = Self(0x7FFF_FFFF_FFFF_FFFF);

    /// The smallest positive value, `1 / 65536`.
    pub const EPSILON: Self = Self(1);

    /// The value 0.
    pub const ZERO: Self = Self(0);

    /// The value 1.
    pub const ONE: Self = Self(0x1_0000);

    /// The value -1.
    pub const NEG_ONE: Self = Self(-0x1_0000);

    /// Converts an integer from `-2^47` to `2^47 - 1`, wrapping on overflow.
    ///
    /// <details><summary>Contract</summary>
    ///
    /// ```text
    /// ensures { bits_of result ≡ wrap 64 (number *ℤ pos (2 ^ 16)) }
    /// ```
    /// [Notation](crate::definitions): [`bits_of`], [`wrap`]
    /// </details>
    #[must_use]
    #[inline(always)]
    pub const fn from_i64(number: i64) -> Self {
        Self(number.wrapping_mul(0x1_0000))
    }

    /// Converts an integer from `-2^47` to `2^47 - 1`, or returns `None` on overflow.
    ///
    /// <details><summary>Contract</summary>
    ///
    /// ```text
    /// ensures variant { IsSome result ↔ FitsBits 64 (number *ℤ pos (2 ^ 16)) }
    /// ensures value { IfSome result (λ wide. bits_of wide ≡ (number *ℤ pos (2 ^ 16))) }
    /// ```
    /// [Notation](crate::definitions): [`FitsBits`], [`bits_of`]
    /// </details>
    #[must_use]
    #[inline]
    pub const fn checked_from_i64(number: i64) -> Option<Self> {
        match number.checked_mul(0x1_0000) {
            Some(bits) => Some(Self(bits)),
            None => None,
        }
    }

    /// Converts an integer, exactly.
    ///
    /// <details><summary>Contract</summary>
    ///
    /// ```text
    /// ensures { bits_of result ≡ (number *ℤ pos (2 ^ 16)) }
    /// ```
    /// [Notation](crate::definitions): [`bits_of`]
    /// </details>
    #[must_use]
    #[inline(always)]
    pub const fn from_i32(number: i32) -> Self {
        Self(number as i64 * 0x1_0000)
    }

    /// Rounds to the nearest integer, half up, wrapped to 48 bits: from `2^47 - 1 / 2` on it gives
    /// `-2^47`.
    ///
    /// <details><summary>Contract</summary>
    ///
    /// ```text
    /// ensures { IsNarrowed 48 (bits_of self) (2 ^ 16) result }
    /// ```
    /// [Notation](crate::definitions): [`IsNarrowed`], [`bits_of`]
    /// </details>
    #[must_use]
    #[inline(always)]
    pub const fn to_i64(self) -> i64 {
        self.wrapping_add(Self(0x8000)).0 >> 16
    }

    /// Rounds to the nearest integer, half up, or returns `None` if `to_i64` wraps.
    ///
    /// <details><summary>Contract</summary>
    ///
    /// ```text
    /// ensures variant { IsSome result ↔ FitsBits 48 (up (bits_of self) (2 ^ 16)) }
    /// ensures value { IfSome result (λ number. number ≡ up (bits_of self) (2 ^ 16)) }
    /// ```
    /// [Notation](crate::definitions): [`FitsBits`], [`up`], [`bits_of`]
    /// </details>
    #[must_use]
    #[inline]
    pub const fn checked_to_i64(self) -> Option<i64> {
        narrow_64(self.0, 16)
    }

    /// Rounds to the nearest integer, half up, wrapped to 32 bits.
    ///
    /// <details><summary>Contract</summary>
    ///
    /// ```text
    /// ensures { IsNarrowed 32 (bits_of self) (2 ^ 16) result }
    /// ```
    /// [Notation](crate::definitions): [`IsNarrowed`], [`bits_of`]
    /// </details>
    #[must_use]
    #[inline(always)]
    pub const fn to_i32(self) -> i32 {
        low_bits(self.to_i64())
    }

    /// Rounds to the nearest integer, half up, or returns `None` on overflow.
    ///
    /// <details><summary>Contract</summary>
    ///
    /// ```text
    /// ensures variant { IsSome result ↔ FitsBits 32 (up (bits_of self) (2 ^ 16)) }
    /// ensures value { IfSome result (λ number. number ≡ up (bits_of self) (2 ^ 16)) }
    /// ```
    /// [Notation](crate::definitions): [`FitsBits`], [`up`], [`bits_of`]
    /// </details>
    #[must_use]
    #[inline]
    pub const fn checked_to_i32(self) -> Option<i32> {
        fitting_32(half_up_64(self.0, 16))
    }

    /// Converts to [`Fixed`], or returns `None` on overflow.
    ///
    /// <details><summary>Contract</summary>
    ///
    /// ```text
    /// ensures variant { IsSome result ↔ FitsBits 32 (bits_of self) }
    /// ensures value { IfSome result (λ fixed. fixed_bits fixed ≡ bits_of self) }
    /// ```
    /// [Notation](crate::definitions): [`FitsBits`], [`bits_of`], [`fixed_bits`]
    /// </details>
    #[must_use]
    #[inline]
    pub const fn checked_to_fixed(self) -> Option<Fixed> {
        match fitting_32(self.0) {
            Some(bits) => Some(Fixed::from_bits(bits)),
            None => None,
        }
    }

    /// Converts to [`Fixed`], wrapping on overflow.
    ///
    /// <details><summary>Contract</summary>
    ///
    /// ```text
    /// ensures { fixed_bits result ≡ wrap 32 (bits_of self) }
    /// ```
    /// [Notation](crate::definitions): [`fixed_bits`], [`wrap`], [`bits_of`]
    /// </details>
    #[must_use]
    #[inline(always)]
    pub const fn to_fixed(self) -> Fixed {
        Fixed::from_bits(low_bits(self.0))
    }
}
