// @generated from crates/font_fixed/src/fixed_i32/f2dot30.rt by tools/erase

//! 2.30 fixed-point numbers. No table of OpenType stores them.

#[cfg(doc)]
use crate::definitions::font_base::{
    Bytes_antt::{bytes_of, signed_numeral},
    Wrap_antt::{FitsBits, fits_bits},
};
#[cfg(doc)]
use crate::definitions::font_decimal::Near_antt::Up as up;
#[cfg(doc)]
use crate::definitions::font_fixed::{
    F2Dot14_antt::f2dot14_bits,
    F2Dot30_antt::{f2dot30_bits as bits_of, f2dot30_of as of_bits},
    Fixed_antt::fixed_bits,
    Operations_antt::IsNarrowed,
};

use super::FixedI32;
use crate::font_base::{FixedSize, IdentityEq, Scalar};
use crate::font_fixed::formats::Format;
use crate::font_fixed::{F2Dot14, Fixed, fitting_16, half_up_32};

/// A signed 2.30 fixed-point number.
///
/// The raw value is an `i32` in units of `1 / 2^30`. Sums wrap on overflow.
///
/// ```
/// use font_types_proved::F2Dot30;
/// let number = F2Dot30::from_bits(0x6000_0000);
/// assert_eq!(number.to_string(), "1.5");
/// assert_eq!("1.5".parse(), Ok(number));
/// ```
///
/// The source and its contracts: `crates/font_fixed/src/fixed_i32/f2dot30.rt`.
pub type F2Dot30 = FixedI32<30>;

impl Format<32, 30> for F2Dot30 {}

impl F2Dot30 {
    /// The smallest value, -2.
    pub const MIN: Self = Self(-0x8000_0000);

    /// The largest value, `2 - 1 / 2^30`.
    pub const MAX: Self = Self(0x7FFF_FFFF);

    /// The smallest positive value, `1 / 2^30`.
    pub const EPSILON: Self = Self(1);

    /// The value 0.
    pub const ZERO: Self = Self(0);

    /// The value 1.
    pub const ONE: Self = Self(0x4000_0000);

    /// The value -1.
    pub const NEG_ONE: Self = Self(-0x4000_0000);

    /// Rounds to the nearest [`Fixed`], half up.
    ///
    /// <details><summary>Contract</summary>
    ///
    /// ```text
    /// ensures { fixed_bits result ≡ up (bits_of self) (2 ^ 14) }
    /// ```
    /// [Notation](crate::definitions): [`fixed_bits`], [`up`], [`bits_of`]
    /// </details>
    #[must_use]
    #[inline(always)]
    pub const fn to_fixed(self) -> Fixed {
        Fixed::from_bits(half_up_32(self.0, 14))
    }

    /// Rounds to the nearest [`F2Dot14`], half up, wrapping on overflow.
    ///
    /// <details><summary>Contract</summary>
    ///
    /// ```text
    /// ensures { IsNarrowed 16 (bits_of self) (2 ^ 16) (f2dot14_bits result) }
    /// ```
    /// [Notation](crate::definitions): [`IsNarrowed`], [`bits_of`], [`f2dot14_bits`]
    /// </details>
    #[must_use]
    #[inline(always)]
    pub const fn to_f2dot14(self) -> F2Dot14 {
        F2Dot14::from_bits((self.wrapping_add(Self(0x8000)).0 >> 16) as i16)
    }

    /// Rounds to the nearest [`F2Dot14`], half up, or returns `None` on overflow.
    ///
    /// <details><summary>Contract</summary>
    ///
    /// ```text
    /// ensures variant { IsSome result ↔ FitsBits 16 (up (bits_of self) (2 ^ 16)) }
    /// ensures value { IfSome result (λ narrow. f2dot14_bits narrow ≡ up (bits_of self) (2 ^ 16)) }
    /// ```
    /// [Notation](crate::definitions): [`FitsBits`], [`up`], [`bits_of`], [`f2dot14_bits`]
    /// </details>
    #[must_use]
    #[inline]
    pub const fn checked_to_f2dot14(self) -> Option<F2Dot14> {
        match fitting_16(half_up_32(self.0, 16) as i64) {
            Some(bits) => Some(F2Dot14::from_bits(bits)),
            None => None,
        }
    }
}

/// Converts exactly, as `to_f2dot30` does.
///
/// <details><summary>Contract</summary>
///
/// ```text
/// ghost from_gives = { λ number long. bits_of long ≡ (f2dot14_bits number *ℤ pos (2 ^ 16)) };
/// ```
/// [Notation](crate::definitions): [`bits_of`], [`f2dot14_bits`]
/// </details>
impl From<F2Dot14> for F2Dot30 {
    #[inline]
    fn from(number: F2Dot14) -> F2Dot30 {
        number.to_f2dot30()
    }
}

impl FixedSize for F2Dot30 {
    const RAW_BYTE_LEN: usize = 4;
}

/// <details><summary>Contract</summary>
///
/// ```text
/// ghost is_scalar = { λ x. fits_bits 32 (bits_of x) };
/// ghost of_raw = { λ bytes. of_bits (signed_numeral 4 bytes) };
/// ghost raw_of = { λ x. bytes_of 4 (bits_of x) };
/// ```
/// [Notation](crate::definitions): [`fits_bits`], [`bits_of`], [`of_bits`], [`signed_numeral`], [`bytes_of`]
/// </details>
impl Scalar for F2Dot30 {
    type Raw = [u8; 4];

    #[inline(always)]
    fn from_raw(raw: [u8; 4]) -> F2Dot30 {
        Self(i32::from_raw(raw))
    }

    #[inline(always)]
    fn to_raw(self) -> [u8; 4] {
        self.0.to_raw()
    }
}

impl IdentityEq for F2Dot30 {}
