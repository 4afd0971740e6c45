// @generated from crates/font_base/src/int24.rt by tools/erase

//! 24-bit signed integers.

#[cfg(doc)]
use crate::definitions::font_base::{
    Bytes_antt::{bytes_of, signed_numeral},
    Int24_antt::{INT24_MAX, INT24_MIN, bytes_of_int24, int24_number, int24_of_bytes},
};

use crate::font_base::raw::{FixedSize, IdentityEq, Scalar};
use core::fmt;

/// A 24-bit signed integer.
///
/// ```
/// use font_types_proved::Int24;
/// assert_eq!(Int24::new(-2).to_be_bytes(), [0xFF, 0xFF, 0xFE]);
/// assert_eq!(Int24::checked_new(8388608), None);
/// ```
///
/// The source and its contracts: `crates/font_base/src/int24.rt`.
///
/// <details><summary>Contract</summary>
///
/// ```text
/// ghost low: { neg_ℤ (pos 8388608) ≤ℤ value },
/// ghost high: { value <ℤ pos 8388608 },
/// ```
/// [Notation](crate::definitions)
/// </details>
#[derive(Clone, Copy, PartialEq, Eq, PartialOrd, Ord, Hash)]
pub struct Int24 {
    value: i32,
}

impl Int24 {
    /// The smallest value, -8388608.
    pub const MIN: Self = Int24 { value: -0x80_0000 };

    /// The largest value, 8388607.
    pub const MAX: Self = Int24 { value: 0x7F_FFFF };

    /// Converts an `i32`, saturating at `MIN` and `MAX`.
    ///
    /// <details><summary>Contract</summary>
    ///
    /// ```text
    /// ensures { int24_number result ≡ int_max INT24_MIN (int_min raw INT24_MAX) }
    /// ```
    /// [Notation](crate::definitions): [`int24_number`], [`INT24_MIN`], [`INT24_MAX`]
    /// </details>
    #[must_use]
    #[inline]
    pub const fn new(raw: i32) -> Int24 {
        if raw < Self::MIN.value {
            Self::MIN
        } else if raw > Self::MAX.value {
            Self::MAX
        } else {
            Int24 { value: raw }
        }
    }

    /// Converts an `i32`, or returns `None` if it is out of range.
    ///
    /// <details><summary>Contract</summary>
    ///
    /// ```text
    /// ensures variant { IsSome result ↔ ((INT24_MIN ≤ℤ raw) × (raw ≤ℤ INT24_MAX)) }
    /// ensures value { IfSome result (λ n. int24_number n ≡ raw) }
    /// ```
    /// [Notation](crate::definitions): [`INT24_MIN`], [`INT24_MAX`], [`int24_number`]
    /// </details>
    #[must_use]
    #[inline]
    pub const fn checked_new(raw: i32) -> Option<Int24> {
        if raw < Self::MIN.value || raw > Self::MAX.value {
            None
        } else {
            Some(Int24 { value: raw })
        }
    }

    /// Returns the value as an `i32`.
    ///
    /// <details><summary>Contract</summary>
    ///
    /// ```text
    /// ensures { result ≡ int24_number self }
    /// ```
    /// [Notation](crate::definitions): [`int24_number`]
    /// </details>
    #[must_use]
    #[inline]
    pub const fn to_i32(self) -> i32 {
        self.value
    }

    /// Returns the big-endian bytes, in two's complement.
    ///
    /// <details><summary>Contract</summary>
    ///
    /// ```text
    /// ensures { result ≡ bytes_of 3 (int24_number self) }
    /// ```
    /// [Notation](crate::definitions): [`bytes_of`], [`int24_number`]
    /// </details>
    #[must_use]
    #[inline]
    pub const fn to_be_bytes(self) -> [u8; 3] {
        let [_, high, middle, low] = self.value.to_be_bytes();
        [high, middle, low]
    }

    /// Creates a value from big-endian bytes in two's complement.
    ///
    /// <details><summary>Contract</summary>
    ///
    /// ```text
    /// ensures bytes { bytes ≡ bytes_of 3 (int24_number result) }
    /// ensures number { int24_number result ≡ signed_numeral 3 bytes }
    /// ```
    /// [Notation](crate::definitions): [`bytes_of`], [`int24_number`], [`signed_numeral`]
    /// </details>
    #[must_use]
    #[inline]
    pub const fn from_be_bytes(bytes: [u8; 3]) -> Int24 {
        let [high, middle, low] = bytes;
        let value = i32::from_be_bytes([high, middle, low, 0]) / 0x100;
        Int24 { value }
    }
}

/// <details><summary>Contract</summary>
///
/// ```text
/// ghost is_default = { λ n. int24_number n ≡ pos 0 };
/// ```
/// [Notation](crate::definitions): [`int24_number`]
/// </details>
impl Default for Int24 {
    #[inline]
    fn default() -> Int24 {
        Int24 { value: 0 }
    }
}

/// <details><summary>Contract</summary>
///
/// ```text
/// ghost debug_output = { λ n. Some
///     (codes "Int24(" ++ signed_decimal (int24_number n) ++ codes ")") };
/// ```
/// [Notation](crate::definitions): [`int24_number`]
/// </details>
impl fmt::Debug for Int24 {
    fn fmt(&self, f: &mut fmt::Formatter<'_>) -> fmt::Result {
        write!(f, "Int24({})", self.value)
    }
}

/// <details><summary>Contract</summary>
///
/// ```text
/// ghost output = { λ n. Some (signed_decimal (int24_number n)) };
/// ghost styled_output = { λ n options. Some (styled_signed_decimal options (int24_number n)) };
/// ```
/// [Notation](crate::definitions): [`int24_number`]
/// </details>
impl fmt::Display for Int24 {
    fn fmt(&self, f: &mut fmt::Formatter<'_>) -> fmt::Result {
        fmt::Display::fmt(&self.value, f)
    }
}

/// <details><summary>Contract</summary>
///
/// ```text
/// ghost from_gives = { λ n number. number ≡ int24_number n };
/// ```
/// [Notation](crate::definitions): [`int24_number`]
/// </details>
impl From<Int24> for i32 {
    #[inline]
    fn from(n: Int24) -> i32 {
        n.value
    }
}

impl FixedSize for Int24 {
    const RAW_BYTE_LEN: usize = 3;
}

/// <details><summary>Contract</summary>
///
/// ```text
/// ghost is_scalar = { λ _. true };
/// ghost of_raw = { int24_of_bytes };
/// ghost raw_of = { bytes_of_int24 };
/// ```
/// [Notation](crate::definitions): [`int24_of_bytes`], [`bytes_of_int24`]
/// </details>
impl Scalar for Int24 {
    type Raw = [u8; 3];

    #[inline]
    fn from_raw(raw: [u8; 3]) -> Int24 {
        Int24::from_be_bytes(raw)
    }

    #[inline]
    fn to_raw(self) -> [u8; 3] {
        self.to_be_bytes()
    }
}

impl IdentityEq for Int24 {}
