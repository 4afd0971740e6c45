// @generated from crates/font_base/src/uint24.rt by tools/erase

//! 24-bit unsigned integers.

#[cfg(doc)]
use crate::definitions::font_base::{
    Bytes_antt::{bytes_of, numeral},
    Uint24_antt::{UINT24_MAX, bytes_of_uint24, uint24_number, uint24_of_bytes},
};

use crate::font_base::raw::{FixedSize, IdentityEq, Scalar};
use core::fmt;

/// A 24-bit unsigned integer.
///
/// ```
/// use font_types_proved::Uint24;
/// assert_eq!(Uint24::new(5).to_be_bytes(), [0, 0, 5]);
/// assert!(Uint24::try_from(16777216_usize).is_err());
/// ```
///
/// The source and its contracts: `crates/font_base/src/uint24.rt`.
///
/// <details><summary>Contract</summary>
///
/// ```text
/// ghost in_range: { value < 2 ^ 24 },
/// ```
/// [Notation](crate::definitions)
/// </details>
#[derive(Clone, Copy, PartialEq, Eq, PartialOrd, Ord, Hash)]
pub struct Uint24 {
    value: u32,
}

impl Uint24 {
    /// The smallest value, 0.
    pub const MIN: Self = Uint24 { value: 0 };

    /// The largest value, 16777215.
    pub const MAX: Self = Uint24 { value: 0xFF_FFFF };

    /// Converts a `u32`, saturating at `MAX`.
    ///
    /// <details><summary>Contract</summary>
    ///
    /// ```text
    /// ensures { uint24_number result ≡ min raw UINT24_MAX }
    /// ```
    /// [Notation](crate::definitions): [`uint24_number`], [`UINT24_MAX`]
    /// </details>
    #[must_use]
    #[inline]
    pub const fn new(raw: u32) -> Uint24 {
        if raw > Self::MAX.value { Self::MAX } else { Uint24 { value: raw } }
    }

    /// Converts a `u32`, or returns `None` if it exceeds `MAX`.
    ///
    /// <details><summary>Contract</summary>
    ///
    /// ```text
    /// ensures variant { IsSome result ↔ (raw ≤ UINT24_MAX) }
    /// ensures value { IfSome result (λ n. uint24_number n ≡ raw) }
    /// ```
    /// [Notation](crate::definitions): [`UINT24_MAX`], [`uint24_number`]
    /// </details>
    #[must_use]
    #[inline]
    pub const fn checked_new(raw: u32) -> Option<Uint24> {
        if raw > Self::MAX.value { None } else { Some(Uint24 { value: raw }) }
    }

    /// Returns the value as a `u32`.
    ///
    /// <details><summary>Contract</summary>
    ///
    /// ```text
    /// ensures { result ≡ uint24_number self }
    /// ```
    /// [Notation](crate::definitions): [`uint24_number`]
    /// </details>
    #[must_use]
    #[inline]
    pub const fn to_u32(self) -> u32 {
        self.value
    }

    /// Returns the big-endian bytes.
    ///
    /// <details><summary>Contract</summary>
    ///
    /// ```text
    /// ensures { result ≡ bytes_of 3 (pos (uint24_number self)) }
    /// ```
    /// [Notation](crate::definitions): [`bytes_of`], [`uint24_number`]
    /// </details>
    #[must_use]
    #[inline]
    pub const fn to_be_bytes(self) -> [u8; 3] {
        let [_, high, middle, low] = self.value.to_be_bytes();
        [high, middle, low]
    }

    /// Creates a value from big-endian bytes.
    ///
    /// <details><summary>Contract</summary>
    ///
    /// ```text
    /// ensures bytes { bytes ≡ bytes_of 3 (pos (uint24_number result)) }
    /// ensures number { uint24_number result ≡ numeral bytes }
    /// ```
    /// [Notation](crate::definitions): [`bytes_of`], [`uint24_number`], [`numeral`]
    /// </details>
    #[must_use]
    #[inline]
    pub const fn from_be_bytes(bytes: [u8; 3]) -> Uint24 {
        let [high, middle, low] = bytes;
        let value = u32::from_be_bytes([high, middle, low, 0]) / 0x100;
        Uint24 { value }
    }
}

/// <details><summary>Contract</summary>
///
/// ```text
/// ghost is_default = { λ n. uint24_number n ≡ 0 };
/// ```
/// [Notation](crate::definitions): [`uint24_number`]
/// </details>
impl Default for Uint24 {
    #[inline]
    fn default() -> Uint24 {
        Self::MIN
    }
}

/// <details><summary>Contract</summary>
///
/// ```text
/// ghost debug_output = { λ n. Some (codes "Uint24(" ++ decimal (uint24_number n) ++ codes ")") };
/// ```
/// [Notation](crate::definitions): [`uint24_number`]
/// </details>
impl fmt::Debug for Uint24 {
    fn fmt(&self, f: &mut fmt::Formatter<'_>) -> fmt::Result {
        write!(f, "Uint24({})", self.value)
    }
}

/// <details><summary>Contract</summary>
///
/// ```text
/// ghost output = { λ n. Some (decimal (uint24_number n)) };
/// ghost styled_output = { λ n options. Some (styled_decimal options (uint24_number n)) };
/// ```
/// [Notation](crate::definitions): [`uint24_number`]
/// </details>
impl fmt::Display for Uint24 {
    fn fmt(&self, f: &mut fmt::Formatter<'_>) -> fmt::Result {
        fmt::Display::fmt(&self.value, f)
    }
}

/// <details><summary>Contract</summary>
///
/// ```text
/// ghost from_gives = { λ n number. number ≡ uint24_number n };
/// ```
/// [Notation](crate::definitions): [`uint24_number`]
/// </details>
impl From<Uint24> for u32 {
    #[inline]
    fn from(n: Uint24) -> u32 {
        n.value
    }
}

/// <details><summary>Contract</summary>
///
/// ```text
/// ghost from_gives = { λ n number. number ≡ uint24_number n };
/// ```
/// [Notation](crate::definitions): [`uint24_number`]
/// </details>
impl From<Uint24> for usize {
    #[inline]
    fn from(n: Uint24) -> usize {
        n.value as usize
    }
}

/// The error of a conversion from a `usize` that exceeds [`Uint24::MAX`].
///
/// ```
/// use font_types_proved::{TryFromUint24Error, Uint24};
/// assert_eq!(Uint24::try_from(16_777_216_usize), Err(TryFromUint24Error));
/// ```
///
/// The source and its contracts: `crates/font_base/src/uint24.rt`.
#[derive(Debug, Clone, Copy, PartialEq, Eq)]
pub struct TryFromUint24Error;

impl core::error::Error for TryFromUint24Error {}

impl core::fmt::Display for TryFromUint24Error {
    fn fmt(&self, f: &mut core::fmt::Formatter<'_>) -> core::fmt::Result {
        match self {
            Self => write!(f, "failed to convert usize value into Uint24."),
        }
    }
}

/// Fails if the number exceeds `MAX`.
///
/// <details><summary>Contract</summary>
///
/// ```text
/// ghost try_from_gives = { λ number result. MatchResult result
///     (λ n. uint24_number n ≡ number)
///     (λ _. UINT24_MAX < number) };
/// ```
/// [Notation](crate::definitions): [`uint24_number`], [`UINT24_MAX`]
/// </details>
impl TryFrom<usize> for Uint24 {
    type Error = TryFromUint24Error;

    #[inline]
    fn try_from(number: usize) -> Result<Uint24, TryFromUint24Error> {
        if number > Self::MAX.value as usize {
            Err(TryFromUint24Error)
        } else {
            Ok(Uint24 { value: number as u32 })
        }
    }
}

impl FixedSize for Uint24 {
    const RAW_BYTE_LEN: usize = 3;
}

/// <details><summary>Contract</summary>
///
/// ```text
/// ghost is_scalar = { λ _. true };
/// ghost of_raw = { uint24_of_bytes };
/// ghost raw_of = { bytes_of_uint24 };
/// ```
/// [Notation](crate::definitions): [`uint24_of_bytes`], [`bytes_of_uint24`]
/// </details>
impl Scalar for Uint24 {
    type Raw = [u8; 3];

    #[inline]
    fn from_raw(raw: [u8; 3]) -> Uint24 {
        Uint24::from_be_bytes(raw)
    }

    #[inline]
    fn to_raw(self) -> [u8; 3] {
        self.to_be_bytes()
    }
}

impl IdentityEq for Uint24 {}
