// @generated from crates/font_tags/src/longdatetime.rt by tools/erase

//! Dates and times.

#[cfg(doc)]
use crate::definitions::font_base::{
    Bytes_antt::{bytes_of, signed_numeral},
    Wrap_antt::fits_bits,
};
#[cfg(doc)]
use crate::definitions::font_tags::LongDateTime_antt::{date_of, date_seconds};

use crate::font_base::{FixedSize, IdentityEq, Scalar};

/// A date and time, as seconds since 1904-01-01 00:00 UTC; negative before that.
///
/// ```
/// use font_types_proved::{LongDateTime, Scalar};
/// let epoch_of_unix = LongDateTime::read(&[0, 0, 0, 0, 0x7C, 0x25, 0xB0, 0x80]).unwrap();
/// assert_eq!(epoch_of_unix.as_secs(), 2_082_844_800);
/// ```
///
/// The source and its contracts: `crates/font_tags/src/longdatetime.rt`.
#[derive(Clone, Copy, Debug, Default, PartialEq, Eq, PartialOrd, Ord, Hash)]
pub struct LongDateTime(i64);

impl LongDateTime {
    /// Creates a date from seconds since 1904-01-01 00:00 UTC.
    ///
    /// <details><summary>Contract</summary>
    ///
    /// ```text
    /// ensures { date_seconds result ≡ secs }
    /// ```
    /// [Notation](crate::definitions): [`date_seconds`]
    /// </details>
    #[must_use]
    #[inline]
    pub const fn new(secs: i64) -> Self {
        Self(secs)
    }

    /// Returns the seconds since 1904-01-01 00:00 UTC.
    ///
    /// <details><summary>Contract</summary>
    ///
    /// ```text
    /// ensures { result ≡ date_seconds self.now }
    /// ```
    /// [Notation](crate::definitions): [`date_seconds`]
    /// </details>
    #[must_use]
    #[inline]
    pub const fn as_secs(&self) -> i64 {
        self.0
    }

    /// Returns the seconds as big-endian bytes.
    ///
    /// <details><summary>Contract</summary>
    ///
    /// ```text
    /// ensures { result ≡ bytes_of 8 (date_seconds self) }
    /// ```
    /// [Notation](crate::definitions): [`bytes_of`], [`date_seconds`]
    /// </details>
    #[must_use]
    #[inline]
    pub const fn to_be_bytes(self) -> [u8; 8] {
        self.0.to_be_bytes()
    }
}

impl FixedSize for LongDateTime {
    const RAW_BYTE_LEN: usize = 8;
}

/// <details><summary>Contract</summary>
///
/// ```text
/// ghost is_scalar = { λ date. fits_bits 64 (date_seconds date) };
/// ghost of_raw = { λ raw. date_of (signed_numeral 8 raw) };
/// ghost raw_of = { λ date. bytes_of 8 (date_seconds date) };
/// ```
/// [Notation](crate::definitions): [`fits_bits`], [`date_seconds`], [`date_of`], [`signed_numeral`], [`bytes_of`]
/// </details>
impl Scalar for LongDateTime {
    type Raw = [u8; 8];

    #[inline]
    fn from_raw(raw: [u8; 8]) -> LongDateTime {
        LongDateTime(i64::from_raw(raw))
    }

    #[inline]
    fn to_raw(self) -> [u8; 8] {
        self.0.to_raw()
    }
}

impl IdentityEq for LongDateTime {}
