// @generated from crates/font_ids/src/fword.rt by tools/erase

//! 16-bit quantities in font design units.

#[cfg(doc)]
use crate::definitions::font_base::{
    Bytes_antt::{bytes_of, numeral, signed_numeral},
    Wrap_antt::{FitsBits, fits_bits, wrap},
};
#[cfg(doc)]
use crate::definitions::font_fixed::{F48Dot16_antt::f48dot16_bits, Fixed_antt::fixed_bits};
#[cfg(doc)]
use crate::definitions::font_ids::FWord_antt::{
    fword_number, fword_of, nearest_unit, ufword_number, ufword_of,
};

use crate::font_base::{FixedSize, IdentityEq, Scalar};
use crate::font_fixed::{F48Dot16, Fixed, fitting_16, nearest_sum};
use core::fmt;

/// A signed 16-bit quantity in font design units.
///
/// ```
/// use font_types_proved::{FWord, Fixed, Scalar};
/// let ascender = FWord::read(&[0xFF, 0xFE]).unwrap();
/// assert_eq!(ascender.to_fixed(), Fixed::from_i32(-2));
/// ```
///
/// The source and its contracts: `crates/font_ids/src/fword.rt`.
#[derive(Clone, Copy, Debug, Default, PartialEq, Eq, PartialOrd, Ord, Hash)]
pub struct FWord(i16);

impl FWord {
    /// Creates a quantity from a number of font units.
    ///
    /// <details><summary>Contract</summary>
    ///
    /// ```text
    /// ensures { fword_number result ≡ raw }
    /// ```
    /// [Notation](crate::definitions): [`fword_number`]
    /// </details>
    #[must_use]
    #[inline]
    pub const fn new(raw: i16) -> Self {
        Self(raw)
    }

    /// Returns the number of font units.
    ///
    /// <details><summary>Contract</summary>
    ///
    /// ```text
    /// ensures { result ≡ fword_number self }
    /// ```
    /// [Notation](crate::definitions): [`fword_number`]
    /// </details>
    #[must_use]
    #[inline]
    pub const fn to_i16(self) -> i16 {
        self.0
    }

    /// Converts to 16.16, exactly.
    ///
    /// <details><summary>Contract</summary>
    ///
    /// ```text
    /// ensures { fixed_bits result ≡ (fword_number self *ℤ pos (2 ^ 16)) }
    /// ```
    /// [Notation](crate::definitions): [`fixed_bits`], [`fword_number`]
    /// </details>
    #[must_use]
    #[inline]
    pub const fn to_fixed(self) -> Fixed {
        Fixed::from_i32(self.to_i16() as i32)
    }

    /// Adds a sum of deltas, exactly. The result is a 16.16 raw value.
    ///
    /// ```
    /// use font_types_proved::{F48Dot16, FWord};
    /// let moved = FWord::new(500).apply_delta(F48Dot16::from_i64(20));
    /// assert_eq!(moved, 520 << 16);
    /// ```
    ///
    /// <details><summary>Contract</summary>
    ///
    /// ```text
    /// ensures { result ≡ (fword_number self *ℤ pos 65536 +ℤ f48dot16_bits delta) }
    /// ```
    /// [Notation](crate::definitions): [`fword_number`], [`f48dot16_bits`]
    /// </details>
    #[must_use]
    #[inline]
    pub fn apply_delta(self, delta: F48Dot16) -> i128 {
        i128::from(self.to_i16()) * 0x1_0000 + i128::from(delta.to_bits())
    }

    /// Adds a sum of deltas and rounds to the nearest font unit, half up, or returns `None` if that
    /// is out of range.
    ///
    /// ```
    /// use font_types_proved::{F48Dot16, FWord};
    /// let delta = F48Dot16::from_bits(0x18000);
    /// assert_eq!(FWord::new(100).checked_add_delta(delta), Some(FWord::new(102)));
    /// ```
    ///
    /// <details><summary>Contract</summary>
    ///
    /// ```text
    /// ensures variant { IsSome result ↔ FitsBits 16
    ///     (nearest_unit (fword_number self *ℤ pos 65536 +ℤ f48dot16_bits delta)) }
    /// ensures value { IfSome result (λ word. fword_number word
    ///     ≡ nearest_unit (fword_number self *ℤ pos 65536 +ℤ f48dot16_bits delta)) }
    /// ```
    /// [Notation](crate::definitions): [`FitsBits`], [`nearest_unit`], [`fword_number`], [`f48dot16_bits`]
    /// </details>
    #[must_use]
    #[inline]
    pub const fn checked_add_delta(self, delta: F48Dot16) -> Option<FWord> {
        match fitting_16(nearest_sum(self.0 as i32, delta)) {
            Some(number) => Some(Self(number)),
            None => None,
        }
    }

    /// Returns the big-endian bytes.
    ///
    /// <details><summary>Contract</summary>
    ///
    /// ```text
    /// ensures { result ≡ bytes_of 2 (fword_number self) }
    /// ```
    /// [Notation](crate::definitions): [`bytes_of`], [`fword_number`]
    /// </details>
    #[must_use]
    #[inline]
    pub const fn to_be_bytes(self) -> [u8; 2] {
        self.0.to_be_bytes()
    }
}

/// <details><summary>Contract</summary>
///
/// ```text
/// ghost output = { λ word. Some (signed_decimal (fword_number word)) };
/// ghost styled_output = { λ word options. Some
///     (styled_signed_decimal options (fword_number word)) };
/// ```
/// [Notation](crate::definitions): [`fword_number`]
/// </details>
impl fmt::Display for FWord {
    fn fmt(&self, f: &mut fmt::Formatter<'_>) -> fmt::Result {
        fmt::Display::fmt(&self.0, f)
    }
}

/// <details><summary>Contract</summary>
///
/// ```text
/// ghost from_gives = { λ number word. fword_number word ≡ number };
/// ```
/// [Notation](crate::definitions): [`fword_number`]
/// </details>
impl From<i16> for FWord {
    #[inline]
    fn from(number: i16) -> FWord {
        FWord(number)
    }
}

/// <details><summary>Contract</summary>
///
/// ```text
/// ghost from_gives = { λ word number. number ≡ fword_number word };
/// ```
/// [Notation](crate::definitions): [`fword_number`]
/// </details>
impl From<FWord> for i16 {
    #[inline]
    fn from(word: FWord) -> i16 {
        word.0
    }
}

/// <details><summary>Contract</summary>
///
/// ```text
/// ghost from_gives = { λ word number. number ≡ fword_number word };
/// ```
/// [Notation](crate::definitions): [`fword_number`]
/// </details>
impl From<FWord> for i32 {
    #[inline]
    fn from(word: FWord) -> i32 {
        i32::from(word.0)
    }
}

/// Converts as `to_fixed` does, exactly.
///
/// <details><summary>Contract</summary>
///
/// ```text
/// ghost from_gives = { λ word x. fixed_bits x ≡ (fword_number word *ℤ pos (2 ^ 16)) };
/// ```
/// [Notation](crate::definitions): [`fixed_bits`], [`fword_number`]
/// </details>
impl From<FWord> for Fixed {
    #[inline]
    fn from(word: FWord) -> Fixed {
        word.to_fixed()
    }
}

impl FixedSize for FWord {
    const RAW_BYTE_LEN: usize = 2;
}

/// <details><summary>Contract</summary>
///
/// ```text
/// ghost is_scalar = { λ word. fits_bits 16 (fword_number word) };
/// ghost of_raw = { λ raw. fword_of (signed_numeral 2 raw) };
/// ghost raw_of = { λ word. bytes_of 2 (fword_number word) };
/// ```
/// [Notation](crate::definitions): [`fits_bits`], [`fword_number`], [`fword_of`], [`signed_numeral`], [`bytes_of`]
/// </details>
impl Scalar for FWord {
    type Raw = [u8; 2];

    #[inline]
    fn from_raw(raw: [u8; 2]) -> FWord {
        FWord(i16::from_raw(raw))
    }

    #[inline]
    fn to_raw(self) -> [u8; 2] {
        i16::to_raw(self.0)
    }
}

impl IdentityEq for FWord {}

/// An unsigned 16-bit quantity in font design units.
///
/// ```
/// use font_types_proved::{Scalar, UfWord};
/// assert_eq!(UfWord::read(&[0xFF, 0xFE]), Some(UfWord::new(65534)));
/// ```
///
/// The source and its contracts: `crates/font_ids/src/fword.rt`.
#[derive(Clone, Copy, Debug, Default, PartialEq, Eq, PartialOrd, Ord, Hash)]
pub struct UfWord(u16);

impl UfWord {
    /// Creates a quantity from a number of font units.
    ///
    /// <details><summary>Contract</summary>
    ///
    /// ```text
    /// ensures { ufword_number result ≡ raw }
    /// ```
    /// [Notation](crate::definitions): [`ufword_number`]
    /// </details>
    #[must_use]
    #[inline]
    pub const fn new(raw: u16) -> Self {
        Self(raw)
    }

    /// Returns the number of font units.
    ///
    /// <details><summary>Contract</summary>
    ///
    /// ```text
    /// ensures { result ≡ ufword_number self }
    /// ```
    /// [Notation](crate::definitions): [`ufword_number`]
    /// </details>
    #[must_use]
    #[inline]
    pub const fn to_u16(self) -> u16 {
        self.0
    }

    /// Converts to 16.16, wrapping: 32768 and above become negative.
    ///
    /// <details><summary>Contract</summary>
    ///
    /// ```text
    /// ensures { fixed_bits result ≡ wrap 32 (pos (ufword_number self) *ℤ pos (2 ^ 16)) }
    /// ```
    /// [Notation](crate::definitions): [`fixed_bits`], [`wrap`], [`ufword_number`]
    /// </details>
    #[must_use]
    #[inline]
    pub const fn to_fixed(self) -> Fixed {
        Fixed::from_i32(self.to_u16() as i32)
    }

    /// Converts to 16.16, or returns `None` on overflow, that is, for 32768 and above.
    ///
    /// <details><summary>Contract</summary>
    ///
    /// ```text
    /// ensures variant { IsSome result
    ///     ↔ FitsBits 32 (pos (ufword_number self) *ℤ pos (2 ^ 16)) }
    /// ensures value { IfSome result
    ///     (λ number. fixed_bits number ≡ (pos (ufword_number self) *ℤ pos (2 ^ 16))) }
    /// ```
    /// [Notation](crate::definitions): [`FitsBits`], [`ufword_number`], [`fixed_bits`]
    /// </details>
    #[must_use]
    #[inline]
    pub const fn checked_to_fixed(self) -> Option<Fixed> {
        Fixed::checked_from_i32(self.to_u16() as i32)
    }

    /// Adds a sum of deltas, exactly. The result is a 16.16 raw value.
    ///
    /// ```
    /// use font_types_proved::{F48Dot16, UfWord};
    /// let moved = UfWord::new(500).apply_delta(F48Dot16::from_i64(20));
    /// assert_eq!(moved, 520 << 16);
    /// ```
    ///
    /// <details><summary>Contract</summary>
    ///
    /// ```text
    /// ensures { result ≡ (pos (ufword_number self) *ℤ pos 65536 +ℤ f48dot16_bits delta) }
    /// ```
    /// [Notation](crate::definitions): [`ufword_number`], [`f48dot16_bits`]
    /// </details>
    #[must_use]
    #[inline]
    pub fn apply_delta(self, delta: F48Dot16) -> i128 {
        i128::from(self.to_u16()) * 0x1_0000 + i128::from(delta.to_bits())
    }

    /// Adds a sum of deltas and rounds to the nearest font unit, half up, or returns `None` if that
    /// is out of range.
    ///
    /// <details><summary>Contract</summary>
    ///
    /// ```text
    /// ensures variant { IsSome result ↔ (
    ///     (pos 0 ≤ℤ nearest_unit (pos (ufword_number self) *ℤ pos 65536 +ℤ f48dot16_bits delta))
    ///     × (nearest_unit (pos (ufword_number self) *ℤ pos 65536 +ℤ f48dot16_bits delta)
    ///     <ℤ pos 65536)) }
    /// ensures value { IfSome result (λ word. pos (ufword_number word)
    ///     ≡ nearest_unit (pos (ufword_number self) *ℤ pos 65536 +ℤ f48dot16_bits delta)) }
    /// ```
    /// [Notation](crate::definitions): [`nearest_unit`], [`ufword_number`], [`f48dot16_bits`]
    /// </details>
    #[must_use]
    #[inline]
    pub const fn checked_add_delta(self, delta: F48Dot16) -> Option<UfWord> {
        let moved = nearest_sum(self.0 as i32, delta);
        if moved < 0 || moved > 0xFFFF { None } else { Some(Self(moved as u16)) }
    }

    /// Returns the big-endian bytes.
    ///
    /// <details><summary>Contract</summary>
    ///
    /// ```text
    /// ensures { result ≡ bytes_of 2 (pos (ufword_number self)) }
    /// ```
    /// [Notation](crate::definitions): [`bytes_of`], [`ufword_number`]
    /// </details>
    #[must_use]
    #[inline]
    pub const fn to_be_bytes(self) -> [u8; 2] {
        self.0.to_be_bytes()
    }
}

/// <details><summary>Contract</summary>
///
/// ```text
/// ghost output = { λ word. Some (decimal (ufword_number word)) };
/// ghost styled_output = { λ word options. Some (styled_decimal options (ufword_number word)) };
/// ```
/// [Notation](crate::definitions): [`ufword_number`]
/// </details>
impl fmt::Display for UfWord {
    fn fmt(&self, f: &mut fmt::Formatter<'_>) -> fmt::Result {
        fmt::Display::fmt(&self.0, f)
    }
}

/// <details><summary>Contract</summary>
///
/// ```text
/// ghost from_gives = { λ number word. ufword_number word ≡ number };
/// ```
/// [Notation](crate::definitions): [`ufword_number`]
/// </details>
impl From<u16> for UfWord {
    #[inline]
    fn from(number: u16) -> UfWord {
        UfWord(number)
    }
}

/// <details><summary>Contract</summary>
///
/// ```text
/// ghost from_gives = { λ word number. number ≡ ufword_number word };
/// ```
/// [Notation](crate::definitions): [`ufword_number`]
/// </details>
impl From<UfWord> for u16 {
    #[inline]
    fn from(word: UfWord) -> u16 {
        word.0
    }
}

/// <details><summary>Contract</summary>
///
/// ```text
/// ghost from_gives = { λ word number. number ≡ pos (ufword_number word) };
/// ```
/// [Notation](crate::definitions): [`ufword_number`]
/// </details>
impl From<UfWord> for i32 {
    #[inline]
    fn from(word: UfWord) -> i32 {
        i32::from(word.0)
    }
}

impl FixedSize for UfWord {
    const RAW_BYTE_LEN: usize = 2;
}

/// <details><summary>Contract</summary>
///
/// ```text
/// ghost is_scalar = { λ word. nat_lt (ufword_number word) (2 ^ 16) };
/// ghost of_raw = { λ raw. ufword_of (numeral raw) };
/// ghost raw_of = { λ word. bytes_of 2 (pos (ufword_number word)) };
/// ```
/// [Notation](crate::definitions): [`ufword_number`], [`ufword_of`], [`numeral`], [`bytes_of`]
/// </details>
impl Scalar for UfWord {
    type Raw = [u8; 2];

    #[inline]
    fn from_raw(raw: [u8; 2]) -> UfWord {
        UfWord(u16::from_raw(raw))
    }

    #[inline]
    fn to_raw(self) -> [u8; 2] {
        u16::to_raw(self.0)
    }
}

impl IdentityEq for UfWord {}
