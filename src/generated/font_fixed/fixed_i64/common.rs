// @generated from crates/font_fixed/src/fixed_i64/common.rt by tools/erase

//! What each 64-bit fixed-point number has.

#[cfg(doc)]
use crate::definitions::font_base::{
    Bytes_antt::{bytes_of, signed_numeral},
    Wrap_antt::FitsBits,
};
#[cfg(doc)]
use crate::definitions::font_decimal::{
    Padding_antt::{FillsFront, has_minus, padded_text, unsigned_body},
    Shortest_antt::IsShortest,
    Shown_antt::shown,
};
#[cfg(doc)]
use crate::definitions::font_fixed::{
    FixedI64_antt::{bits_of, text_of},
    Longest_antt::longest,
    Operations_antt::{
        IsCeiling, IsFloor, IsFract, IsNearestWhole, IsWrappedCeiling, WrapsTo, ceiling_of, clamp,
    },
    Reading_antt::ParsesFixedPoint,
    Rounding_antt::rounded,
};

use super::FixedI64;
use crate::font_decimal::{DecimalFault, Pad, Shortest};
use crate::font_fixed::formats::Format;
use crate::font_fixed::{floor_bits_64, read_bits_64, round_bits_64};
use core::fmt;
use core::ops::{Add, AddAssign, Neg, Sub, SubAssign};
use core::str::FromStr;

impl<const F: u32> FixedI64<F> {
    /// Creates a value from its raw bits.
    ///
    /// <details><summary>Contract</summary>
    ///
    /// ```text
    /// ensures { bits_of result ≡ bits }
    /// ```
    /// [Notation](crate::definitions): [`bits_of`]
    /// </details>
    #[must_use]
    #[inline(always)]
    pub const fn from_bits(bits: i64) -> Self {
        Self(bits)
    }

    /// Returns the raw bits.
    ///
    /// <details><summary>Contract</summary>
    ///
    /// ```text
    /// ensures { result ≡ bits_of self.entry }
    /// ```
    /// [Notation](crate::definitions): [`bits_of`]
    /// </details>
    #[must_use]
    #[inline(always)]
    pub const fn to_bits(self) -> i64 {
        self.0
    }

    /// Returns the absolute value; wraps: `MIN.abs()` is `MIN`.
    ///
    /// <details><summary>Contract</summary>
    ///
    /// ```text
    /// ensures { WrapsTo 64 (pos (unsigned_abs (bits_of self.entry))) (bits_of result) }
    /// ```
    /// [Notation](crate::definitions): [`WrapsTo`], [`bits_of`]
    /// </details>
    #[must_use]
    #[inline(always)]
    pub const fn abs(self) -> Self {
        Self(self.0.wrapping_abs())
    }

    /// Returns `self + other`, wrapping on overflow.
    ///
    /// <details><summary>Contract</summary>
    ///
    /// ```text
    /// ensures { WrapsTo 64 (bits_of self.entry +ℤ bits_of other.entry) (bits_of result) }
    /// ```
    /// [Notation](crate::definitions): [`WrapsTo`], [`bits_of`]
    /// </details>
    #[must_use]
    #[inline(always)]
    pub const fn wrapping_add(self, other: Self) -> Self {
        Self(self.0.wrapping_add(other.0))
    }

    /// Returns `self - other`, wrapping on overflow.
    ///
    /// <details><summary>Contract</summary>
    ///
    /// ```text
    /// ensures { WrapsTo 64 (bits_of self.entry -ℤ bits_of other.entry) (bits_of result) }
    /// ```
    /// [Notation](crate::definitions): [`WrapsTo`], [`bits_of`]
    /// </details>
    #[must_use]
    #[inline(always)]
    pub const fn wrapping_sub(self, other: Self) -> Self {
        Self(self.0.wrapping_sub(other.0))
    }

    /// Returns `self + other`, saturating at `MIN` and `MAX`.
    ///
    /// <details><summary>Contract</summary>
    ///
    /// ```text
    /// ensures { bits_of result ≡ clamp 64 (bits_of self.entry +ℤ bits_of other.entry) }
    /// ```
    /// [Notation](crate::definitions): [`bits_of`], [`clamp`]
    /// </details>
    #[must_use]
    #[inline(always)]
    pub const fn saturating_add(self, other: Self) -> Self {
        Self(self.0.saturating_add(other.0))
    }

    /// Returns `self - other`, saturating at `MIN` and `MAX`.
    ///
    /// <details><summary>Contract</summary>
    ///
    /// ```text
    /// ensures { bits_of result ≡ clamp 64 (bits_of self.entry -ℤ bits_of other.entry) }
    /// ```
    /// [Notation](crate::definitions): [`bits_of`], [`clamp`]
    /// </details>
    #[must_use]
    #[inline(always)]
    pub const fn saturating_sub(self, other: Self) -> Self {
        Self(self.0.saturating_sub(other.0))
    }

    /// Returns `self + other`, or `None` on overflow.
    ///
    /// <details><summary>Contract</summary>
    ///
    /// ```text
    /// ensures variant { IsSome result ↔ FitsBits 64 (bits_of self.entry +ℤ bits_of other.entry) }
    /// ensures value { IfSome result
    ///     (λ sum. bits_of sum ≡ (bits_of self.entry +ℤ bits_of other.entry)) }
    /// ```
    /// [Notation](crate::definitions): [`FitsBits`], [`bits_of`]
    /// </details>
    #[must_use]
    #[inline(always)]
    pub const fn checked_add(self, other: Self) -> Option<Self> {
        match self.0.checked_add(other.0) {
            Some(bits) => Some(Self(bits)),
            None => None,
        }
    }

    /// Returns `self - other`, or `None` on overflow.
    ///
    /// <details><summary>Contract</summary>
    ///
    /// ```text
    /// ensures variant { IsSome result ↔ FitsBits 64 (bits_of self.entry -ℤ bits_of other.entry) }
    /// ensures value { IfSome result
    ///     (λ difference. bits_of difference ≡ (bits_of self.entry -ℤ bits_of other.entry)) }
    /// ```
    /// [Notation](crate::definitions): [`FitsBits`], [`bits_of`]
    /// </details>
    #[must_use]
    #[inline(always)]
    pub const fn checked_sub(self, other: Self) -> Option<Self> {
        match self.0.checked_sub(other.0) {
            Some(bits) => Some(Self(bits)),
            None => None,
        }
    }

    /// Returns `-self`, or `None` on overflow, that is, for `MIN`.
    ///
    /// <details><summary>Contract</summary>
    ///
    /// ```text
    /// ensures variant { IsSome result ↔ FitsBits 64 (neg_ℤ (bits_of self.entry)) }
    /// ensures value { IfSome result (λ negated. bits_of negated ≡ neg_ℤ (bits_of self.entry)) }
    /// ```
    /// [Notation](crate::definitions): [`FitsBits`], [`bits_of`]
    /// </details>
    #[must_use]
    #[inline(always)]
    pub const fn checked_neg(self) -> Option<Self> {
        match self.0.checked_neg() {
            Some(bits) => Some(Self(bits)),
            None => None,
        }
    }

    /// Returns the absolute value, or `None` on overflow, that is, for `MIN`.
    ///
    /// <details><summary>Contract</summary>
    ///
    /// ```text
    /// ensures variant { IsSome result ↔ FitsBits 64 (pos (unsigned_abs (bits_of self.entry))) }
    /// ensures value { IfSome result
    ///     (λ magnitude. bits_of magnitude ≡ pos (unsigned_abs (bits_of self.entry))) }
    /// ```
    /// [Notation](crate::definitions): [`FitsBits`], [`bits_of`]
    /// </details>
    #[must_use]
    #[inline(always)]
    pub const fn checked_abs(self) -> Option<Self> {
        match self.0.checked_abs() {
            Some(bits) => Some(Self(bits)),
            None => None,
        }
    }

    /// Creates a value from the big-endian bytes of its raw bits.
    ///
    /// <details><summary>Contract</summary>
    ///
    /// ```text
    /// ensures { bits_of result ≡ signed_numeral 8 bytes }
    /// ```
    /// [Notation](crate::definitions): [`bits_of`], [`signed_numeral`]
    /// </details>
    #[must_use]
    #[inline(always)]
    pub const fn from_be_bytes(bytes: [u8; 8]) -> Self {
        Self(u64::from_be_bytes(bytes).cast_signed())
    }

    /// Returns the raw bits as big-endian bytes.
    ///
    /// <details><summary>Contract</summary>
    ///
    /// ```text
    /// ensures { result ≡ bytes_of 8 (bits_of self.entry) }
    /// ```
    /// [Notation](crate::definitions): [`bytes_of`], [`bits_of`]
    /// </details>
    #[must_use]
    #[inline(always)]
    pub const fn to_be_bytes(self) -> [u8; 8] {
        self.0.to_be_bytes()
    }
}

impl<const F: u32> FixedI64<F>
where
    Self: Format<64, F>,
{
    /// Rounds to the nearest integer, half up; wraps: `MAX.round()` is `MIN`.
    ///
    /// <details><summary>Contract</summary>
    ///
    /// ```text
    /// ensures nearest { IsNearestWhole 64 F (bits_of self.entry) (bits_of result) }
    /// ```
    /// [Notation](crate::definitions): [`IsNearestWhole`], [`bits_of`]
    /// </details>
    #[doc(alias = "otRound")]
    #[doc(alias = "FT_PIX_ROUND")]
    #[must_use]
    #[inline(always)]
    pub const fn round(self) -> Self {
        self.wrapping_add(Self(1 << (F - 1))).floor()
    }

    /// Rounds to the nearest integer, half up, or returns `None` on overflow.
    ///
    /// <details><summary>Contract</summary>
    ///
    /// ```text
    /// ensures variant { IsSome result ↔ FitsBits 64 (rounded F (bits_of self.entry)) }
    /// ensures value { IfSome result (λ whole. bits_of whole ≡ rounded F (bits_of self.entry)) }
    /// ```
    /// [Notation](crate::definitions): [`FitsBits`], [`rounded`], [`bits_of`]
    /// </details>
    #[must_use]
    #[inline(always)]
    pub const fn checked_round(self) -> Option<Self> {
        match round_bits_64(self.0, F) {
            Some(bits) => Some(Self(bits)),
            None => None,
        }
    }

    /// Returns the largest integer less than or equal to `self`.
    ///
    /// <details><summary>Contract</summary>
    ///
    /// ```text
    /// ensures floor { IsFloor F (bits_of self.entry) (bits_of result) }
    /// ```
    /// [Notation](crate::definitions): [`IsFloor`], [`bits_of`]
    /// </details>
    #[doc(alias = "FT_FloorFix")]
    #[doc(alias = "FT_PIX_FLOOR")]
    #[must_use]
    #[inline(always)]
    pub const fn floor(self) -> Self {
        Self(floor_bits_64(self.0, F))
    }

    /// Returns the smallest integer greater than or equal to `self`; wraps: `MAX.ceil()` is `MIN`.
    ///
    /// <details><summary>Contract</summary>
    ///
    /// ```text
    /// ensures ceiling { IsWrappedCeiling 64 F (bits_of self.entry) (bits_of result) }
    /// ensures value { FitsBits 64 (ceiling_of F (bits_of self.entry))
    ///     → bits_of result ≡ ceiling_of F (bits_of self.entry) }
    /// ```
    /// [Notation](crate::definitions): [`IsWrappedCeiling`], [`bits_of`], [`FitsBits`], [`ceiling_of`]
    /// </details>
    #[doc(alias = "FT_CeilFix")]
    #[doc(alias = "FT_PIX_CEIL")]
    #[must_use]
    #[inline(always)]
    pub const fn ceil(self) -> Self {
        self.wrapping_add(Self((1 << F) - 1)).floor()
    }

    /// Returns the smallest integer greater than or equal to `self`, or `None` on overflow.
    ///
    /// <details><summary>Contract</summary>
    ///
    /// ```text
    /// ensures variant { IsSome result ↔ FitsBits 64 (ceiling_of F (bits_of self.entry)) }
    /// ensures value { IfSome result (λ whole. IsCeiling F (bits_of self.entry) (bits_of whole)) }
    /// ```
    /// [Notation](crate::definitions): [`FitsBits`], [`ceiling_of`], [`bits_of`], [`IsCeiling`]
    /// </details>
    #[must_use]
    #[inline(always)]
    pub const fn checked_ceil(self) -> Option<Self> {
        match self.checked_add(Self((1 << F) - 1)) {
            Some(moved) => Some(moved.floor()),
            None => None,
        }
    }

    /// Returns the fractional part, `self - self.floor()`, at least 0 and less than 1.
    ///
    /// <details><summary>Contract</summary>
    ///
    /// ```text
    /// ensures { IsFract F (bits_of self.entry) (bits_of result) }
    /// ```
    /// [Notation](crate::definitions): [`IsFract`], [`bits_of`]
    /// </details>
    #[must_use]
    #[inline(always)]
    pub const fn fract(self) -> Self {
        self.wrapping_sub(self.floor())
    }

    /// Parses a decimal as the nearest value, rounding half away from zero.
    ///
    /// A decimal is an optional `-`, one or more digits, and optionally a point followed by one or
    /// more digits, of any length. `+1`, `.5`, `1.` and `1e3` are not decimals.
    ///
    /// `strToFixed` of fontTools rounds half up instead, and parses by way of a float.
    ///
    /// # Errors
    ///
    /// Returns `Syntax` if the text is not a decimal, and `OutOfRange` if its nearest value is less
    /// than `MIN` or greater than `MAX`.
    ///
    /// <details><summary>Contract</summary>
    ///
    /// ```text
    /// ensures { ParsesFixedPoint w64 F bits_of text.now result }
    /// ```
    /// [Notation](crate::definitions): [`ParsesFixedPoint`], [`bits_of`]
    /// </details>
    #[doc(alias = "strToFixed")]
    #[doc(alias = "from_f64")]
    #[inline]
    pub const fn from_decimal(text: &str) -> Result<Self, DecimalFault> {
        Self::from_decimal_bytes(text.as_bytes())
    }

    /// Parses a decimal from bytes, as `from_decimal` does.
    ///
    /// # Errors
    ///
    /// Returns the errors of `from_decimal`, and `Syntax` if the bytes are not UTF-8.
    ///
    /// <details><summary>Contract</summary>
    ///
    /// ```text
    /// ensures { ParsesFixedPoint w64 F bits_of text.now result }
    /// ```
    /// [Notation](crate::definitions): [`ParsesFixedPoint`], [`bits_of`]
    /// </details>
    // Code for each format, not for each call.
    #[inline(never)]
    pub const fn from_decimal_bytes(text: &[u8]) -> Result<Self, DecimalFault> {
        match read_bits_64(text, F) {
            Ok(bits) => Ok(Self(bits)),
            Err(fault) => Err(fault),
        }
    }

    /// Returns the shortest decimal that parses back to the value, which is also what `{}` prints,
    /// in a buffer.
    ///
    /// `fixedToStr` of fontTools computes its text from a float instead.
    ///
    /// ```
    /// use font_types_proved::F48Dot16;
    /// let value: F48Dot16 = "0.1".parse().unwrap();
    /// assert_eq!(value.to_decimal().as_str(), "0.1");
    /// ```
    ///
    /// <details><summary>Contract</summary>
    ///
    /// ```text
    /// ensures shortest { IsShortest (bits_of self.entry) F (shown result) }
    /// ensures text { shown result ≡ text_of self.entry }
    /// ```
    /// [Notation](crate::definitions): [`IsShortest`], [`bits_of`], [`shown`], [`text_of`]
    /// </details>
    #[doc(alias = "fixedToStr")]
    #[doc(alias = "to_f64")]
    #[must_use]
    #[inline]
    pub fn to_decimal(self) -> Shortest {
        Shortest::new(self.0, F)
    }

    /// Returns `MAX_TEXT_LEN`.
    ///
    /// <details><summary>Contract</summary>
    ///
    /// ```text
    /// ensures { result ≡ longest 64 F }
    /// ```
    /// [Notation](crate::definitions): [`longest`]
    /// </details>
    #[must_use]
    #[inline]
    #[doc(hidden)]
    pub const fn max_text_len() -> usize {
        let (whole, places) = ((63 - F) * 3 / 10 + 1, F * 3 / 10 + 1);
        (places + 2 + whole) as usize
    }

    /// Writes the padded decimal to the start of `out` and returns its length, or returns `None`
    /// and leaves `out` unchanged if it is too short. `MAX_TEXT_LEN` bytes are enough if
    /// `pad.width` is not greater, and else `pad.width` bytes.
    ///
    /// ```
    /// use font_types_proved::{F48Dot16, Pad};
    /// let mut out = [0; F48Dot16::MAX_TEXT_LEN];
    /// let len = F48Dot16::MIN.write_padded(&mut out, &Pad::new(0)).unwrap();
    /// assert_eq!(out[..len], *F48Dot16::MIN.to_string().as_bytes());
    /// ```
    ///
    /// <details><summary>Contract</summary>
    ///
    /// ```text
    /// ensures written { IfSome result
    ///     (λ n. FillsFront (padded_text (text_of self.entry) pad.now) n out.old out.new) }
    /// ensures variant { IsSome result
    ///     ↔ (length (padded_text (text_of self.entry) pad.now) ≤ length out.old) }
    /// ensures cell { max (longest 64 F) pad.now.width ≤ length out.old → IsSome result }
    /// ensures untouched { IfNone result (out.new ≡ out.old) }
    /// ```
    /// [Notation](crate::definitions): [`FillsFront`], [`padded_text`], [`text_of`], [`longest`]
    /// </details>
    #[must_use]
    #[inline]
    pub fn write_padded(self, out: &mut [u8], pad: &Pad) -> Option<usize> {
        crate::font_decimal::write_padded(self.to_decimal().as_str(), out, pad)
    }
}

/// Wraps on overflow.
///
/// <details><summary>Contract</summary>
///
/// ```text
/// ghost add_gives = { λ x y sum. WrapsTo 64 (bits_of x +ℤ bits_of y) (bits_of sum) };
/// ```
/// [Notation](crate::definitions): [`WrapsTo`], [`bits_of`]
/// </details>
impl<const F: u32> Add for FixedI64<F> {
    type Output = FixedI64<F>;

    #[inline(always)]
    fn add(self, other: FixedI64<F>) -> FixedI64<F> {
        self.wrapping_add(other)
    }
}

/// Wraps on overflow.
///
/// <details><summary>Contract</summary>
///
/// ```text
/// ghost add_assign_gives = { λ x y sum. WrapsTo 64 (bits_of x +ℤ bits_of y) (bits_of sum) };
/// ```
/// [Notation](crate::definitions): [`WrapsTo`], [`bits_of`]
/// </details>
impl<const F: u32> AddAssign for FixedI64<F> {
    #[inline(always)]
    fn add_assign(&mut self, other: FixedI64<F>) {
        *self = *self + other;
    }
}

/// Wraps on overflow.
///
/// <details><summary>Contract</summary>
///
/// ```text
/// ghost sub_gives = { λ x y rest. WrapsTo 64 (bits_of x -ℤ bits_of y) (bits_of rest) };
/// ```
/// [Notation](crate::definitions): [`WrapsTo`], [`bits_of`]
/// </details>
impl<const F: u32> Sub for FixedI64<F> {
    type Output = FixedI64<F>;

    #[inline(always)]
    fn sub(self, other: FixedI64<F>) -> FixedI64<F> {
        self.wrapping_sub(other)
    }
}

/// Wraps on overflow.
///
/// <details><summary>Contract</summary>
///
/// ```text
/// ghost sub_assign_gives = { λ x y rest. WrapsTo 64 (bits_of x -ℤ bits_of y) (bits_of rest) };
/// ```
/// [Notation](crate::definitions): [`WrapsTo`], [`bits_of`]
/// </details>
impl<const F: u32> SubAssign for FixedI64<F> {
    #[inline(always)]
    fn sub_assign(&mut self, other: FixedI64<F>) {
        *self = *self - other;
    }
}

/// Wraps: `-MIN` is `MIN`.
///
/// <details><summary>Contract</summary>
///
/// ```text
/// ghost neg_gives = { λ x opposite. WrapsTo 64 (neg_ℤ (bits_of x)) (bits_of opposite) };
/// ```
/// [Notation](crate::definitions): [`WrapsTo`], [`bits_of`]
/// </details>
impl<const F: u32> Neg for FixedI64<F> {
    type Output = FixedI64<F>;

    #[inline(always)]
    fn neg(self) -> FixedI64<F> {
        Self(self.0.wrapping_neg())
    }
}

/// Parses a decimal as `from_decimal` does: `"1.5".parse()`; not `+1`, `.5`, `1.` or `1e3`.
///
/// <details><summary>Contract</summary>
///
/// ```text
/// ghost from_str_gives = { λ text result. ParsesFixedPoint w64 F bits_of text result };
/// ```
/// [Notation](crate::definitions): [`ParsesFixedPoint`], [`bits_of`]
/// </details>
impl<const F: u32> FromStr for FixedI64<F>
where
    Self: Format<64, F>,
{
    type Err = DecimalFault;

    #[inline]
    fn from_str(text: &str) -> Result<Self, DecimalFault> {
        Self::from_decimal(text)
    }
}

/// Writes the text of [`to_decimal`](FixedI64::to_decimal). Width, fill, alignment, `+` and `0` pad
/// it as they pad an integer, and a precision is ignored.
///
/// <details><summary>Contract</summary>
///
/// ```text
/// ghost output = { λ x. Some (text_of x) };
/// ghost styled_output = { λ x options. Some
///     (padded_integral options (has_minus (text_of x)) [] (unsigned_body (text_of x))) };
/// ```
/// [Notation](crate::definitions): [`text_of`], [`has_minus`], [`unsigned_body`]
/// </details>
impl<const F: u32> fmt::Display for FixedI64<F>
where
    Self: Format<64, F>,
{
    fn fmt(&self, f: &mut fmt::Formatter<'_>) -> fmt::Result {
        fmt::Display::fmt(&self.to_decimal(), f)
    }
}

/// <details><summary>Contract</summary>
///
/// ```text
/// ghost debug_output = { λ x. Some (text_of x) };
/// ```
/// [Notation](crate::definitions): [`text_of`]
/// </details>
impl<const F: u32> fmt::Debug for FixedI64<F>
where
    Self: Format<64, F>,
{
    fn fmt(&self, f: &mut fmt::Formatter<'_>) -> fmt::Result {
        fmt::Display::fmt(&self.to_decimal(), f)
    }
}
