// @generated from crates/font_decimal/src/reader.rt by tools/erase

//! Parsing a decimal as the nearest fixed-point number.

#[cfg(doc)]
use crate::definitions::font_decimal::{
    Grammar_antt::IsNoDecimal,
    Reading_antt::{IsOutOfRange, Parses, Reads},
};

use crate::font_decimal::grammar::{after_point, are_digits, split_sign};

/// Why a text was not parsed.
///
/// ```
/// use font_types_proved::{DecimalFault, Fixed};
/// assert_eq!(Fixed::from_decimal("1e5"), Err(DecimalFault::Syntax));
/// assert_eq!(Fixed::from_decimal("100000"), Err(DecimalFault::OutOfRange));
/// ```
///
/// The source and its contracts: `crates/font_decimal/src/reader.rt`.
#[derive(Clone, PartialEq, Eq, Debug)]
pub enum DecimalFault {
    /// The text is not a decimal.
    Syntax = 1,
    /// The nearest value is out of range.
    OutOfRange = 2,
}

impl core::error::Error for DecimalFault {}

impl core::fmt::Display for DecimalFault {
    fn fmt(&self, f: &mut core::fmt::Formatter<'_>) -> core::fmt::Result {
        match self {
            Self::Syntax => write!(f, "not a decimal number"),
            Self::OutOfRange => write!(f, "number out of range"),
        }
    }
}

impl Copy for DecimalFault {}

/// Parses a decimal as the nearest raw value with `f` fraction bits, from 6 to 30, rounding half
/// away from zero. For a value of a type, use its `from_decimal`.
///
/// A decimal is an optional `-`, one or more digits, and optionally a point followed by one or more
/// digits, of any length.
///
/// # Errors
///
/// Returns `Syntax` if the text is not a decimal, and `OutOfRange` if the rounded value is less
/// than `min` or greater than `max`.
///
/// # Panics
///
/// Panics in Rust if `f` is not from 6 to 30. In Rattle that is a precondition.
///
/// # Examples
///
/// ```
/// use font_types_proved::read_decimal;
/// assert_eq!(read_decimal("-1.5", 16, i64::MIN, i64::MAX), Ok(-98304));
/// ```
///
/// <details><summary>Contract</summary>
///
/// ```text
/// requires bits_of_fraction { (6 ≤ f) × (f ≤ 30) }
/// ensures ok { (b : ℤ) → (result ≡ Ok b) ↔ Reads text.now f min max b }
/// ensures out_of_range { (result ≡ Err DecimalFault.OutOfRange)
///     ↔ IsOutOfRange text.now f min max }
/// ensures syntax { (result ≡ Err DecimalFault.Syntax) ↔ IsNoDecimal text.now }
/// ```
/// [Notation](crate::definitions): [`Reads`], [`IsOutOfRange`], [`IsNoDecimal`]
/// </details>
#[inline(always)]
pub const fn read_decimal(text: &str, f: u32, min: i64, max: i64) -> Result<i64, DecimalFault> {
    read_decimal_bytes(text.as_bytes(), f, min, max)
}

/// Parses a decimal from bytes, as `read_decimal` does.
///
/// # Errors
///
/// Returns the errors of `read_decimal`, and `Syntax` if the bytes are not UTF-8.
///
/// # Panics
///
/// Panics in Rust as `read_decimal` does.
///
/// <details><summary>Contract</summary>
///
/// ```text
/// requires bits_of_fraction { (6 ≤ f) × (f ≤ 30) }
/// ensures { Parses text.now f min max result }
/// ```
/// [Notation](crate::definitions): [`Parses`]
/// </details>
#[inline(always)]
pub const fn read_decimal_bytes(
    text: &[u8],
    f: u32,
    min: i64,
    max: i64,
) -> Result<i64, DecimalFault> {
    let (negative, digits) = split_sign(text);
    let Some(magnitude) = nearest_raw(digits, f) else {
        return Err(DecimalFault::Syntax);
    };
    match in_range(negative, magnitude, min, max) {
        Some(bits) => Ok(bits),
        None => Err(DecimalFault::OutOfRange),
    }
}

// Returns the raw value nearest to a decimal without a sign, or, if that exceeds 2^63, some number
// that does.
#[inline(always)]
const fn nearest_raw(digits: &[u8], f: u32) -> Option<u64> {
    // Rust, which does not check the precondition, panics here.
    assert!(matches!(f, 6..=30), "the number of fraction bits is not from 6 to 30");
    // An integer part that exceeds 2^63 raw units is out of every range.
    let (whole, len) = whole_digits(digits, (1 << (63 - f)) + 1);
    if len == 0 {
        return None;
    }
    let Some(fraction) = after_point(digits.split_at(len).1) else {
        return None;
    };
    let Some(half_units) = half_units(fraction, f) else {
        return None;
    };
    Some((whole << f) + (half_units + 1) / 2)
}

// Returns the value of the leading digits, or `too_large` if it is greater, and how many digits
// there are.
#[inline(always)]
const fn whole_digits(text: &[u8], too_large: u64) -> (u64, usize) {
    let mut whole = 0;
    let mut place = 0;
    while place < text.len() {
        let digit = text[place];
        if !digit.is_ascii_digit() {
            return (whole, place);
        }
        let more = whole * 10 + (digit - b'0') as u64;
        whole = if more < too_large { more } else { too_large };
        place += 1;
    }
    (whole, text.len())
}

// Returns a fraction in half units of `1 / 2^f`, rounded down. A half unit has `f + 1` decimal
// places, so later digits do not count. From the last digit to the first: a tenth, rounded down, of
// a number rounded down is the tenth of the number, rounded down.
#[inline(always)]
const fn half_units(fraction: &[u8], f: u32) -> Option<u64> {
    let most = f as usize + 1;
    let places = if fraction.len() < most { fraction.len() } else { most };
    let (kept, late) = fraction.split_at(places);
    if !are_digits(late) {
        return None;
    }
    let mut units = 0;
    let mut place = kept.len();
    while place > 0 {
        place -= 1;
        let digit = kept[place];
        if !digit.is_ascii_digit() {
            return None;
        }
        units = ((((digit - b'0') as u64) << (f + 1)) + units) / 10;
    }
    Some(units)
}

// Returns the signed raw value, or `None` if it is out of range.
#[inline(always)]
const fn in_range(negative: bool, magnitude: u64, min: i64, max: i64) -> Option<i64> {
    let number = if negative {
        0i64.checked_sub_unsigned(magnitude)
    } else {
        0i64.checked_add_unsigned(magnitude)
    };
    match number {
        Some(number) if min <= number && number <= max => Some(number),
        _ => None,
    }
}
