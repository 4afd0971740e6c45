// @generated from crates/font_decimal/src/shortest.rt by tools/erase

//! The shortest decimal of a fixed-point number.

#[cfg(doc)]
use crate::definitions::font_decimal::{
    Padding_antt::{has_minus, unsigned_body},
    Shortest_antt::{IsShortest, shortest_text},
    Shown_antt::shown,
};

use core::fmt;

const LEN: usize = 31;
// The index of the point: a sign and an integer have at most 20 bytes, a point and a fraction 11.
const POINT: usize = 20;

/// The shortest decimal of a fixed-point number, of at most 22 bytes, in a buffer.
///
/// ```
/// use font_types_proved::Shortest;
/// assert_eq!(Shortest::new(9830, 14).as_str(), "0.6");
/// ```
///
/// The source and its contracts: `crates/font_decimal/src/shortest.rt`.
///
/// <details><summary>Contract</summary>
///
/// ```text
/// ghost within: { (start ≤ end) × (end ≤ LEN) × (end ≤ start + 22) },
/// ghost ascii: { IsAscii (take (end - start) (drop start bytes)) },
/// ```
/// [Notation](crate::definitions)
/// </details>
#[derive(Clone, Copy)]
pub struct Shortest {
    bytes: [u8; LEN],
    // The text is in these places.
    start: usize,
    end: usize,
}

impl Shortest {
    /// Formats the raw value `bits` with `f` fraction bits, at most 30: of 0, an integer. For a
    /// value of a type, use its `to_decimal`.
    ///
    /// Of the decimals with the fewest fractional digits that parse back to `bits`, this is the
    /// nearest, and of two the one farther from zero.
    ///
    /// # Panics
    ///
    /// Panics in Rust if `f` exceeds 30. In Rattle that is a precondition.
    ///
    /// <details><summary>Contract</summary>
    ///
    /// ```text
    /// requires { f ≤ 30 }
    /// ensures shortest { IsShortest bits f (shown result) }
    /// ensures text { shown result ≡ shortest_text bits f }
    /// ```
    /// [Notation](crate::definitions): [`IsShortest`], [`shown`], [`shortest_text`]
    /// </details>
    #[must_use]
    #[inline(always)]
    pub fn new(bits: i64, f: u32) -> Self {
        // Rust, which does not check the precondition, panics here.
        assert!(f <= 30, "the number of fraction bits exceeds 30");
        let magnitude = bits.unsigned_abs();
        // The point is there before the digits.
        let mut bytes = [b'.'; LEN];
        let places = shortest_fraction(&mut bytes, magnitude, f);
        let end = if places > 0 { POINT + 1 + places } else { POINT };
        let start = put_whole(&mut bytes, magnitude >> f);
        let start = put_sign(&mut bytes, start, bits < 0);
        Self { bytes, start, end }
    }

    /// Returns the decimal as a string.
    ///
    /// <details><summary>Contract</summary>
    ///
    /// ```text
    /// ensures text { result.now ≡ shown self.now }
    /// ensures short { length result.now ≤ 22 }
    /// ```
    /// [Notation](crate::definitions): [`shown`]
    /// </details>
    #[must_use]
    #[inline]
    pub fn as_str(&self) -> &str {
        // SAFETY: only `new` makes the bytes, and the text is digits, `.` and `-`, so it is ASCII.
        unsafe { core::str::from_utf8_unchecked(&self.bytes[self.start..self.end]) }
    }
}

/// <details><summary>Contract</summary>
///
/// ```text
/// ghost output = { λ s. Some (shown s) };
/// ghost styled_output = { λ s options. Some
///     (padded_integral options (has_minus (shown s)) [] (unsigned_body (shown s))) };
/// ```
/// [Notation](crate::definitions): [`shown`], [`has_minus`], [`unsigned_body`]
/// </details>
impl fmt::Display for Shortest {
    fn fmt(&self, f: &mut fmt::Formatter<'_>) -> fmt::Result {
        let text = self.as_str();
        if f.width().is_none() && !f.sign_plus() {
            return f.write_str(text);
        }
        match text.strip_prefix('-') {
            Some(digits) => f.pad_integral(false, "", digits),
            None => f.pad_integral(true, "", text),
        }
    }
}

// Writes the digits of the shortest fraction of `magnitude / 2^f` after the point, and returns how
// many there are. In units of the last place written so far, the remainder is `rest / unit`, and
// half a unit of the raw value is `margin / unit`.
#[inline(always)]
fn shortest_fraction(bytes: &mut [u8; LEN], magnitude: u64, f: u32) -> usize {
    let step = 1u64 << f;
    let unit = 1u64 << (f + 1);
    let mut rest = 2 * (magnitude % step);
    let mut margin = 1u64;
    let mut places = 0;
    while rest.min(unit - rest) >= margin {
        let tenfold = 10 * rest;
        bytes[POINT + 1 + places] = b'0' + (tenfold / unit) as u8;
        rest = tenfold % unit;
        margin *= 10;
        places += 1;
    }
    if 2 * rest >= unit {
        // This never carries: if the last digit was 9, one place fewer would do.
        bytes[POINT + places] += 1;
    }
    places
}

// Writes an integer before the point, and returns where it begins.
#[inline(always)]
fn put_whole(bytes: &mut [u8; LEN], whole: u64) -> usize {
    let mut left = whole;
    let mut start = POINT;
    while left >= 100 {
        start = put_pair(bytes, start, (left % 100) as u8);
        left /= 100;
    }
    if left >= 10 {
        return put_pair(bytes, start, left as u8);
    }
    bytes[start - 1] = b'0' + left as u8;
    start - 1
}

// Writes two digits before index `end`, and returns where they begin.
#[inline(always)]
fn put_pair(bytes: &mut [u8; LEN], end: usize, pair: u8) -> usize {
    bytes[end - 1] = b'0' + pair % 10;
    bytes[end - 2] = b'0' + pair / 10;
    end - 2
}

// Writes a `-` before a negative number, and returns where the text begins.
#[inline(always)]
fn put_sign(bytes: &mut [u8; LEN], start: usize, negative: bool) -> usize {
    if !negative {
        return start;
    }
    bytes[start - 1] = b'-';
    start - 1
}
