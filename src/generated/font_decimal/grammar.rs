// @generated from crates/font_decimal/src/grammar.rt by tools/erase

//! The parts of a decimal.

// Splits off a leading `-`.
#[must_use]
#[inline]
pub const fn split_sign(text: &[u8]) -> (bool, &[u8]) {
    match text {
        [b'-', rest @ ..] => (true, rest),
        _ => (false, text),
    }
}

// Returns the fraction, without its point: empty, or one byte or more after a point.
#[must_use]
#[inline]
pub const fn after_point(text: &[u8]) -> Option<&[u8]> {
    match text {
        [] => Some(text),
        [b'.', fraction @ ..] if !fraction.is_empty() => Some(fraction),
        _ => None,
    }
}

// With an early exit: vectors would be half of the code of parsing, and take registers to save.
#[must_use]
#[inline]
pub const fn are_digits(text: &[u8]) -> bool {
    let mut place = 0;
    while place < text.len() {
        if !text[place].is_ascii_digit() {
            return false;
        }
        place += 1;
    }
    true
}
