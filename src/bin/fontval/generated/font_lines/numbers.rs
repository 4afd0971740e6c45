// @generated from crates/font_lines/src/numbers.rt by tools/erase

//! Reads the words of a line as numbers.

use crate::host::*;

use crate::font_lines::error::{CommandError, LineError};
use crate::font_lines::text::Words;
use crate::host::alloc::Allocator;
use font_types_proved::Fixed;

// The capacity of a new list of terms.
const INITIAL_TERMS: usize = 16;

/// Reads exactly `N` words as numbers.
///
/// A wrong number of words is reported before a wrong word: after one, the others are counted.
pub fn fixed_numbers<const N: usize>(mut words: Words<'_>) -> Result<[Fixed; N], LineError> {
    let mut numbers = [Fixed::ZERO; N];
    let mut at = 0;
    while let Some(word) = words.next() {
        if at == N {
            return Err(LineError::WordCount);
        }
        match fixed_number(word) {
            Ok(number) => numbers[at] = number,
            Err(error) => return Err(error_if(words.count_left() == N - at - 1, error)),
        }
        at += 1;
    }
    if at == N { Ok(numbers) } else { Err(LineError::WordCount) }
}

/// Returns the error of a word, or that of a wrong number of words.
pub fn error_if(counted: bool, error: LineError) -> LineError {
    if counted { error } else { LineError::WordCount }
}

// Reads a word as a `Fixed`.
fn fixed_number(word: &[u8]) -> Result<Fixed, LineError> {
    Ok(Fixed::from_decimal_bytes(word)?)
}

/// Reads words as terms, two by two: a scalar, and a delta in font units.
///
/// The words are counted as in `fixed_numbers`.
pub fn terms<A: Allocator>(
    alloc: A,
    mut words: Words<'_>,
) -> Result<Vec<(Fixed, i32), A>, CommandError> {
    let mut terms = Vec::with_capacity(alloc, INITIAL_TERMS)?;
    while let Some(scalar) = words.next() {
        let delta = words.next().ok_or(LineError::WordCount)?;
        match term(scalar, delta) {
            Ok(term) => terms.extend_from_slice(&[term])?,
            Err(error) => return Err(error_if_even(&words, error).into()),
        }
    }
    Ok(terms)
}

/// Returns the error of a word, or that of a wrong number of words if an odd number is left.
pub fn error_if_even(words: &Words<'_>, error: LineError) -> LineError {
    error_if(words.count_left().is_multiple_of(2), error)
}

// Reads two words as a term.
fn term(scalar: &[u8], delta: &[u8]) -> Result<(Fixed, i32), LineError> {
    Ok((fixed_number(scalar)?, integer_32(delta)?))
}

/// Reads a word as an `i32`.
pub fn integer_32(word: &[u8]) -> Result<i32, LineError> {
    let (negative, digits) = split_minus(word);
    let magnitude = magnitude_of_digits(digits).ok_or(LineError::NotInteger)?;
    let number = if negative { -magnitude } else { magnitude };
    i32::try_from(number).map_err(|_| LineError::OutOfRange)
}

/// Reads a word as an `i16`.
pub fn integer_16(word: &[u8]) -> Result<i16, LineError> {
    i16::try_from(integer_32(word)?).map_err(|_| LineError::OutOfRange)
}

// Splits off a leading `-`.
fn split_minus(word: &[u8]) -> (bool, &[u8]) {
    match word {
        [b'-', rest @ ..] => (true, rest),
        _ => (false, word),
    }
}

// Returns the number of one or more digits, or 2^40 if it is greater.
fn magnitude_of_digits(digits: &[u8]) -> Option<i64> {
    if digits.is_empty() {
        return None;
    }
    let mut number = 0u64;
    for digit in digits {
        if !digit.is_ascii_digit() {
            return None;
        }
        number = (number * 10 + u64::from(*digit - b'0')).min(1 << 40);
    }
    Some(number as i64)
}
