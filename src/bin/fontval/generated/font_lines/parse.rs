// @generated from crates/font_lines/src/parse.rt by tools/erase

//! Reads the words of a command.

use crate::host::*;

use crate::font_lines::error::LineError;
use crate::font_lines::text::Words;

// Returns the word of a command that takes one.
fn only_word(mut words: Words<'_>) -> Result<&[u8], LineError> {
    match (words.next(), words.next()) {
        (Some(word), None) => Ok(word),
        _ => Err(LineError::WordCount),
    }
}

/// Returns the words of a command that takes two.
pub fn two_words(mut words: Words<'_>) -> Result<(&[u8], &[u8]), LineError> {
    match (words.next(), words.next(), words.next()) {
        (Some(first), Some(second), None) => Ok((first, second)),
        _ => Err(LineError::WordCount),
    }
}

/// Returns the bytes of the only word, of hexadecimal digits of either case.
pub fn hexadecimal<const N: usize>(words: Words<'_>) -> Result<[u8; N], LineError> {
    let word = only_word(words)?;
    let mut bytes = [0; N];
    hex::decode_to_slice(word, &mut bytes).map_err(|_| LineError::NotHexadecimal)?;
    Ok(bytes)
}
