// @generated from crates/font_lines/src/text.rt by tools/erase

//! The lines of an input and the words of a line.

use crate::host::*;

/// The lines of an input, first to last, each without its line feed. The last line may lack one.
pub struct Lines<'a> {
    /// The input after the lines returned so far.
    pub rest: &'a [u8],
}

impl<'a> Lines<'a> {
    /// Creates an iterator over the lines of `input`.
    pub fn new(input: &'a [u8]) -> Self {
        Lines { rest: input }
    }
}

impl<'a> Iterator for Lines<'a> {
    type Item = &'a [u8];

    fn next(&mut self) -> Option<&'a [u8]> {
        if self.rest.is_empty() {
            return None;
        }
        let (line, rest) = split_line(self.rest);
        self.rest = rest;
        Some(line)
    }
}

// Splits an input at its first line feed.
fn split_line(input: &[u8]) -> (&[u8], &[u8]) {
    match line_feed_at(input) {
        Some(end) => (&input[..end], &input[end + 1..]),
        None => (input, &[]),
    }
}

// Returns the index of the first line feed.
fn line_feed_at(input: &[u8]) -> Option<usize> {
    input.iter().position(|byte| *byte == b'\n')
}

/// The words of a line, first to last.
pub struct Words<'a> {
    /// The line after the words returned so far.
    pub rest: &'a [u8],
}

impl<'a> Words<'a> {
    /// Creates an iterator over the words of `line`.
    pub fn new(line: &'a [u8]) -> Self {
        Words { rest: line }
    }

    /// Returns the number of words that are left.
    pub fn count_left(&self) -> usize {
        Words::new(self.rest).count()
    }
}

impl<'a> Iterator for Words<'a> {
    type Item = &'a [u8];

    fn next(&mut self) -> Option<&'a [u8]> {
        let (_, text) = self.rest.split_at(word_at(self.rest)?);
        let (word, rest) = split_word(text);
        self.rest = rest;
        Some(word)
    }
}

// Returns the index of the first byte that is not blank.
fn word_at(text: &[u8]) -> Option<usize> {
    text.iter().position(|byte| !is_blank(*byte))
}

// Splits a text at its first blank.
fn split_word(text: &[u8]) -> (&[u8], &[u8]) {
    match blank_at(text) {
        Some(end) => (&text[..end], &text[end + 1..]),
        None => (text, &[]),
    }
}

// Returns the index of the first blank.
fn blank_at(text: &[u8]) -> Option<usize> {
    text.iter().position(|byte| is_blank(*byte))
}

// Returns whether a byte separates words.
fn is_blank(byte: u8) -> bool {
    matches!(byte, b' ' | b'\t' | b'\r')
}
