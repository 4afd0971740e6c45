// @generated from crates/font_c/src/tag_text.rt by tools/erase

//! The text of a tag, in a buffer of its own.

use crate::font_types::Tag;

// A byte that is not printable takes six: `{0xFF}`.
const LEN: usize = 24;

/// The text of a tag, as far as it is made.
#[derive(Clone, Copy)]
pub struct TagText {
    bytes: [u8; LEN],
    len: usize,
}

impl TagText {
    /// The text of a tag.
    pub fn new(tag: Tag) -> Self {
        let [first, second, third, fourth] = tag.to_be_bytes();
        let mut text = Self::empty();
        text.push(first);
        text.push(second);
        text.push(third);
        text.push(fourth);
        text
    }

    /// The text.
    pub fn as_bytes(&self) -> &[u8] {
        &self.bytes[..self.len]
    }

    fn empty() -> Self {
        Self { bytes: [0; LEN], len: 0 }
    }

    // Appends the text of a byte.
    fn push(&mut self, byte: u8) {
        match byte {
            0x20..=0x7E => self.put(&[byte]),
            _ => self.put(&[
                b'{',
                b'0',
                b'x',
                hexadecimal_digit(byte / 16),
                hexadecimal_digit(byte % 16),
                b'}',
            ]),
        }
    }

    // Appends bytes.
    fn put(&mut self, bytes: &[u8]) {
        let end = self.len + bytes.len();
        self.bytes[self.len..end].copy_from_slice(bytes);
        self.len = end;
    }
}

// Returns the hexadecimal digit of a number below 16.
fn hexadecimal_digit(n: u8) -> u8 {
    if n < 10 { b'0' + n } else { b'A' + (n - 10) }
}
