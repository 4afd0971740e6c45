// @generated from crates/font_tags/src/tag.rt by tools/erase

//! Four-byte tags.

#[cfg(doc)]
use crate::definitions::font_base::Bytes_antt::{are_bytes, bytes_of, numeral};
#[cfg(doc)]
use crate::definitions::font_tags::Tag_antt::{
    IsAcceptable, IsChecked, IsGood, IsValidated, four_spaces, tag_bytes, tag_of, tag_text,
};

use crate::font_base::{FixedSize, IdentityEq, Scalar};
use core::cmp::Ordering;
use core::fmt;
use core::str::FromStr;

/// The tag at the start of a font collection, `ttcf`.
pub const TTC_HEADER_TAG: Tag = Tag([0x74, 0x74, 0x63, 0x66]);

/// A four-byte identifier of a table, script, feature, axis and so on.
///
/// A valid tag is one to four printable ASCII characters, padded to four bytes with spaces. Fonts
/// may contain invalid ones, so a `Tag` can have any four bytes: [`Tag::new_checked`] accepts only
/// valid ones, and [`Tag::validate`] checks a tag.
///
/// ```
/// use font_types_proved::{InvalidTag, Tag};
/// assert_eq!(Tag::new_checked(b"cvt").unwrap(), Tag::new(b"cvt "));
/// assert_eq!(Tag::new_checked(b"glyph"), Err(InvalidTag::InvalidLength(5)));
/// ```
///
/// The source and its contracts: `crates/font_tags/src/tag.rt`.
#[derive(Clone, Copy, PartialEq, Eq, Hash)]
pub struct Tag([u8; 4]);

impl Tag {
    /// Creates a tag from four bytes, without validation.
    ///
    /// <details><summary>Contract</summary>
    ///
    /// ```text
    /// ensures { tag_bytes result ≡ src.now }
    /// ```
    /// [Notation](crate::definitions): [`tag_bytes`]
    /// </details>
    #[must_use]
    #[inline]
    pub const fn new(src: &[u8; 4]) -> Self {
        Self(*src)
    }

    /// Creates a valid tag from one to four bytes, padding with spaces.
    ///
    /// `Tag::new_checked(b"cv1")` is `cv1` followed by a space.
    ///
    /// # Errors
    ///
    /// Returns `InvalidLength` unless there are one to four bytes. Any other error is
    /// `InvalidByte` at the first byte that cannot be there: a space at the start, a byte that is
    /// not printable ASCII, or a printable byte after a space.
    ///
    /// <details><summary>Contract</summary>
    ///
    /// ```text
    /// ensures judged { IsChecked src.now result }
    /// ensures ok { IsOk result ↔ IsAcceptable src.now }
    /// ensures valid { IfOk result (λ tag. IsGood (tag_bytes tag)) }
    /// ```
    /// [Notation](crate::definitions): [`IsChecked`], [`IsAcceptable`], [`IsGood`], [`tag_bytes`]
    /// </details>
    #[inline]
    pub const fn new_checked(src: &[u8]) -> Result<Self, InvalidTag> {
        let bytes = match *src {
            [a] => [a, b' ', b' ', b' '],
            [a, b] => [a, b, b' ', b' '],
            [a, b, c] => [a, b, c, b' '],
            [a, b, c, d] => [a, b, c, d],
            _ => return Err(InvalidTag::InvalidLength(src.len())),
        };
        if let Some(pos) = first_fault(src) {
            return Err(InvalidTag::InvalidByte { pos, byte: src[pos] });
        }
        Ok(Self(bytes))
    }

    /// Creates a tag from the big-endian bytes of a number.
    ///
    /// <details><summary>Contract</summary>
    ///
    /// ```text
    /// ensures { tag_bytes result ≡ bytes_of 4 (pos src) }
    /// ```
    /// [Notation](crate::definitions): [`tag_bytes`], [`bytes_of`]
    /// </details>
    #[must_use]
    #[inline]
    pub const fn from_u32(src: u32) -> Self {
        Self(src.to_be_bytes())
    }

    /// Returns the number whose big-endian bytes are those of the tag.
    ///
    /// <details><summary>Contract</summary>
    ///
    /// ```text
    /// ensures { result ≡ numeral (tag_bytes self) }
    /// ```
    /// [Notation](crate::definitions): [`numeral`], [`tag_bytes`]
    /// </details>
    #[must_use]
    #[inline]
    pub const fn to_u32(self) -> u32 {
        u32::from_be_bytes(self.0)
    }

    /// Creates a tag from four bytes, without validation.
    ///
    /// <details><summary>Contract</summary>
    ///
    /// ```text
    /// ensures { tag_bytes result ≡ bytes }
    /// ```
    /// [Notation](crate::definitions): [`tag_bytes`]
    /// </details>
    #[must_use]
    #[inline]
    pub const fn from_be_bytes(bytes: [u8; 4]) -> Self {
        Self(bytes)
    }

    /// Returns the four bytes.
    ///
    /// <details><summary>Contract</summary>
    ///
    /// ```text
    /// ensures { result ≡ tag_bytes self }
    /// ```
    /// [Notation](crate::definitions): [`tag_bytes`]
    /// </details>
    #[must_use]
    #[inline]
    pub const fn to_be_bytes(self) -> [u8; 4] {
        self.0
    }

    /// Returns the four bytes.
    ///
    /// <details><summary>Contract</summary>
    ///
    /// ```text
    /// ensures { result ≡ tag_bytes self }
    /// ```
    /// [Notation](crate::definitions): [`tag_bytes`]
    /// </details>
    #[must_use]
    #[inline]
    pub const fn into_bytes(self) -> [u8; 4] {
        self.0
    }

    /// Returns the four bytes.
    ///
    /// <details><summary>Contract</summary>
    ///
    /// ```text
    /// ensures { result.now ≡ tag_bytes self.now }
    /// ```
    /// [Notation](crate::definitions): [`tag_bytes`]
    /// </details>
    #[must_use]
    #[inline]
    pub const fn as_bytes(&self) -> &[u8; 4] {
        &self.0
    }

    /// Checks that the tag is valid: printable characters, followed only by spaces.
    ///
    /// # Errors
    ///
    /// Returns `InvalidLength(0)` for four spaces. Otherwise the error is of the first byte that
    /// cannot be there: `ByteAfterSpace` for a printable byte after a space, and `InvalidByte` for
    /// a space at the start or a byte that is not printable ASCII.
    ///
    /// ```
    /// use font_types_proved::{InvalidTag, Tag};
    /// assert_eq!(Tag::new(b"cvt ").validate(), Ok(()));
    /// let fault = InvalidTag::ByteAfterSpace { pos: 2 };
    /// assert_eq!(Tag::new(b"b cc").validate(), Err(fault));
    /// ```
    ///
    /// <details><summary>Contract</summary>
    ///
    /// ```text
    /// ensures judged { IsValidated (tag_bytes self) result }
    /// ensures ok { IsOk result ↔ IsGood (tag_bytes self) }
    /// ```
    /// [Notation](crate::definitions): [`IsValidated`], [`tag_bytes`], [`IsGood`]
    /// </details>
    #[inline]
    pub fn validate(self) -> Result<(), InvalidTag> {
        if self.eq_bytes(&[b' '; 4]) {
            return Err(InvalidTag::InvalidLength(0));
        }
        match first_fault(&self.0) {
            None => Ok(()),
            Some(pos) if self.0[pos].is_ascii_graphic() => Err(InvalidTag::ByteAfterSpace { pos }),
            Some(pos) => Err(InvalidTag::InvalidByte { pos, byte: self.0[pos] }),
        }
    }
}

/// The named forms of `==` across types, which Rattle needs.
#[doc(hidden)]
impl Tag {
    /// Returns `true` if the tag has these bytes, as `==` does.
    ///
    /// <details><summary>Contract</summary>
    ///
    /// ```text
    /// ensures { IsTrue result ↔ (tag_bytes self.now ≡ other.now) }
    /// ```
    /// [Notation](crate::definitions): [`tag_bytes`]
    /// </details>
    #[must_use]
    #[inline]
    pub fn eq_bytes(&self, other: &[u8; 4]) -> bool {
        self.0 == *other
    }

    /// Returns `true` if the tag has the bytes of this string, as `==` does.
    ///
    /// <details><summary>Contract</summary>
    ///
    /// ```text
    /// ensures { IsTrue result ↔ (tag_bytes self.now ≡ other.now) }
    /// ```
    /// [Notation](crate::definitions): [`tag_bytes`]
    /// </details>
    #[must_use]
    #[inline]
    pub fn eq_str(&self, other: &str) -> bool {
        self.eq_slice(other.as_bytes())
    }

    /// Returns `true` if the tag has the bytes of this slice, as `==` does.
    ///
    /// <details><summary>Contract</summary>
    ///
    /// ```text
    /// ensures { IsTrue result ↔ (tag_bytes self.now ≡ other.now) }
    /// ```
    /// [Notation](crate::definitions): [`tag_bytes`]
    /// </details>
    #[must_use]
    #[inline]
    pub fn eq_slice(&self, other: &[u8]) -> bool {
        self.0.as_slice() == other
    }
}

// Returns the index of the first invalid byte, or `None` if all are valid.
#[inline]
const fn first_fault(bytes: &[u8]) -> Option<usize> {
    let run = visible_run(bytes);
    if run == 0 {
        return Some(0);
    }
    let pos = after_spaces(bytes, run);
    if pos < bytes.len() { Some(pos) } else { None }
}

// Returns the number of leading printable bytes other than spaces.
#[inline]
const fn visible_run(bytes: &[u8]) -> usize {
    let mut run = 0;
    while run < bytes.len() && bytes[run].is_ascii_graphic() {
        run += 1;
    }
    run
}

// Returns the index after the spaces that start at `from`.
#[inline]
const fn after_spaces(bytes: &[u8], from: usize) -> usize {
    let mut pos = from;
    while pos < bytes.len() && bytes[pos] == b' ' {
        pos += 1;
    }
    pos
}

/// Why a tag is invalid.
///
/// ```
/// use font_types_proved::{InvalidTag, Tag};
/// let tag = Tag::new_checked(b"a\tb");
/// assert_eq!(tag, Err(InvalidTag::InvalidByte { pos: 1, byte: b'\t' }));
/// assert_eq!(tag.unwrap_err().to_string(), "Invalid byte 0x9 at index 1");
/// assert_eq!(Tag::new(b"a b ").validate(), Err(InvalidTag::ByteAfterSpace { pos: 2 }));
/// ```
///
/// The source and its contracts: `crates/font_tags/src/tag.rt`.
#[derive(Clone, Debug, PartialEq, Eq)]
pub enum InvalidTag {
    /// There are not one to four bytes; a tag of four spaces has length 0.
    InvalidLength(usize),
    /// The byte at `pos` is not allowed there.
    InvalidByte {
        /// The index of the byte.
        pos: usize,
        /// The byte.
        byte: u8,
    },
    /// The byte at `pos` is printable, but follows a space.
    ByteAfterSpace {
        /// The index of the byte.
        pos: usize,
    },
}

impl core::error::Error for InvalidTag {}

impl core::fmt::Display for InvalidTag {
    fn fmt(&self, f: &mut core::fmt::Formatter<'_>) -> core::fmt::Result {
        match self {
            Self::InvalidLength(field_0, ..) => write!(f, "Invalid length ({field_0})"),
            Self::InvalidByte { byte, pos, .. } => {
                write!(f, "Invalid byte 0x{byte:X} at index {pos}")
            }
            Self::ByteAfterSpace { .. } => write!(f, "Non-space character after first space"),
        }
    }
}

impl Copy for InvalidTag {}

/// <details><summary>Contract</summary>
///
/// ```text
/// ghost partial_cmp = { λ a b. Some (slice_cmp nat_cmp (tag_bytes a) (tag_bytes b)) };
/// ```
/// [Notation](crate::definitions): [`tag_bytes`]
/// </details>
impl PartialOrd for Tag {
    #[inline]
    fn partial_cmp(&self, other: &Tag) -> Option<Ordering> {
        Some(self.cmp(other))
    }
}

/// <details><summary>Contract</summary>
///
/// ```text
/// ghost cmp = { on tag_bytes (slice_cmp nat_cmp) };
/// ```
/// [Notation](crate::definitions): [`tag_bytes`]
/// </details>
impl Ord for Tag {
    #[inline]
    fn cmp(&self, other: &Tag) -> Ordering {
        self.0.cmp(&other.0)
    }
}

/// Parses as `new_checked` does, of the bytes of the text.
///
/// <details><summary>Contract</summary>
///
/// ```text
/// ghost from_str_gives = { IsChecked };
/// ```
/// [Notation](crate::definitions): [`IsChecked`]
/// </details>
impl FromStr for Tag {
    type Err = InvalidTag;

    #[inline]
    fn from_str(src: &str) -> Result<Self, InvalidTag> {
        Tag::new_checked(src.as_bytes())
    }
}

/// Four spaces.
///
/// <details><summary>Contract</summary>
///
/// ```text
/// ghost is_default = { λ tag. tag_bytes tag ≡ four_spaces };
/// ```
/// [Notation](crate::definitions): [`tag_bytes`], [`four_spaces`]
/// </details>
impl Default for Tag {
    #[inline]
    fn default() -> Tag {
        Tag([b' '; 4])
    }
}

/// Writes the bytes from 0x20 to 0x7E as they are, and any other in braces, such as `{0x1F}`.
///
/// <details><summary>Contract</summary>
///
/// ```text
/// ghost output = { λ tag. Some (tag_text (tag_bytes tag)) };
/// ghost styled_output = { λ tag _. Some (tag_text (tag_bytes tag)) };
/// ```
/// [Notation](crate::definitions): [`tag_text`], [`tag_bytes`]
/// </details>
impl fmt::Display for Tag {
    fn fmt(&self, f: &mut fmt::Formatter<'_>) -> fmt::Result {
        for byte in &self.0 {
            write_byte(f, *byte)?;
        }
        Ok(())
    }
}

// Writes a byte as in the text of a tag.
#[inline]
fn write_byte(f: &mut fmt::Formatter<'_>, byte: u8) -> fmt::Result {
    match byte {
        0x20..=0x7E => write_ascii(f, byte),
        _ => {
            f.write_str("{0x")?;
            write_ascii(f, hexadecimal_digit(byte / 16))?;
            write_ascii(f, hexadecimal_digit(byte % 16))?;
            f.write_str("}")
        }
    }
}

// Writes an ASCII character.
#[inline]
fn write_ascii(f: &mut fmt::Formatter<'_>, byte: u8) -> fmt::Result {
    f.write_str(char::from(byte).encode_utf8(&mut [0; 4]))
}

// Returns the hexadecimal digit of a number below 16.
#[inline]
fn hexadecimal_digit(n: u8) -> u8 {
    if n < 10 { b'0' + n } else { b'A' + (n - 10) }
}

/// <details><summary>Contract</summary>
///
/// ```text
/// ghost debug_output = { λ tag. Some (codes "Tag(" ++ tag_text (tag_bytes tag) ++ codes ")") };
/// ```
/// [Notation](crate::definitions): [`tag_text`], [`tag_bytes`]
/// </details>
impl fmt::Debug for Tag {
    fn fmt(&self, f: &mut fmt::Formatter<'_>) -> fmt::Result {
        write!(f, "Tag({self})")
    }
}

impl FixedSize for Tag {
    const RAW_BYTE_LEN: usize = 4;
}

/// <details><summary>Contract</summary>
///
/// ```text
/// ghost is_scalar = { λ tag. are_bytes 4 (tag_bytes tag) };
/// ghost of_raw = { tag_of };
/// ghost raw_of = { tag_bytes };
/// ```
/// [Notation](crate::definitions): [`are_bytes`], [`tag_bytes`], [`tag_of`]
/// </details>
impl Scalar for Tag {
    type Raw = [u8; 4];

    #[inline]
    fn from_raw(raw: [u8; 4]) -> Tag {
        Tag(raw)
    }

    #[inline]
    fn to_raw(self) -> [u8; 4] {
        self.0
    }
}

impl IdentityEq for Tag {}
