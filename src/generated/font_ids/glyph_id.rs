// @generated from crates/font_ids/src/glyph_id.rt by tools/erase

//! Glyph ids.

#[cfg(doc)]
use crate::definitions::font_base::{
    Bytes_antt::{bytes_of, numeral},
    Uint24_antt::{UINT24_MAX, bytes_of_uint24, uint24_of_bytes},
};
#[cfg(doc)]
use crate::definitions::font_ids::GlyphId_antt::{
    glyph_number, glyph_text, glyph16_number, glyph16_of, glyph24_number, glyph24_of,
    refused_number,
};

use crate::font_base::{FixedSize, IdentityEq, Scalar, Uint24};
use crate::font_decimal::Shortest;
use core::cmp::Ordering;
use core::fmt;

/// A 16-bit glyph id.
///
/// ```
/// use font_types_proved::{GlyphId, GlyphId16};
/// assert_eq!(GlyphId16::try_from(GlyphId::new(7)).unwrap(), GlyphId16::new(7));
/// ```
///
/// The source and its contracts: `crates/font_ids/src/glyph_id.rt`.
#[derive(Clone, Copy, Debug, Default, PartialEq, Eq, PartialOrd, Ord, Hash)]
pub struct GlyphId16(u16);

impl GlyphId16 {
    /// `.notdef`, glyph 0.
    pub const NOTDEF: Self = Self(0);

    /// Creates a glyph id.
    ///
    /// <details><summary>Contract</summary>
    ///
    /// ```text
    /// ensures { glyph16_number result ≡ raw }
    /// ```
    /// [Notation](crate::definitions): [`glyph16_number`]
    /// </details>
    #[must_use]
    #[inline]
    pub const fn new(raw: u16) -> Self {
        Self(raw)
    }

    /// Returns the number.
    ///
    /// <details><summary>Contract</summary>
    ///
    /// ```text
    /// ensures { result ≡ glyph16_number self }
    /// ```
    /// [Notation](crate::definitions): [`glyph16_number`]
    /// </details>
    #[must_use]
    #[inline]
    pub const fn to_u16(self) -> u16 {
        self.0
    }

    /// Returns the number.
    ///
    /// <details><summary>Contract</summary>
    ///
    /// ```text
    /// ensures { result ≡ glyph16_number self }
    /// ```
    /// [Notation](crate::definitions): [`glyph16_number`]
    /// </details>
    #[must_use]
    #[inline]
    pub const fn to_u32(self) -> u32 {
        self.0 as u32
    }

    /// Returns the number as an index.
    ///
    /// <details><summary>Contract</summary>
    ///
    /// ```text
    /// ensures { result ≡ glyph16_number self }
    /// ```
    /// [Notation](crate::definitions): [`glyph16_number`]
    /// </details>
    #[must_use]
    #[inline]
    pub const fn to_usize(self) -> usize {
        self.0 as usize
    }

    /// Returns the big-endian bytes.
    ///
    /// <details><summary>Contract</summary>
    ///
    /// ```text
    /// ensures { result ≡ bytes_of 2 (pos (glyph16_number self)) }
    /// ```
    /// [Notation](crate::definitions): [`bytes_of`], [`glyph16_number`]
    /// </details>
    #[must_use]
    #[inline]
    pub const fn to_be_bytes(self) -> [u8; 2] {
        self.0.to_be_bytes()
    }
}

/// The named forms of `==` and `<` across types, which Rattle needs.
#[doc(hidden)]
impl GlyphId16 {
    /// Returns `true` if both are the same glyph, as `==` does.
    ///
    /// <details><summary>Contract</summary>
    ///
    /// ```text
    /// ensures { IsTrue result ↔ (glyph16_number self.now ≡ glyph_number other.now) }
    /// ```
    /// [Notation](crate::definitions): [`glyph16_number`], [`glyph_number`]
    /// </details>
    #[must_use]
    #[inline]
    pub fn eq_gid(&self, other: &GlyphId) -> bool {
        GlyphId::from(*self) == *other
    }

    /// Compares the two numbers, as `<` and `>` do.
    ///
    /// <details><summary>Contract</summary>
    ///
    /// ```text
    /// ensures { result ≡ nat_cmp (glyph16_number self.now) (glyph_number other.now) }
    /// ```
    /// [Notation](crate::definitions): [`glyph16_number`], [`glyph_number`]
    /// </details>
    #[must_use]
    #[inline]
    pub fn cmp_gid(&self, other: &GlyphId) -> Ordering {
        GlyphId::from(*self).cmp(other)
    }
}

// Writes a glyph id, whatever options the formatter has.
#[inline]
fn write_glyph(f: &mut fmt::Formatter<'_>, number: u32) -> fmt::Result {
    f.write_str("GID_")?;
    f.write_str(Shortest::new(i64::from(number), 0).as_str())
}

/// Writes `GID_` and the number.
///
/// <details><summary>Contract</summary>
///
/// ```text
/// ghost output = { λ id. Some (glyph_text (glyph16_number id)) };
/// ghost styled_output = { λ id _. Some (glyph_text (glyph16_number id)) };
/// ```
/// [Notation](crate::definitions): [`glyph_text`], [`glyph16_number`]
/// </details>
impl fmt::Display for GlyphId16 {
    fn fmt(&self, f: &mut fmt::Formatter<'_>) -> fmt::Result {
        write_glyph(f, self.to_u32())
    }
}

/// <details><summary>Contract</summary>
///
/// ```text
/// ghost from_gives = { λ number id. glyph16_number id ≡ number };
/// ```
/// [Notation](crate::definitions): [`glyph16_number`]
/// </details>
impl From<u16> for GlyphId16 {
    #[inline]
    fn from(number: u16) -> GlyphId16 {
        GlyphId16(number)
    }
}

/// <details><summary>Contract</summary>
///
/// ```text
/// ghost from_gives = { λ id number. number ≡ glyph16_number id };
/// ```
/// [Notation](crate::definitions): [`glyph16_number`]
/// </details>
impl From<GlyphId16> for u16 {
    #[inline]
    fn from(id: GlyphId16) -> u16 {
        id.0
    }
}

/// <details><summary>Contract</summary>
///
/// ```text
/// ghost from_gives = { λ id number. number ≡ glyph16_number id };
/// ```
/// [Notation](crate::definitions): [`glyph16_number`]
/// </details>
impl From<GlyphId16> for u32 {
    #[inline]
    fn from(id: GlyphId16) -> u32 {
        id.to_u32()
    }
}

/// <details><summary>Contract</summary>
///
/// ```text
/// ghost from_gives = { λ id number. number ≡ glyph16_number id };
/// ```
/// [Notation](crate::definitions): [`glyph16_number`]
/// </details>
impl From<GlyphId16> for usize {
    #[inline]
    fn from(id: GlyphId16) -> usize {
        usize::from(id.0)
    }
}

/// Fails if the number exceeds 65535.
///
/// <details><summary>Contract</summary>
///
/// ```text
/// ghost try_from_gives = { λ id result. MatchResult result
///     (λ narrow. glyph16_number narrow ≡ glyph_number id)
///     (λ error. (2 ^ 16 ≤ glyph_number id) × (refused_number error ≡ glyph_number id)) };
/// ```
/// [Notation](crate::definitions): [`glyph16_number`], [`glyph_number`], [`refused_number`]
/// </details>
impl TryFrom<GlyphId> for GlyphId16 {
    type Error = TryFromGlyphIdError;

    #[inline]
    fn try_from(id: GlyphId) -> Result<GlyphId16, TryFromGlyphIdError> {
        match u16::try_from(id.0) {
            Ok(number) => Ok(GlyphId16(number)),
            Err(_) => Err(TryFromGlyphIdError(id.0)),
        }
    }
}

impl FixedSize for GlyphId16 {
    const RAW_BYTE_LEN: usize = 2;
}

/// <details><summary>Contract</summary>
///
/// ```text
/// ghost is_scalar = { λ id. nat_lt (glyph16_number id) (2 ^ 16) };
/// ghost of_raw = { λ raw. glyph16_of (numeral raw) };
/// ghost raw_of = { λ id. bytes_of 2 (pos (glyph16_number id)) };
/// ```
/// [Notation](crate::definitions): [`glyph16_number`], [`glyph16_of`], [`numeral`], [`bytes_of`]
/// </details>
impl Scalar for GlyphId16 {
    type Raw = [u8; 2];

    #[inline]
    fn from_raw(raw: [u8; 2]) -> GlyphId16 {
        GlyphId16(u16::from_raw(raw))
    }

    #[inline]
    fn to_raw(self) -> [u8; 2] {
        self.0.to_raw()
    }
}

impl IdentityEq for GlyphId16 {}

/// A 24-bit glyph id.
///
/// ```
/// use font_types_proved::GlyphId24;
/// assert_eq!(GlyphId24::checked_new(0x01_0000).unwrap().to_be_bytes(), [1, 0, 0]);
/// ```
///
/// The source and its contracts: `crates/font_ids/src/glyph_id.rt`.
#[derive(Clone, Copy, Debug, Default, PartialEq, Eq, PartialOrd, Ord, Hash)]
pub struct GlyphId24(Uint24);

impl GlyphId24 {
    /// `.notdef`, glyph 0.
    pub const NOTDEF: Self = Self(Uint24::MIN);

    /// Creates a glyph id, saturating at 16777215.
    ///
    /// <details><summary>Contract</summary>
    ///
    /// ```text
    /// ensures { glyph24_number result ≡ min raw UINT24_MAX }
    /// ```
    /// [Notation](crate::definitions): [`glyph24_number`], [`UINT24_MAX`]
    /// </details>
    #[must_use]
    #[inline]
    pub const fn new(raw: u32) -> Self {
        Self(Uint24::new(raw))
    }

    /// Creates a glyph id, or returns `None` if the number exceeds 16777215.
    ///
    /// <details><summary>Contract</summary>
    ///
    /// ```text
    /// ensures variant { IsSome result ↔ (raw ≤ UINT24_MAX) }
    /// ensures value { IfSome result (λ id. glyph24_number id ≡ raw) }
    /// ```
    /// [Notation](crate::definitions): [`UINT24_MAX`], [`glyph24_number`]
    /// </details>
    #[must_use]
    #[inline]
    pub const fn checked_new(raw: u32) -> Option<Self> {
        match Uint24::checked_new(raw) {
            Some(number) => Some(Self(number)),
            None => None,
        }
    }

    /// Returns the number.
    ///
    /// <details><summary>Contract</summary>
    ///
    /// ```text
    /// ensures { result ≡ glyph24_number self }
    /// ```
    /// [Notation](crate::definitions): [`glyph24_number`]
    /// </details>
    #[must_use]
    #[inline]
    pub const fn to_u32(self) -> u32 {
        self.0.to_u32()
    }

    /// Returns the number as an index.
    ///
    /// <details><summary>Contract</summary>
    ///
    /// ```text
    /// ensures { result ≡ glyph24_number self }
    /// ```
    /// [Notation](crate::definitions): [`glyph24_number`]
    /// </details>
    #[must_use]
    #[inline]
    pub const fn to_usize(self) -> usize {
        self.to_u32() as usize
    }

    /// Returns the big-endian bytes.
    ///
    /// <details><summary>Contract</summary>
    ///
    /// ```text
    /// ensures { result ≡ bytes_of 3 (pos (glyph24_number self)) }
    /// ```
    /// [Notation](crate::definitions): [`bytes_of`], [`glyph24_number`]
    /// </details>
    #[must_use]
    #[inline]
    pub const fn to_be_bytes(self) -> [u8; 3] {
        self.0.to_be_bytes()
    }

    /// Creates a glyph id from big-endian bytes.
    ///
    /// <details><summary>Contract</summary>
    ///
    /// ```text
    /// ensures { bytes ≡ bytes_of 3 (pos (glyph24_number result)) }
    /// ```
    /// [Notation](crate::definitions): [`bytes_of`], [`glyph24_number`]
    /// </details>
    #[must_use]
    #[inline]
    pub const fn from_be_bytes(bytes: [u8; 3]) -> Self {
        Self(Uint24::from_be_bytes(bytes))
    }
}

/// Writes `GID_` and the number.
///
/// <details><summary>Contract</summary>
///
/// ```text
/// ghost output = { λ id. Some (glyph_text (glyph24_number id)) };
/// ghost styled_output = { λ id _. Some (glyph_text (glyph24_number id)) };
/// ```
/// [Notation](crate::definitions): [`glyph_text`], [`glyph24_number`]
/// </details>
impl fmt::Display for GlyphId24 {
    fn fmt(&self, f: &mut fmt::Formatter<'_>) -> fmt::Result {
        write_glyph(f, self.to_u32())
    }
}

/// <details><summary>Contract</summary>
///
/// ```text
/// ghost from_gives = { λ id number. number ≡ glyph24_number id };
/// ```
/// [Notation](crate::definitions): [`glyph24_number`]
/// </details>
impl From<GlyphId24> for u32 {
    #[inline]
    fn from(id: GlyphId24) -> u32 {
        id.to_u32()
    }
}

/// <details><summary>Contract</summary>
///
/// ```text
/// ghost from_gives = { λ id number. number ≡ glyph24_number id };
/// ```
/// [Notation](crate::definitions): [`glyph24_number`]
/// </details>
impl From<GlyphId24> for usize {
    #[inline]
    fn from(id: GlyphId24) -> usize {
        usize::from(id.0)
    }
}

/// Fails if the number exceeds 16777215.
///
/// <details><summary>Contract</summary>
///
/// ```text
/// ghost try_from_gives = { λ id result. MatchResult result
///     (λ narrow. glyph24_number narrow ≡ glyph_number id)
///     (λ error. (2 ^ 24 ≤ glyph_number id) × (refused_number error ≡ glyph_number id)) };
/// ```
/// [Notation](crate::definitions): [`glyph24_number`], [`glyph_number`], [`refused_number`]
/// </details>
impl TryFrom<GlyphId> for GlyphId24 {
    type Error = TryFromGlyphIdError;

    #[inline]
    fn try_from(id: GlyphId) -> Result<GlyphId24, TryFromGlyphIdError> {
        match Uint24::checked_new(id.0) {
            Some(number) => Ok(GlyphId24(number)),
            None => Err(TryFromGlyphIdError(id.0)),
        }
    }
}

impl FixedSize for GlyphId24 {
    const RAW_BYTE_LEN: usize = 3;
}

/// <details><summary>Contract</summary>
///
/// ```text
/// ghost is_scalar = { λ _. true };
/// ghost of_raw = { λ raw. glyph24_of (uint24_of_bytes raw) };
/// ghost raw_of = { λ id. bytes_of_uint24 id.0 };
/// ```
/// [Notation](crate::definitions): [`glyph24_of`], [`uint24_of_bytes`], [`bytes_of_uint24`]
/// </details>
impl Scalar for GlyphId24 {
    type Raw = [u8; 3];

    #[inline]
    fn from_raw(raw: [u8; 3]) -> GlyphId24 {
        GlyphId24(Uint24::from_raw(raw))
    }

    #[inline]
    fn to_raw(self) -> [u8; 3] {
        self.0.to_raw()
    }
}

impl IdentityEq for GlyphId24 {}

/// A 32-bit glyph id, to which 16-bit and 24-bit ids convert.
///
/// ```
/// use font_types_proved::{GlyphId, GlyphId16};
/// assert_eq!(GlyphId::from(GlyphId16::new(7)).to_u32(), 7);
/// ```
///
/// The source and its contracts: `crates/font_ids/src/glyph_id.rt`.
#[derive(Clone, Copy, Debug, Default, PartialEq, Eq, PartialOrd, Ord, Hash)]
pub struct GlyphId(u32);

impl GlyphId {
    /// `.notdef`, glyph 0.
    pub const NOTDEF: Self = Self(0);

    /// Creates a glyph id.
    ///
    /// <details><summary>Contract</summary>
    ///
    /// ```text
    /// ensures { glyph_number result ≡ raw }
    /// ```
    /// [Notation](crate::definitions): [`glyph_number`]
    /// </details>
    #[must_use]
    #[inline]
    pub const fn new(raw: u32) -> Self {
        Self(raw)
    }

    /// Returns the number.
    ///
    /// <details><summary>Contract</summary>
    ///
    /// ```text
    /// ensures { result ≡ glyph_number self }
    /// ```
    /// [Notation](crate::definitions): [`glyph_number`]
    /// </details>
    #[must_use]
    #[inline]
    pub const fn to_u32(self) -> u32 {
        self.0
    }

    /// Returns the number as an index.
    ///
    /// <details><summary>Contract</summary>
    ///
    /// ```text
    /// ensures { result ≡ glyph_number self }
    /// ```
    /// [Notation](crate::definitions): [`glyph_number`]
    /// </details>
    #[must_use]
    #[inline]
    pub const fn to_usize(self) -> usize {
        self.0 as usize
    }
}

/// The named forms of `==` and `<` across types, which Rattle needs.
#[doc(hidden)]
impl GlyphId {
    /// Returns `true` if both are the same glyph, as `==` does.
    ///
    /// <details><summary>Contract</summary>
    ///
    /// ```text
    /// ensures { IsTrue result ↔ (glyph_number self.now ≡ glyph16_number other.now) }
    /// ```
    /// [Notation](crate::definitions): [`glyph_number`], [`glyph16_number`]
    /// </details>
    #[must_use]
    #[inline]
    pub fn eq_gid16(&self, other: &GlyphId16) -> bool {
        *self == GlyphId::from(*other)
    }

    /// Compares the two numbers, as `<` and `>` do.
    ///
    /// <details><summary>Contract</summary>
    ///
    /// ```text
    /// ensures { result ≡ nat_cmp (glyph_number self.now) (glyph16_number other.now) }
    /// ```
    /// [Notation](crate::definitions): [`glyph_number`], [`glyph16_number`]
    /// </details>
    #[must_use]
    #[inline]
    pub fn cmp_gid16(&self, other: &GlyphId16) -> Ordering {
        self.cmp(&GlyphId::from(*other))
    }
}

/// Writes `GID_` and the number.
///
/// <details><summary>Contract</summary>
///
/// ```text
/// ghost output = { λ id. Some (glyph_text (glyph_number id)) };
/// ghost styled_output = { λ id _. Some (glyph_text (glyph_number id)) };
/// ```
/// [Notation](crate::definitions): [`glyph_text`], [`glyph_number`]
/// </details>
impl fmt::Display for GlyphId {
    fn fmt(&self, f: &mut fmt::Formatter<'_>) -> fmt::Result {
        write_glyph(f, self.to_u32())
    }
}

/// <details><summary>Contract</summary>
///
/// ```text
/// ghost from_gives = { λ number id. glyph_number id ≡ number };
/// ```
/// [Notation](crate::definitions): [`glyph_number`]
/// </details>
impl From<u16> for GlyphId {
    #[inline]
    fn from(number: u16) -> GlyphId {
        GlyphId(u32::from(number))
    }
}

/// <details><summary>Contract</summary>
///
/// ```text
/// ghost from_gives = { λ number id. glyph_number id ≡ number };
/// ```
/// [Notation](crate::definitions): [`glyph_number`]
/// </details>
impl From<u32> for GlyphId {
    #[inline]
    fn from(number: u32) -> GlyphId {
        GlyphId(number)
    }
}

/// <details><summary>Contract</summary>
///
/// ```text
/// ghost from_gives = { λ narrow id. glyph_number id ≡ glyph16_number narrow };
/// ```
/// [Notation](crate::definitions): [`glyph_number`], [`glyph16_number`]
/// </details>
impl From<GlyphId16> for GlyphId {
    #[inline]
    fn from(narrow: GlyphId16) -> GlyphId {
        GlyphId(narrow.to_u32())
    }
}

/// <details><summary>Contract</summary>
///
/// ```text
/// ghost from_gives = { λ narrow id. glyph_number id ≡ glyph24_number narrow };
/// ```
/// [Notation](crate::definitions): [`glyph_number`], [`glyph24_number`]
/// </details>
impl From<GlyphId24> for GlyphId {
    #[inline]
    fn from(narrow: GlyphId24) -> GlyphId {
        GlyphId(narrow.to_u32())
    }
}

/// <details><summary>Contract</summary>
///
/// ```text
/// ghost from_gives = { λ id number. number ≡ glyph_number id };
/// ```
/// [Notation](crate::definitions): [`glyph_number`]
/// </details>
impl From<GlyphId> for u32 {
    #[inline]
    fn from(id: GlyphId) -> u32 {
        id.0
    }
}

/// The error of a conversion of a glyph id that is too large for the target type.
///
/// ```
/// use font_types_proved::{GlyphId, GlyphId16};
/// let error = GlyphId16::try_from(GlyphId::new(65536)).unwrap_err();
/// assert_eq!(error.value(), 65536);
/// ```
///
/// The source and its contracts: `crates/font_ids/src/glyph_id.rt`.
#[derive(Debug, Clone, Copy, PartialEq, Eq)]
pub struct TryFromGlyphIdError(u32);

impl core::error::Error for TryFromGlyphIdError {}

impl core::fmt::Display for TryFromGlyphIdError {
    fn fmt(&self, f: &mut core::fmt::Formatter<'_>) -> core::fmt::Result {
        match self {
            Self(field_0, ..) => write!(f, "glyph identifier {field_0} too large for conversion"),
        }
    }
}

impl TryFromGlyphIdError {
    /// Returns the number that was too large.
    ///
    /// <details><summary>Contract</summary>
    ///
    /// ```text
    /// ensures { result ≡ refused_number self.now }
    /// ```
    /// [Notation](crate::definitions): [`refused_number`]
    /// </details>
    #[must_use]
    #[inline]
    pub const fn value(&self) -> u32 {
        self.0
    }
}
