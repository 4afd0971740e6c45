// @generated from crates/font_ids/src/name_id.rt by tools/erase

//! Name ids of the `name` table.

#[cfg(doc)]
use crate::definitions::font_base::Bytes_antt::{bytes_of, numeral};
#[cfg(doc)]
use crate::definitions::font_ids::NameId_antt::{
    last_allowed, last_reserved, name_id_of, name_number, name_text, predefined_left,
    predefined_numbers,
};

use crate::font_base::{FixedSize, IdentityEq, Scalar};
use crate::font_decimal::Shortest;
use core::fmt;

/// The id of a string in the `name` table, such as the family name.
///
/// Ids up to 255 are reserved; the predefined ones have constants here. Ids from 256 to 32767 are
/// font-specific.
///
/// ```
/// use font_types_proved::NameId;
/// assert_eq!(NameId::new(1), NameId::FAMILY_NAME);
/// assert!(NameId::FAMILY_NAME.is_reserved());
/// ```
///
/// The source and its contracts: `crates/font_ids/src/name_id.rt`.
#[derive(Clone, Copy, PartialEq, Eq, PartialOrd, Ord, Hash)]
pub struct NameId(u16);

impl NameId {
    /// Copyright notice.
    pub const COPYRIGHT_NOTICE: Self = Self(0);

    /// Font family name, shared by at most four fonts that differ only in weight or style.
    pub const FAMILY_NAME: Self = Self(1);

    /// Font subfamily name, which distinguishes the fonts of such a family.
    pub const SUBFAMILY_NAME: Self = Self(2);

    /// Unique font identifier.
    pub const UNIQUE_ID: Self = Self(3);

    /// Full font name.
    pub const FULL_NAME: Self = Self(4);

    /// Version string, such as `Version 1.000`.
    pub const VERSION_STRING: Self = Self(5);

    /// PostScript name.
    pub const POSTSCRIPT_NAME: Self = Self(6);

    /// Trademark.
    pub const TRADEMARK: Self = Self(7);

    /// Manufacturer.
    pub const MANUFACTURER: Self = Self(8);

    /// Designer of the typeface.
    pub const DESIGNER: Self = Self(9);

    /// Description of the typeface.
    pub const DESCRIPTION: Self = Self(10);

    /// URL of the vendor.
    pub const VENDOR_URL: Self = Self(11);

    /// URL of the designer.
    pub const DESIGNER_URL: Self = Self(12);

    /// License description.
    pub const LICENSE_DESCRIPTION: Self = Self(13);

    /// URL of the license.
    pub const LICENSE_URL: Self = Self(14);

    /// Typographic family name, shared by any number of fonts.
    pub const TYPOGRAPHIC_FAMILY_NAME: Self = Self(16);

    /// Typographic subfamily name.
    pub const TYPOGRAPHIC_SUBFAMILY_NAME: Self = Self(17);

    /// Compatible full name, for Macintosh menus.
    pub const COMPATIBLE_FULL_NAME: Self = Self(18);

    /// Sample text.
    pub const SAMPLE_TEXT: Self = Self(19);

    /// PostScript name of a CID-keyed font.
    pub const POSTSCRIPT_CID_NAME: Self = Self(20);

    /// Family name in the weight, width and slope model.
    pub const WWS_FAMILY_NAME: Self = Self(21);

    /// Subfamily name in the weight, width and slope model.
    pub const WWS_SUBFAMILY_NAME: Self = Self(22);

    /// Name of a palette for light backgrounds.
    pub const LIGHT_BACKGROUND_PALETTE: Self = Self(23);

    /// Name of a palette for dark backgrounds.
    pub const DARK_BACKGROUND_PALETTE: Self = Self(24);

    /// Prefix of the PostScript names of a variable font's instances.
    pub const VARIATIONS_POSTSCRIPT_NAME_PREFIX: Self = Self(25);

    /// The largest reserved id.
    pub const LAST_RESERVED_NAME_ID: Self = Self(255);

    /// The largest id that is allowed.
    pub const LAST_ALLOWED_NAME_ID: Self = Self(32767);

    /// Creates a name id.
    ///
    /// <details><summary>Contract</summary>
    ///
    /// ```text
    /// ensures { name_number result ≡ raw }
    /// ```
    /// [Notation](crate::definitions): [`name_number`]
    /// </details>
    #[must_use]
    #[inline]
    pub const fn new(raw: u16) -> Self {
        Self(raw)
    }

    /// Returns an iterator over the predefined ids in order: 0 to 14 and 16 to 25.
    ///
    /// <details><summary>Contract</summary>
    ///
    /// ```text
    /// ensures ids { predefined_left result ≡ map name_id_of predefined_numbers }
    /// ensures count { length (predefined_left result) ≡ 25 }
    /// ```
    /// [Notation](crate::definitions): [`predefined_left`], [`name_id_of`], [`predefined_numbers`]
    /// </details>
    #[must_use]
    #[inline]
    pub const fn predefined() -> Predefined {
        Predefined { next: 0 }
    }

    /// Returns the number.
    ///
    /// <details><summary>Contract</summary>
    ///
    /// ```text
    /// ensures { result ≡ name_number self }
    /// ```
    /// [Notation](crate::definitions): [`name_number`]
    /// </details>
    #[must_use]
    #[inline]
    pub const fn to_u16(self) -> u16 {
        self.0
    }

    /// Returns `true` if the id is reserved, that is, at most 255.
    ///
    /// <details><summary>Contract</summary>
    ///
    /// ```text
    /// ensures { IsTrue result ↔ (name_number self ≤ last_reserved) }
    /// ```
    /// [Notation](crate::definitions): [`name_number`], [`last_reserved`]
    /// </details>
    #[must_use]
    #[inline]
    pub const fn is_reserved(self) -> bool {
        self.0 <= Self::LAST_RESERVED_NAME_ID.0
    }

    /// Returns `self + rhs`, or `None` if that exceeds `LAST_ALLOWED_NAME_ID`, even if `rhs` is 0.
    ///
    /// <details><summary>Contract</summary>
    ///
    /// ```text
    /// ensures variant { IsSome result ↔ (name_number self + rhs ≤ last_allowed) }
    /// ensures value { IfSome result (λ id. name_number id ≡ name_number self + rhs) }
    /// ```
    /// [Notation](crate::definitions): [`name_number`], [`last_allowed`]
    /// </details>
    #[must_use]
    #[inline]
    pub const fn checked_add(self, rhs: u16) -> Option<Self> {
        let sum = Self(self.0.saturating_add(rhs));
        if sum.0 > Self::LAST_ALLOWED_NAME_ID.0 { None } else { Some(sum) }
    }

    /// Returns the big-endian bytes.
    ///
    /// <details><summary>Contract</summary>
    ///
    /// ```text
    /// ensures { result ≡ bytes_of 2 (pos (name_number self)) }
    /// ```
    /// [Notation](crate::definitions): [`bytes_of`], [`name_number`]
    /// </details>
    #[must_use]
    #[inline]
    pub const fn to_be_bytes(self) -> [u8; 2] {
        self.0.to_be_bytes()
    }
}

/// 65535, which is not an id of a name.
///
/// <details><summary>Contract</summary>
///
/// ```text
/// ghost is_default = { λ id. name_number id ≡ 65535 };
/// ```
/// [Notation](crate::definitions): [`name_number`]
/// </details>
impl Default for NameId {
    #[inline]
    fn default() -> NameId {
        NameId(0xFFFF)
    }
}

/// <details><summary>Contract</summary>
///
/// ```text
/// ghost from_gives = { λ number id. name_number id ≡ number };
/// ```
/// [Notation](crate::definitions): [`name_number`]
/// </details>
impl From<u16> for NameId {
    #[inline]
    fn from(number: u16) -> NameId {
        NameId(number)
    }
}

/// <details><summary>Contract</summary>
///
/// ```text
/// ghost from_gives = { λ id number. number ≡ name_number id };
/// ```
/// [Notation](crate::definitions): [`name_number`]
/// </details>
impl From<NameId> for u16 {
    #[inline]
    fn from(id: NameId) -> u16 {
        id.0
    }
}

/// Writes the name of the constant, or [`NameId`] and the number.
///
/// <details><summary>Contract</summary>
///
/// ```text
/// ghost output = { λ id. Some (name_text (name_number id)) };
/// ghost styled_output = { λ id _. Some (name_text (name_number id)) };
/// ```
/// [Notation](crate::definitions): [`name_text`], [`name_number`]
/// </details>
impl fmt::Display for NameId {
    fn fmt(&self, f: &mut fmt::Formatter<'_>) -> fmt::Result {
        let name = match *self {
            Self::COPYRIGHT_NOTICE => "COPYRIGHT_NOTICE",
            Self::FAMILY_NAME => "FAMILY_NAME",
            Self::SUBFAMILY_NAME => "SUBFAMILY_NAME",
            Self::UNIQUE_ID => "UNIQUE_ID",
            Self::FULL_NAME => "FULL_NAME",
            Self::VERSION_STRING => "VERSION_STRING",
            Self::POSTSCRIPT_NAME => "POSTSCRIPT_NAME",
            Self::TRADEMARK => "TRADEMARK",
            Self::MANUFACTURER => "MANUFACTURER",
            Self::DESIGNER => "DESIGNER",
            Self::DESCRIPTION => "DESCRIPTION",
            Self::VENDOR_URL => "VENDOR_URL",
            Self::DESIGNER_URL => "DESIGNER_URL",
            Self::LICENSE_DESCRIPTION => "LICENSE_DESCRIPTION",
            Self::LICENSE_URL => "LICENSE_URL",
            Self::TYPOGRAPHIC_FAMILY_NAME => "TYPOGRAPHIC_FAMILY_NAME",
            Self::TYPOGRAPHIC_SUBFAMILY_NAME => "TYPOGRAPHIC_SUBFAMILY_NAME",
            Self::COMPATIBLE_FULL_NAME => "COMPATIBLE_FULL_NAME",
            Self::SAMPLE_TEXT => "SAMPLE_TEXT",
            Self::POSTSCRIPT_CID_NAME => "POSTSCRIPT_CID_NAME",
            Self::WWS_FAMILY_NAME => "WWS_FAMILY_NAME",
            Self::WWS_SUBFAMILY_NAME => "WWS_SUBFAMILY_NAME",
            Self::LIGHT_BACKGROUND_PALETTE => "LIGHT_BACKGROUND_PALETTE",
            Self::DARK_BACKGROUND_PALETTE => "DARK_BACKGROUND_PALETTE",
            Self::VARIATIONS_POSTSCRIPT_NAME_PREFIX => "VARIATIONS_POSTSCRIPT_NAME_PREFIX",
            _ => return write_number(f, self.0),
        };
        f.write_str(name)
    }
}

/// Writes the name of the constant, or [`NameId`] and the number.
///
/// <details><summary>Contract</summary>
///
/// ```text
/// ghost debug_output = { λ id. Some (name_text (name_number id)) };
/// ```
/// [Notation](crate::definitions): [`name_text`], [`name_number`]
/// </details>
impl fmt::Debug for NameId {
    fn fmt(&self, f: &mut fmt::Formatter<'_>) -> fmt::Result {
        fmt::Display::fmt(self, f)
    }
}

// Writes the text of an id that has no constant.
#[inline]
fn write_number(f: &mut fmt::Formatter<'_>, number: u16) -> fmt::Result {
    f.write_str("NameId ")?;
    f.write_str(Shortest::new(i64::from(number), 0).as_str())
}

impl FixedSize for NameId {
    const RAW_BYTE_LEN: usize = 2;
}

/// <details><summary>Contract</summary>
///
/// ```text
/// ghost is_scalar = { λ id. nat_lt (name_number id) (2 ^ 16) };
/// ghost of_raw = { λ raw. name_id_of (numeral raw) };
/// ghost raw_of = { λ id. bytes_of 2 (pos (name_number id)) };
/// ```
/// [Notation](crate::definitions): [`name_number`], [`name_id_of`], [`numeral`], [`bytes_of`]
/// </details>
impl Scalar for NameId {
    type Raw = [u8; 2];

    #[inline]
    fn from_raw(raw: [u8; 2]) -> NameId {
        NameId(u16::from_raw(raw))
    }

    #[inline]
    fn to_raw(self) -> [u8; 2] {
        self.0.to_raw()
    }
}

impl IdentityEq for NameId {}

/// An iterator over the predefined ids, in order.
///
/// ```
/// use font_types_proved::NameId;
/// assert_eq!(NameId::predefined().nth(1), Some(NameId::FAMILY_NAME));
/// ```
///
/// The source and its contracts: `crates/font_ids/src/name_id.rt`.
#[derive(Clone)]
pub struct Predefined {
    next: u16,
}

/// <details><summary>Contract</summary>
///
/// ```text
/// ghost next_gives = { YieldsFirst predefined_left };
/// ghost remaining = { item_count predefined_left };
/// ```
/// [Notation](crate::definitions): [`predefined_left`]
/// </details>
impl Iterator for Predefined {
    type Item = NameId;

    #[inline]
    fn next(&mut self) -> Option<NameId> {
        let number = if self.next == 15 { 16 } else { self.next };
        if number > 25 {
            return None;
        }
        self.next = number + 1;
        Some(NameId(number))
    }

    #[inline]
    fn size_hint(&self) -> (usize, Option<usize>) {
        let left = match self.next {
            0..=15 => 25 - self.next,
            16..=25 => 26 - self.next,
            _ => 0,
        };
        (left as usize, Some(left as usize))
    }
}
