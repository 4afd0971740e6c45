// @generated from crates/font_base/src/table_data.rt by tools/erase

//! Table data with a fixed-size header.

#[cfg(doc)]
use crate::definitions::font_base::TableData_antt::{IsSampleHeader, table_bytes};

use crate::font_base::big_endian::BigEndian;
use core::marker::PhantomData;

/// A fixed-size header at the start of a table.
///
/// # Laws
///
/// Rattle proves this of every implementation; rustc does not check it.
///
/// - `decode` returns a header for any `BYTE_LEN` bytes: it does not panic.
///
/// ```
/// use font_types_proved::{Scalar, TableDataRef, TableHeader, Version16Dot16};
///
/// /// The header of the table `maxp`.
/// struct MaxpHeader {
///     version: Version16Dot16,
///     glyph_count: u16,
/// }
///
/// impl TableHeader for MaxpHeader {
///     const BYTE_LEN: usize = 6;
///
///     fn decode(bytes: &[u8]) -> Self {
///         Self {
///             version: Scalar::read(&bytes[..4]).expect("four bytes"),
///             glyph_count: Scalar::read(&bytes[4..]).expect("two bytes"),
///         }
///     }
/// }
///
/// let maxp = TableDataRef::<MaxpHeader>::new(&[0, 0, 0x50, 0, 1, 4]).unwrap();
/// assert_eq!(maxp.header().version, Version16Dot16::VERSION_0_5);
/// assert_eq!(maxp.header().glyph_count, 260);
/// assert!(TableDataRef::<MaxpHeader>::new(&[0, 0, 0x50, 0, 1]).is_none());
/// ```
///
/// The source and its contracts: `crates/font_base/src/table_data.rt`.
///
/// <details><summary>Contract</summary>
///
/// ```text
/// // these bytes are the encoded header
/// ghost decodes: { List ℕ → Self → Type 0 };
/// ```
/// [Notation](crate::definitions)
/// </details>
pub trait TableHeader: Sized {
    /// The size of the header, in bytes.
    const BYTE_LEN: usize;

    /// Decodes a header from exactly `BYTE_LEN` bytes.
    ///
    /// # Panics
    ///
    /// May panic if there are fewer or more.
    ///
    /// <details><summary>Contract</summary>
    ///
    /// ```text
    /// requires { length bytes.now ≡ BYTE_LEN }
    /// ensures { decodes bytes.now result }
    /// ```
    /// [Notation](crate::definitions)
    /// </details>
    #[must_use]
    fn decode(bytes: &[u8]) -> Self;
}

/// The bytes of a table that starts with a header of type `H`.
///
/// The length is checked once, by `new`.
///
/// ```
/// use font_types_proved::{Scalar, TableDataRef, TableHeader};
///
/// /// The number of glyphs, in the table `maxp` after its version.
/// struct GlyphCount(u16);
///
/// impl TableHeader for GlyphCount {
///     const BYTE_LEN: usize = 6;
///
///     fn decode(bytes: &[u8]) -> Self {
///         Self(Scalar::read(&bytes[4..]).expect("two bytes"))
///     }
/// }
///
/// let maxp = TableDataRef::<GlyphCount>::new(&[0, 1, 0, 0, 1, 4, 0, 9]).unwrap();
/// assert_eq!(maxp.header().0, 260);
/// assert_eq!(maxp.rest(), [0, 9]);
/// ```
///
/// The source and its contracts: `crates/font_base/src/table_data.rt`.
///
/// <details><summary>Contract</summary>
///
/// ```text
/// ghost long: { H.BYTE_LEN ≤ length «data».now },
/// ```
/// [Notation](crate::definitions)
/// </details>
pub struct TableDataRef<'a, H: TableHeader> {
    data: &'a [u8],
    header: PhantomData<H>,
}

impl<'a, H: TableHeader> TableDataRef<'a, H> {
    /// Creates a table over `data`, or returns `None` if it is too short for the header.
    ///
    /// <details><summary>Contract</summary>
    ///
    /// ```text
    /// ensures variant { IsSome result ↔ (H.BYTE_LEN ≤ length «data».now) }
    /// ensures bytes { IfSome result (λ table. table_bytes table ≡ «data».now) }
    /// ```
    /// [Notation](crate::definitions): [`table_bytes`]
    /// </details>
    #[must_use]
    #[inline(always)]
    pub const fn new(data: &'a [u8]) -> Option<TableDataRef<'a, H>> {
        if data.len() < H::BYTE_LEN {
            return None;
        }
        Some(TableDataRef { data, header: PhantomData })
    }

    /// Decodes the header from the first `BYTE_LEN` bytes.
    ///
    /// <details><summary>Contract</summary>
    ///
    /// ```text
    /// ensures { H.decodes (take H.BYTE_LEN (table_bytes self.now)) result }
    /// ```
    /// [Notation](crate::definitions): [`table_bytes`]
    /// </details>
    #[must_use]
    #[inline(always)]
    pub fn header(&self) -> H {
        H::decode(&self.data[..H::BYTE_LEN])
    }

    /// Returns all the bytes, including the header.
    ///
    /// <details><summary>Contract</summary>
    ///
    /// ```text
    /// ensures { result.now ≡ table_bytes self.now }
    /// ```
    /// [Notation](crate::definitions): [`table_bytes`]
    /// </details>
    #[must_use]
    #[inline(always)]
    pub const fn data(&self) -> &'a [u8] {
        self.data
    }

    /// Returns the bytes after the header.
    ///
    /// <details><summary>Contract</summary>
    ///
    /// ```text
    /// ensures { result.now ≡ drop H.BYTE_LEN (table_bytes self.now) }
    /// ```
    /// [Notation](crate::definitions): [`table_bytes`]
    /// </details>
    #[must_use]
    #[inline]
    pub fn rest(&self) -> &'a [u8] {
        &self.data[H::BYTE_LEN..]
    }

    /// Returns the header and the bytes after it.
    ///
    /// <details><summary>Contract</summary>
    ///
    /// ```text
    /// ensures header { H.decodes (take H.BYTE_LEN (table_bytes self.now)) result.0 }
    /// ensures rest { result.1.now ≡ drop H.BYTE_LEN (table_bytes self.now) }
    /// ```
    /// [Notation](crate::definitions): [`table_bytes`]
    /// </details>
    #[must_use]
    #[inline]
    pub fn split(&self) -> (H, &'a [u8]) {
        (self.header(), self.rest())
    }
}

impl<'a, H: TableHeader> Clone for TableDataRef<'a, H> {
    #[inline]
    fn clone(&self) -> TableDataRef<'a, H> {
        TableDataRef { data: self.data, header: PhantomData }
    }
}

impl<'a, H: TableHeader> Copy for TableDataRef<'a, H> {}

/// An example of a header, with two fields.
///
/// The source and its contracts: `crates/font_base/src/table_data.rt`.
#[doc(hidden)]
#[derive(Clone, Copy, Debug)]
pub struct SampleHeader {
    /// Bytes 0 and 1.
    pub a: BigEndian<u16>,
    /// Bytes 2 to 5.
    pub b: BigEndian<u32>,
}

/// <details><summary>Contract</summary>
///
/// ```text
/// ghost decodes = { IsSampleHeader };
/// ```
/// [Notation](crate::definitions): [`IsSampleHeader`]
/// </details>
impl TableHeader for SampleHeader {
    const BYTE_LEN: usize = 6;

    #[inline]
    fn decode(bytes: &[u8]) -> SampleHeader {
        SampleHeader {
            a: BigEndian::from_slice(&bytes[..2]).unwrap(),
            b: BigEndian::from_slice(&bytes[2..]).unwrap(),
        }
    }
}
