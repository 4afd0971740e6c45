// @generated from crates/font_types/src/lib.rt by tools/erase

//! The scalar types of OpenType, for readers of font tables, evaluators of deltas, scalers of
//! outlines and dumpers of font values.
//!
//! ```text
//! let version = MajorMinor::read(&bytes[..4]);          // Some, as there are four bytes
//! let width = Fixed::from_decimal("1.5")?;              // bits 98304
//! let moved = Matrix::identity() * Point::new(width, Fixed::ZERO);
//! let tag = Tag::new_checked(b"cvt")?;                  // "cvt "
//! ```

mod delta;
#[doc(hidden)]
pub mod laws;

pub use crate::font_base::{
    BeByteArray, BigEndian, ByteChunks, ByteRecords, FixedSize, IdentityEq, Int24, SampleHeader,
    Scalar, ScalarArray, ScalarArrayIter, TableDataRef, TableHeader, TryFromUint24Error, Uint24,
};
pub use crate::font_decimal::{
    Align, DecimalFault, Pad, Shortest, read_decimal, read_decimal_bytes, write_padded,
};
pub use crate::font_fixed::{
    F2Dot14, F2Dot30, F4Dot12, F6Dot10, F26Dot6, F48Dot16, Fixed, FixedI16, FixedI32, FixedI64,
    Format,
};
pub use crate::font_geom::{BoundingBox, Matrix, MatrixElement, Point, RingElement, Scale};
pub use crate::font_ids::{
    FWord, GlyphId, GlyphId16, GlyphId24, NameId, Nullable, Offset16, Offset24, Offset32,
    OffsetValue, Predefined, TryFromGlyphIdError, UfWord,
};
pub use crate::font_tags::{
    Compatible, InvalidTag, LongDateTime, MajorMinor, TTC_HEADER_TAG, Tag, Version16Dot16,
};
pub use delta::{DeltaSum, checked_delta_sum, delta_sum, vary};

/// The `sfnt` version of a font with TrueType outlines, 1.0.
pub const TT_SFNT_VERSION: u32 = 0x0001_0000;

/// The `sfnt` version of a TrueType font of older Apple systems, the bytes `true`.
pub const TRUE_SFNT_VERSION: u32 = 0x7472_7565;

/// The `sfnt` version of a font with CFF outlines, the bytes `OTTO`.
pub const CFF_SFNT_VERSION: u32 = 0x4F54_544F;
