#![doc = include_str!("README.md")]
//!
//! The [`guide`] says which operations wrap, and how to sum deltas, to scale outlines, to read and
//! write records, and to make types of your own; [`porting`], what a program that uses `font-types`
//! has to change.
//!
//! # Types
//!
//! | For | Types and functions |
//! |---|---|
//! | fixed-point numbers of 16 bits | [`F2Dot14`], [`F4Dot12`], [`F6Dot10`] |
//! | of 32 and of 64 bits | [`Fixed`], [`F26Dot6`], [`F2Dot30`], [`F48Dot16`] |
//! | of another number of fraction bits | [`FixedI16`], [`FixedI32`], [`FixedI64`]; those that round: [`Format`] |
//! | integers of 24 bits | [`Uint24`], [`Int24`] |
//! | stored arrays | [`ScalarArray`], [`ScalarArrayIter`], [`ByteChunks`] |
//! | stored fields | [`Scalar`], [`BigEndian`], [`FixedSize`], [`BeByteArray`], [`IdentityEq`] |
//! | records of scalars and of arrays of them | [`record!`] |
//! | records whose size is a field of the table | [`ByteRecords`] |
//! | headers of tables | [`TableHeader`], [`TableDataRef`] |
//! | tags and dates | [`Tag`], [`LongDateTime`] |
//! | versions | [`MajorMinor`], [`Version16Dot16`], [`Compatible`] |
//! | ids | [`GlyphId`], [`GlyphId16`], [`GlyphId24`], [`NameId`], [`Predefined`] |
//! | quantities in font units | [`FWord`], [`UfWord`] |
//! | offsets | [`Offset16`], [`Offset24`], [`Offset32`], [`Nullable`], [`OffsetValue`] |
//! | geometry | [`Point`], [`Matrix`], [`BoundingBox`], [`MatrixElement`], [`RingElement`] |
//! | outlines, scaled to pixels | [`Scale`] |
//! | sums of deltas | [`DeltaSum`], [`delta_sum`], [`checked_delta_sum`], [`vary`] |
//! | decimal text, parsed | [`read_decimal`], [`read_decimal_bytes`] |
//! | decimal text, printed | [`Shortest`], [`write_padded`], [`Pad`], [`Align`] |
//! | errors | [`DecimalFault`], [`InvalidTag`], [`TryFromGlyphIdError`], [`TryFromUint24Error`] |
//!
//! The data types of OpenType, each of which is a [`Scalar`]:
//!
//! | In OpenType | Here |
//! |---|---|
//! | `uint8`, `int8`, `uint16`, `int16`, `uint32`, `int32` | `u8`, `i8`, `u16`, `i16`, `u32`, `i32` |
//! | `uint24` | [`Uint24`] |
//! | `Fixed`, `F2DOT14` | [`Fixed`], [`F2Dot14`] |
//! | `FWORD`, `UFWORD` | [`FWord`], [`UfWord`] |
//! | `LONGDATETIME` | [`LongDateTime`] |
//! | `Tag` | [`Tag`] |
//! | `Offset8` | `u8` |
//! | `Offset16`, `Offset24`, `Offset32` | [`Offset16`], [`Offset24`], [`Offset32`], or [`Nullable`] of each |
//! | `Version16Dot16` | [`Version16Dot16`] |
//! | `uint16` for a major and one for a minor version | [`MajorMinor`] |
//! | `uint16` for a glyph, `uint24` for a glyph | [`GlyphId16`], [`GlyphId24`] |
//! | `uint16` for a name of the table `name` | [`NameId`] |
//!
//! The folder `examples` of the repository has a dump of a font's tables, and `variations/examples`
//! has the advances of an instance.
#![no_std]
#![warn(missing_docs, missing_debug_implementations, missing_copy_implementations)]
#![warn(clippy::must_use_candidate, clippy::missing_errors_doc, clippy::missing_panics_doc)]
#![deny(unsafe_code)]
#![warn(clippy::undocumented_unsafe_blocks)]
// The generated source is written for its proofs, as a law that divides a number by itself, and for
// debug builds, in which the `match` of an iterator calls less than `map`.
#![allow(
    clippy::eq_op,
    clippy::manual_checked_ops,
    clippy::manual_div_ceil,
    clippy::manual_map,
    clippy::needless_range_loop,
    clippy::non_canonical_clone_impl
)]

#[cfg(target_pointer_width = "16")]
compile_error!("the source is proved for a `usize` of 64 bits, and relies on one of 32 or more");

#[path = "generated/font_base/mod.rs"]
mod font_base;
// `Shortest::as_str` has one `unsafe`.
#[allow(unsafe_code)]
#[path = "generated/font_decimal/mod.rs"]
mod font_decimal;
// The library for C uses more of it.
#[allow(dead_code, unused_imports)]
#[path = "generated/font_fixed/mod.rs"]
mod font_fixed;
#[path = "generated/font_geom/mod.rs"]
mod font_geom;
// It re-exports what is in `font_tags`.
#[allow(unused_imports)]
#[path = "generated/font_ids/mod.rs"]
mod font_ids;
#[path = "generated/font_tags/mod.rs"]
mod font_tags;
#[path = "generated/font_types/mod.rs"]
mod font_types;

#[cfg(doc)]
/// Overflow, sums of deltas, outlines, records, types of your own, and contracts.
///
#[doc = include_str!("guide.md")]
pub mod guide {}

#[cfg(doc)]
/// How to move a program from `font-types`: floats, search and replace, and every difference.
///
#[doc = include_str!("../docs/PORTING.md")]
pub mod porting {}

#[cfg(doc)]
#[doc = include_str!("contracts.md")]
#[path = "generated/definitions.rs"]
pub mod definitions;

mod methods;
mod record;
mod traits;

/// As in the guide, by `read_at`:
///
/// ```compile_fail,E0080
/// # use font_types_proved::{FixedSize, Scalar, ScalarArray};
/// # struct Sign(i8);
/// # impl FixedSize for Sign { const RAW_BYTE_LEN: usize = 2; }
/// # impl Scalar for Sign {
/// #     type Raw = [u8; 1];
/// #     fn from_raw(raw: [u8; 1]) -> Self { Self(i8::from_be_bytes(raw)) }
/// #     fn to_raw(self) -> [u8; 1] { self.0.to_be_bytes() }
/// # }
/// assert!(ScalarArray::<Sign>::read_at(&[0; 4], 2, 1).is_some());
/// ```
///
/// And as a field of a record:
///
/// ```compile_fail,E0080
/// # use font_types_proved::{FixedSize, Scalar, record};
/// # struct Sign(i8);
/// # impl FixedSize for Sign { const RAW_BYTE_LEN: usize = 2; }
/// # impl Scalar for Sign {
/// #     type Raw = [u8; 1];
/// #     fn from_raw(raw: [u8; 1]) -> Self { Self(i8::from_be_bytes(raw)) }
/// #     fn to_raw(self) -> [u8; 1] { self.0.to_be_bytes() }
/// # }
/// record! { struct Signs { sign: Sign } }
/// assert!(Signs::read_at(&[0; 2], 0).is_some());
/// ```
#[cfg(doctest)]
mod length_of_another {}

pub use font_types::*;
#[doc(hidden)]
pub use record::RecordField;
