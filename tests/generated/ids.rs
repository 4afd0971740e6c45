// @generated from crates/rows/src/tests/ids.rt by tools/erase

//! Values of OpenType and font-types, an impl of a caller, traits and texts.

mod glyphs;
mod headers;
mod names;
mod offsets;
mod traits;
mod words;
