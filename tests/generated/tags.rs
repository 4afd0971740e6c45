// @generated from crates/rows/src/tests/tags.rt by tools/erase

//! Values of OpenType and font-types, traits and texts.

mod compatible;
mod tag;
mod traits;
mod versions;
