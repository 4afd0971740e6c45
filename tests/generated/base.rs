// @generated from crates/rows/src/tests/base.rt by tools/erase

//! Values of OpenType and font-types, impls of callers, traits and texts.

mod fields;
mod numbers;
mod traits;
