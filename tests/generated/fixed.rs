// @generated from crates/rows/src/tests/fixed.rt by tools/erase

//! Rows of requirements.md and of font-types, and every value of 16 bits. `tests/definitions.rs`
//! compares what font-types lacks with exact values.

mod arithmetic;
mod conversions;
mod padded;
mod rows;
mod texts;
