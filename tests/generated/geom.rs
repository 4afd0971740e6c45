// @generated from crates/rows/src/tests/geom.rt by tools/erase

//! Impls of callers, rows of requirements.md, traits and texts. `tests/definitions.rs`
//! has the order of operands.

mod boxes;
mod ring;
mod rows;
mod traits;
