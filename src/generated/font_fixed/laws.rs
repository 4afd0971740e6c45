// @generated from crates/font_fixed/src/laws.rt by tools/erase

//! Laws of arithmetic, as contracts of functions.

pub mod f26dot6;
pub mod fixed;
