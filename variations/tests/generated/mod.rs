// @generated from crates/variations/src/tests.rt by tools/erase

//! A row or two for each function, from OpenType and from arithmetic by hand: no clause says that
//! its definitions are those of the field.

mod advances;
mod evaluator;
mod variations;
