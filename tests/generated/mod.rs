// @generated from crates/rows/src/tests.rt by tools/erase

//! Values of OpenType and font-types, impls of callers, traits and texts, by crate. What only
//! Rattle has is in `json` and `raw`.

mod base;
mod decimal;
mod deltas;
mod fixed;
mod geom;
mod ids;
mod tags;
