#![doc = include_str!("../README.md")]
#![no_std]
#![forbid(unsafe_code)]
#![warn(missing_docs, missing_debug_implementations, missing_copy_implementations)]
#![warn(clippy::must_use_candidate, clippy::missing_errors_doc, clippy::missing_panics_doc)]
// The generated source is written for its proofs.
#![allow(clippy::manual_find)]

#[cfg(doc)]
#[doc = include_str!("generated/contracts.md")]
#[path = "generated/definitions.rs"]
pub mod definitions;

mod generated;

/// The types of `font-types-proved` that stand in signatures here.
pub use font_types_proved::{
    DecimalFault, F2Dot14, F48Dot16, Fixed, GlyphId16, InvalidTag, NameId, Tag, UfWord,
};
pub use generated::*;
