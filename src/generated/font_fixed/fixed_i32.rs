// @generated from crates/font_fixed/src/fixed_i32.rt by tools/erase

//! 32-bit fixed-point numbers.

// From this module, the eraser makes the module `common` of each other width.
mod common;
mod f26dot6;
mod f2dot30;
mod fixed;

pub use f2dot30::F2Dot30;
pub use f26dot6::F26Dot6;
pub use fixed::{Fixed, nearest_step, nearest_sum};

/// A signed fixed-point number of 32 bits, `F` of them fraction bits.
///
/// For its functions, read the page of the format: [`Fixed`], [`F26Dot6`] or [`F2Dot30`].
/// The raw value is an `i32` in units of `1 / 2^F`. Sums wrap on overflow.
///
/// The formats also round, parse and print, and have constants. Other fraction bits do not:
///
/// ```compile_fail,E0599
/// use font_types_proved::FixedI32;
/// FixedI32::<3>::from_bits(12).round();
/// ```
///
/// The source and its contracts: `crates/font_fixed/src/fixed_i32.rt`.
#[derive(Clone, Copy, PartialEq, Eq, PartialOrd, Ord, Hash, Default)]
pub struct FixedI32<const F: u32>(i32);
