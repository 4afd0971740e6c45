// @generated from crates/font_fixed/src/fixed_i16/f6dot10.rt by tools/erase

//! 6.10 fixed-point numbers, as variable composites store scales.

use super::FixedI16;
use crate::font_fixed::formats::Format;

/// A signed 6.10 fixed-point number.
///
/// The raw value is an `i16` in units of `1 / 1024`. Sums wrap on overflow.
///
/// ```
/// use font_types_proved::F6Dot10;
/// let number = F6Dot10::from_bits(0x600);
/// assert_eq!(number.to_string(), "1.5");
/// assert_eq!("1.5".parse(), Ok(number));
/// ```
///
/// The source and its contracts: `crates/font_fixed/src/fixed_i16/f6dot10.rt`.
pub type F6Dot10 = FixedI16<10>;

impl Format<16, 10> for F6Dot10 {}

impl F6Dot10 {
    /// The smallest value, -32.
    pub const MIN: Self = Self(-0x8000);

    /// The largest value, `32 - 1 / 1024`.
    pub const MAX: Self = Self(0x7FFF);

    /// The smallest positive value, `1 / 1024`.
    pub const EPSILON: Self = Self(1);

    /// The value 0.
    pub const ZERO: Self = Self(0);

    /// The value 1.
    pub const ONE: Self = Self(0x400);

    /// The value -1.
    pub const NEG_ONE: Self = Self(-0x400);
}
