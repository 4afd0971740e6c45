// @generated from crates/font_c/src/fraction.rt by tools/erase

//! Numbers of fraction bits.

/// A number of fraction bits: of a type of its own, which C takes for no other number.
#[repr(C)]
#[derive(Clone, Copy)]
pub struct FontFraction {
    /// The number.
    pub bits: u32,
}

/// Returns `true` if values of `width` bits may have `fraction_bits`.
pub fn is_fraction(width: u32, fraction_bits: u32) -> bool {
    6 <= fraction_bits && fraction_bits <= 30 && fraction_bits + 2 <= width
}
