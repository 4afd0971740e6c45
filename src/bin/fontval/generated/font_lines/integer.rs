// @generated from crates/font_lines/src/integer.rt by tools/erase

//! Appends integers to the output.

use crate::host::*;

use crate::font_lines::error::CommandError;
use crate::font_lines::output::{append, append_decimal};
use crate::host::alloc::Allocator;
use font_types_proved::Shortest;

/// Appends an integer: a number without fraction bits.
pub fn append_integer<A: Allocator>(
    number: i64,
    output: &mut Vec<u8, A>,
) -> Result<(), CommandError> {
    append_decimal(Shortest::new(number, 0), output)
}

/// Appends an integer of this magnitude, with a `-` if it is negative.
pub fn append_signed<A: Allocator>(
    negative: bool,
    magnitude: u64,
    output: &mut Vec<u8, A>,
) -> Result<(), CommandError> {
    if negative {
        append(b"-", output)?;
    }
    if magnitude >= 10 {
        append_integer((magnitude / 10) as i64, output)?;
    }
    append(&[b'0' + (magnitude % 10) as u8], output)
}
