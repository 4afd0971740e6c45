// @generated from crates/font_lines/src/output.rt by tools/erase

//! Appends answers to the output.

use crate::host::*;

use crate::font_lines::error::{CommandError, LineError};
use crate::host::alloc::Allocator;
use font_types_proved::{DecimalFault, Scalar, Shortest};

/// Appends bytes.
#[inline(always)]
pub fn append<A: Allocator>(bytes: &[u8], output: &mut Vec<u8, A>) -> Result<(), CommandError> {
    output.extend_from_slice(bytes)?;
    Ok(())
}

/// Appends a decimal.
pub fn append_decimal<A: Allocator>(
    decimal: Shortest,
    output: &mut Vec<u8, A>,
) -> Result<(), CommandError> {
    append(decimal.as_str().as_bytes(), output)
}

/// Appends the bytes of a number that was read, or returns why it was not.
pub fn append_read<T: Scalar<Raw = [u8; N]>, const N: usize, A: Allocator>(
    number: Result<T, DecimalFault>,
    output: &mut Vec<u8, A>,
) -> Result<(), CommandError> {
    let number = number.map_err(LineError::from)?;
    append_bytes(number.to_raw().as_slice(), output)
}

// Appends at most eight bytes in lower-case hexadecimal digits.
fn append_bytes<A: Allocator>(bytes: &[u8], output: &mut Vec<u8, A>) -> Result<(), CommandError> {
    let mut room = [0; 16];
    let digits = &mut room[..2 * bytes.len()];
    hex::encode_to_slice(bytes, digits).unwrap();
    append(digits, output)
}
