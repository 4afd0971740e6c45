// @generated from crates/font_c/src/format.rt by tools/erase

//! Decimals written to buffers of C.

use crate::font_c::fraction::{FontFraction, is_fraction};
use crate::font_c::status::{BAD_FRACTION, BAD_PAD, BUFFER_TOO_SMALL, OK};
use crate::font_types::{Align, Pad, Shortest};

/// How to pad a decimal.
#[repr(C)]
#[derive(Clone, Copy)]
pub struct FontPad {
    /// The minimum width in bytes; 0 means none.
    pub width: usize,
    /// The fill byte, below 0x80; 0 means a space.
    pub fill: u8,
    /// The alignment: 0 left, 1 center, 2 right.
    pub align: u8,
    /// Writes a `+` unless the text starts with `-`, if not 0.
    pub plus: u8,
    /// Pads with zeros after the sign, if not 0.
    pub zeros: u8,
}

/// The error of an invalid `FontPad`.
#[derive(Clone, Copy)]
pub struct InvalidPad;

impl TryFrom<FontPad> for Pad {
    type Error = InvalidPad;

    fn try_from(given: FontPad) -> Result<Self, InvalidPad> {
        if given.fill >= 0x80 {
            return Err(InvalidPad);
        }
        let align = match given.align {
            0 => Align::Left,
            1 => Align::Center,
            2 => Align::Right,
            _ => return Err(InvalidPad),
        };
        Ok(Self {
            width: given.width,
            fill: if given.fill == 0 { b' ' } else { given.fill },
            align,
            plus: given.plus != 0,
            zeros: given.zeros != 0,
        })
    }
}

/// Writes the shortest decimal that parses back to the raw value to the start of `out`, and its
/// length to `written`.
#[unsafe(no_mangle)]
pub unsafe extern "C" fn fty_abi_format(
    bits: i64,
    fraction: FontFraction,
    out: *mut u8,
    out_len: usize,
    written: &mut usize,
) -> u32 {
    let out = unsafe { crate::slice_mut(out, out_len) };
    if !is_fraction(64, fraction.bits) {
        return BAD_FRACTION;
    }
    put_text(Shortest::new(bits, fraction.bits).as_str().as_bytes(), out, written)
}

/// Writes that decimal padded to the start of `out`, and its length to `written`.
#[unsafe(no_mangle)]
pub unsafe extern "C" fn fty_abi_format_padded(
    bits: i64,
    fraction: FontFraction,
    pad: &FontPad,
    out: *mut u8,
    out_len: usize,
    written: &mut usize,
) -> u32 {
    let out = unsafe { crate::slice_mut(out, out_len) };
    if !is_fraction(64, fraction.bits) {
        return BAD_FRACTION;
    }
    match Pad::try_from(*pad) {
        Ok(pad) => put_padded(Shortest::new(bits, fraction.bits).as_str(), &pad, out, written),
        Err(_) => BAD_PAD,
    }
}

/// Writes text to the start of `out`, and its length to `written`.
pub fn put_text(text: &[u8], out: &mut [u8], written: &mut usize) -> u32 {
    if out.len() < text.len() {
        return BUFFER_TOO_SMALL;
    }
    out[..text.len()].copy_from_slice(text);
    *written = text.len();
    OK
}

// Writes a padded decimal to the start of a buffer, and its length.
fn put_padded(text: &str, pad: &Pad, out: &mut [u8], written: &mut usize) -> u32 {
    match crate::font_types::write_padded(text, out, pad) {
        Some(len) => {
            *written = len;
            OK
        }
        None => BUFFER_TOO_SMALL,
    }
}
