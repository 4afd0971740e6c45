// @generated from crates/font_c/src/tag.rt by tools/erase

//! Tags, as 32-bit numbers with their big-endian bytes.

use crate::font_c::format::put_text;
use crate::font_c::status::{OK, TAG_AFTER_SPACE, TAG_BYTE, TAG_LENGTH};
use crate::font_c::tag_text::TagText;
use crate::font_types::{InvalidTag, Scalar, Tag};

/// Parses a valid tag of one to four bytes, padding with spaces.
#[unsafe(no_mangle)]
pub unsafe extern "C" fn fty_tag_parse(text: *const u8, text_len: usize, tag: &mut u32) -> u32 {
    let text = unsafe { crate::slice(text, text_len) };
    match Tag::new_checked(text) {
        Ok(good) => {
            *tag = u32::from_raw(good.to_be_bytes());
            OK
        }
        Err(InvalidTag::InvalidLength(_)) => TAG_LENGTH,
        Err(_) => TAG_BYTE,
    }
}

/// Checks a tag. If a byte is not allowed where it is, stores the index of the first in `index`.
#[unsafe(no_mangle)]
pub unsafe extern "C" fn fty_tag_validate(tag: u32, index: &mut usize) -> u32 {
    match Tag::from_be_bytes(tag.to_raw()).validate() {
        Ok(()) => OK,
        Err(InvalidTag::InvalidLength(_)) => TAG_LENGTH,
        Err(InvalidTag::InvalidByte { pos, .. }) => {
            *index = pos;
            TAG_BYTE
        }
        Err(InvalidTag::ByteAfterSpace { pos }) => {
            *index = pos;
            TAG_AFTER_SPACE
        }
    }
}

/// Writes the text of a tag to the start of `out`, and its length to `written`. Bytes from 0x20 to
/// 0x7E are written as they are, others as `{0xNN}`.
#[unsafe(no_mangle)]
pub unsafe extern "C" fn fty_abi_tag_format(
    tag: u32,
    out: *mut u8,
    out_len: usize,
    written: &mut usize,
) -> u32 {
    let out = unsafe { crate::slice_mut(out, out_len) };
    let text = TagText::new(Tag::from_be_bytes(tag.to_raw()));
    put_text(text.as_bytes(), out, written)
}
