// @generated from crates/font_c/src/delta_set.rt by tools/erase

//! Sums over delta sets of item variation stores.

use crate::font_c::status::{COUNT_MISMATCH, OK, OUT_OF_RANGE, TOO_MANY};
use crate::font_types::{DeltaSum, F48Dot16, Fixed, Scalar};

// The layout of a set is that of `delta_sets.rt` of variations too. DECISIONS says why it is there
// twice.

// A font counts the regions of a delta set in 16 bits.
const MOST_SCALARS: usize = 0xFFFF;

// The bit of a word count that is set if the deltas have 32 and 16 bits, not 16 and 8.
const LONG_WORDS: u16 = 0x8000;

/// Adds up the products of 16.16 scalars and the deltas of a delta set, in 48.16. The set has
/// `word_count` deltas of 16 bits, followed by deltas of 8 bits; or if the bit 0x8000 of
/// `word_count` is set, as many as its other bits say of 32 bits, followed by deltas of 16 bits.
#[unsafe(no_mangle)]
pub unsafe extern "C" fn fty_abi_delta_set_sum(
    scalars: *const i32,
    scalars_len: usize,
    set: *const u8,
    set_len: usize,
    word_count: u16,
    sum: &mut i64,
) -> u32 {
    let scalars = unsafe { crate::slice(scalars, scalars_len) };
    let set = unsafe { crate::slice(set, set_len) };
    if scalars.len() > MOST_SCALARS {
        return TOO_MANY;
    }
    if word_count >= LONG_WORDS {
        return store_long_sum(scalars, set, usize::from(word_count - LONG_WORDS), sum);
    }
    let words = usize::from(word_count);
    if words > scalars.len() || set.len() != scalars.len() + words {
        return COUNT_MISMATCH;
    }
    *sum = exact_sum(scalars, set, words);
    OK
}

// Stores the sum over a set of long words.
fn store_long_sum(scalars: &[i32], set: &[u8], words: usize, sum: &mut i64) -> u32 {
    if words > scalars.len() || set.len() != 2 * (scalars.len() + words) {
        return COUNT_MISMATCH;
    }
    let Some(exact) = long_sum(scalars, set, words) else {
        return OUT_OF_RANGE;
    };
    *sum = exact.to_bits();
    OK
}

// Returns the exact sum of the products with deltas of 16 and 8 bits, which fits in 64 bits.
fn exact_sum(scalars: &[i32], set: &[u8], words: usize) -> i64 {
    let (of_words, of_bytes) = scalars.split_at(words);
    let (wide, narrow) = set.split_at(2 * words);
    let mut sum = 0i64;
    for i in 0..of_words.len() {
        sum += product(of_words[i], word_at(wide, i));
    }
    for i in 0..of_bytes.len() {
        sum += product(of_bytes[i], i16::from(byte_at(narrow, i)));
    }
    sum
}

// Returns the exact sum of the products with deltas of 32 and 16 bits, or `None` if it does not fit
// in 64.
fn long_sum(scalars: &[i32], set: &[u8], words: usize) -> Option<F48Dot16> {
    let (of_long, of_words) = scalars.split_at(words);
    let (wide, narrow) = set.split_at(4 * words);
    let mut sum = DeltaSum::new();
    for i in 0..of_long.len() {
        sum.add_product(Fixed::from_bits(of_long[i]), long_at(wide, i));
    }
    for i in 0..of_words.len() {
        sum.add_product(Fixed::from_bits(of_words[i]), i32::from(word_at(narrow, i)));
    }
    sum.checked_finish()
}

// Returns the exact product of a 16.16 scalar and a delta, in 48.16.
fn product(scalar: i32, delta: i16) -> i64 {
    i64::from(scalar) * i64::from(delta)
}

// Reads the delta of 32 bits at an index.
fn long_at(set: &[u8], index: usize) -> i32 {
    i32::read_at(set, 4 * index).unwrap()
}

// Reads the delta of 16 bits at an index.
fn word_at(set: &[u8], index: usize) -> i16 {
    i16::read_at(set, 2 * index).unwrap()
}

// Reads the delta of 8 bits at an index.
fn byte_at(set: &[u8], index: usize) -> i8 {
    i8::from_raw([set[index]])
}
