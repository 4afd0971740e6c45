//! Tests of `font-types` over all values of 16 and 24 bits, and a sample of those of 32, under the
//! names that they have there.

use font_types_proved::*;
use std::fmt::Display;

/// Returns the integer nearest to `n * 2^f / 10^places`, half away from zero.
fn parsed(n: i128, places: u32, f: u32) -> i128 {
    let ten = 10i128.pow(places);
    ((n.abs() << (f + 1)) + ten) / (2 * ten) * n.signum()
}

/// Asserts that the text of a raw value parses back, and that neither of the two nearest decimals
/// with one place less does.
fn assert_shortest(bits: i32, f: u32, value: impl Display) {
    let (text, bits) = (value.to_string(), i128::from(bits));
    let places = text.split_once('.').map_or(0, |(_, digits)| digits.len() as u32);
    let n = text.replace('.', "").parse().unwrap();
    assert_eq!(parsed(n, places, f), bits, "{text}");
    assert_ne!(text, "-0");
    if let Some(fewer) = places.checked_sub(1) {
        let below = (bits * 10i128.pow(fewer)).div_euclid(1 << f);
        for n in [below, below + 1] {
            assert_ne!(parsed(n, fewer, f), bits, "{text}: {n} over 10^{fewer}");
        }
    }
}

#[test]
fn shortest_all() {
    for bits in i16::MIN..=i16::MAX {
        assert_shortest(bits.into(), 14, F2Dot14::from_bits(bits));
        assert_shortest(bits.into(), 12, F4Dot12::from_bits(bits));
        assert_shortest(bits.into(), 10, F6Dot10::from_bits(bits));
    }
}

#[test]
#[cfg_attr(debug_assertions, ignore = "ten seconds without optimization")]
fn shortest_sampled() {
    let ends = (i32::MIN..=i32::MIN + 2000).chain(i32::MAX - 2000..=i32::MAX);
    let sampled = (-200_000..=200_000).chain((i32::MIN..=i32::MAX).step_by(65_521));
    for bits in ends.chain(sampled) {
        assert_shortest(bits, 16, Fixed::from_bits(bits));
        assert_shortest(bits, 6, F26Dot6::from_bits(bits));
    }
}

#[test]
#[cfg_attr(debug_assertions, ignore = "ten seconds without optimization")]
fn every_int24() {
    for n in -0x80_0000..=0x7F_FFFF {
        let (int, [_, bytes @ ..]) = (Int24::new(n), i32::to_be_bytes(n));
        assert_eq!((int.to_i32(), int.to_be_bytes()), (n, bytes));
        assert_eq!(Int24::from_be_bytes(bytes), int, "{n}");
    }
}
