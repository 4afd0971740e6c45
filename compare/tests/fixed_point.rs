//! Each fixed-point type: text, padding, rounding, sums and bytes. `F2Dot30`, which `font-types`
//! lacks, has its text and rounding compared with exact integers.

use compare::exact::{self, up, wrap};
use compare::{Random, assert_same, edges, sampled};
use font_types_proved::{Align, F2Dot30, Pad};
use std::fmt::{Debug, Display};

macro_rules! each_type {
    ($($name:ident $Type:ident $bits:ident $f:literal;)*) => {$(
        mod $name {
            use super::*;

            pub fn text_and_rounding(bits: $bits) {
                let x = font_types_proved::$Type::from_bits(bits);
                let text = x.to_string();
                assert_eq!(text, font_types::$Type::from_bits(bits).to_string(), "{bits}");
                assert_eq!(font_types_proved::$Type::from_decimal(&text), Ok(x), "{bits}");
                assert_same!(bits, |k| {
                    let x = k::$Type::from_bits(bits);
                    [x.round(), x.floor(), x.fract(), x.abs(), -x].map(k::$Type::to_bits)
                });
                assert_same!(bits, |k| k::$Type::from_bits(bits).to_be_bytes());
            }

            pub fn shortest_text_and_padding(bits: $bits) {
                let ours = font_types_proved::$Type::from_bits(bits);
                assert_eq!(ours.to_string(), exact::shortest(bits.into(), $f), "{bits}");
                let theirs = font_types::$Type::from_bits(bits);
                assert_eq!(formatted(ours), formatted(theirs), "{bits}");
                let texts = [
                    format!("{theirs:>12}"),
                    format!("{theirs:*<9}"),
                    format!("{theirs:_^13}"),
                    format!("{theirs:+012}"),
                ];
                for (pad, text) in pads().iter().zip(texts) {
                    let mut out = [b'~'; 32];
                    let length = ours.write_padded(&mut out[..text.len() - 1], pad);
                    assert_eq!((length, out), (None, [b'~'; 32]), "{bits} {pad:?}");
                    let length = ours.write_padded(&mut out[..text.len()], pad);
                    assert_eq!(length, Some(text.len()), "{bits} {pad:?}");
                    assert_eq!(str::from_utf8(&out[..text.len()]), Ok(&*text), "{bits} {pad:?}");
                }
            }

            fn sums_of(a: $bits, b: $bits) {
                assert_same!((a, b), |k| {
                    let [x, y] = [a, b].map(k::$Type::from_bits);
                    let (mut sum, mut difference) = (x, x);
                    sum += y;
                    difference -= y;
                    let assigned = [sum, difference].map(k::$Type::to_bits);
                    let wrapping = [x + y, x - y, x.wrapping_add(y), x.wrapping_sub(y)];
                    let saturating = [x.saturating_add(y), x.saturating_sub(y)];
                    let checked = x.checked_add(y).map(k::$Type::to_bits);
                    let saturating = saturating.map(k::$Type::to_bits);
                    (wrapping.map(k::$Type::to_bits), assigned, saturating, checked)
                });
            }

            #[test]
            fn sums() {
                let edges = edges($bits::BITS);
                for a in &edges {
                    edges.iter().for_each(|b| sums_of(*a as $bits, *b as $bits));
                }
                let mut random = Random::new(1);
                for _ in 0..300_000 {
                    let [a, b] = [0; 2].map(|_| random.signed($bits::BITS) as $bits);
                    sums_of(a, b);
                }
            }
        }
    )*};
}

each_type! {
    f2dot14 F2Dot14 i16 14;
    f4dot12 F4Dot12 i16 12;
    f6dot10 F6Dot10 i16 10;
    fixed Fixed i32 16;
    f26dot6 F26Dot6 i32 6;
    f48dot16 F48Dot16 i64 16;
}

/// Returns the text of a number under the flags that both packages obey.
fn formatted(x: impl Debug + Display) -> String {
    let sides = format!("{x:>12}|{x:<12}|{x:^12}|{x:12}|{x:1}|{x:*^12}|{x:\u{E9}<12}|{x:+}|{x:-}");
    let zeros = format!("{x:012}|{x:+012}|{x:<012}|{x:*^+012}|{x:#}|{x:#012}|{x:+12}");
    format!("{sides}|{zeros}|{x:12?}|{x:+?}|{x:#?}|{:^+12?}", Some(&x))
}

fn pads() -> [Pad; 4] {
    let pad = |width, fill, align| Pad { fill, align, ..Pad::new(width) };
    [
        Pad::new(12),
        pad(9, b'*', Align::Left),
        pad(13, b'_', Align::Center),
        Pad { plus: true, zeros: true, ..Pad::new(12) },
    ]
}

#[test]
fn sixteen_bits() {
    for bits in i16::MIN..=i16::MAX {
        f2dot14::text_and_rounding(bits);
        f4dot12::text_and_rounding(bits);
        f6dot10::text_and_rounding(bits);
        f2dot14::shortest_text_and_padding(bits);
        f4dot12::shortest_text_and_padding(bits);
        f6dot10::shortest_text_and_padding(bits);
    }
}

#[test]
fn thirty_two_bits() {
    let edges = edges(32).into_iter().map(|bits| bits as i32);
    for bits in sampled().map(|bits| bits as i32).chain(edges) {
        fixed::text_and_rounding(bits);
        f26dot6::text_and_rounding(bits);
        if bits % 8 == 0 {
            fixed::shortest_text_and_padding(bits);
            f26dot6::shortest_text_and_padding(bits);
        }
    }
}

#[test]
fn sixty_four_bits() {
    let mut random = Random::new(2);
    let random = (0..500_000).map(|_| random.signed(64));
    for (index, bits) in edges(64).into_iter().chain(random).enumerate() {
        f48dot16::text_and_rounding(bits);
        if index % 8 == 0 {
            f48dot16::shortest_text_and_padding(bits);
        }
    }
}

#[test]
fn f2dot30() {
    let edges = edges(32).into_iter().map(|bits| bits as i32);
    for bits in sampled().step_by(4).map(|bits| bits as i32).chain(edges) {
        let (x, n, one) = (F2Dot30::from_bits(bits), i128::from(bits), 1 << 30);
        let text = x.to_string();
        assert_eq!(text, exact::shortest(n, 30), "{bits}");
        assert_eq!(F2Dot30::from_decimal(&text), Ok(x), "{bits}");
        let right = [up(n, one) * one, n.div_euclid(one) * one, n.rem_euclid(one)];
        let found = [x.round(), x.floor(), x.fract()].map(|y| i128::from(y.to_bits()));
        assert_eq!(found, right.map(|n| wrap(32, n)), "{bits}");
    }
}
