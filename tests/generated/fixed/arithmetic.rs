// @generated from crates/rows/src/tests/fixed/arithmetic.rt by tools/erase

//! Whether the definitions of sums, products, quotients, rounding and bytes give the values of
//! requirements.md and of font-types.

use crate::font_base::{BigEndian, Scalar};
use crate::font_fixed::laws::{f26dot6, fixed};
use crate::font_fixed::*;

/// Checks a format's constants and default, by its raw type and the raw value of 1.
macro_rules! check_constants {
    ($rt:ident, $Number:ident, $Raw:ident, $one:literal) => {
        let limits = [$Number::MIN, $Number::MAX, $Number::EPSILON].map($Number::to_bits);
        assert!($rt; limits == [$Raw::MIN, $Raw::MAX, 1], "limits of {}", $Number::ONE);
        let zeros = [$Number::ZERO, $Number::default()].map($Number::to_bits);
        let ones = [$Number::ONE, $Number::NEG_ONE].map($Number::to_bits);
        assert!($rt; zeros == [0, 0] && ones == [$one, -$one], "ones of {}", $Number::MAX);
    };
}

#[test]
fn constants() {
    let rt = crate::std_for_tests::Host;
    check_constants!(rt, F2Dot14, i16, 0x4000);
    check_constants!(rt, F4Dot12, i16, 0x1000);
    check_constants!(rt, F6Dot10, i16, 0x400);
    check_constants!(rt, Fixed, i32, 0x1_0000);
    check_constants!(rt, F26Dot6, i32, 64);
    check_constants!(rt, F2Dot30, i32, 0x4000_0000);
    check_constants!(rt, F48Dot16, i64, 0x1_0000);
}

#[test]
fn sums_at_the_limits() {
    let rt = crate::std_for_tests::Host;
    let (max, step) = (Fixed::MAX, Fixed::EPSILON);
    assert!(rt; [max.saturating_add(step), max + step] == [max, Fixed::MIN]);
    assert!(rt; max.checked_add(step).is_none() && max.wrapping_add(step) == Fixed::MIN);
    assert!(rt; Fixed::MIN.saturating_sub(step) == Fixed::MIN && Fixed::MIN - step == max);
    assert!(rt; [Fixed::MIN.abs(), -Fixed::MIN] == [Fixed::MIN; 2]);
    let half = Fixed::from_bits(0x8000);
    assert!(rt; half.checked_add(half) == Some(Fixed::ONE) && half.max(step) == half);
}

#[test]
fn products_of_16_16() {
    let rt = crate::std_for_tests::Host;
    for &(x, y, product) in &[
        (-1, 0x8000, -1),
        (1, 0x8000, 1),
        (0x8000, 0x8000, 0x4000),
        (1, 0x4000, 0),
        (i32::MIN, -0x1_0000, i32::MIN),
        (i32::MIN, i32::MIN, 0),
    ] {
        let products = fixed::product_laws(Fixed::from_bits(x), Fixed::from_bits(y));
        assert!(rt;
            products.map(Fixed::to_bits) == [product, product, x, product],
            "{x} * {y}"
        );
    }
}

#[test]
fn products_of_16_16_do_not_associate() {
    let rt = crate::std_for_tests::Host;
    let (step, half) = (Fixed::EPSILON, Fixed::from_bits(0x8000));
    assert!(rt; step * half * half == step && step * (half * half) == Fixed::ZERO);
}

#[test]
fn quotients_of_16_16() {
    let rt = crate::std_for_tests::Host;
    for &(x, y, quotient) in &[
        (i32::MIN, -1, 0),
        (0, 0, i32::MAX),
        (-0x1_0000, 0, -i32::MAX),
        (i32::MIN, i32::MIN, 0x1_0000),
        (i32::MIN, -0x1_0000, i32::MIN),
        (-6062080, 185, i32::MIN),
    ] {
        let [over, same, itself, _] =
            fixed::quotient_laws(Fixed::from_bits(x), Fixed::from_bits(y));
        assert!(rt;
            [over, same, itself].map(Fixed::to_bits) == [quotient, quotient, x],
            "{x} / {y}"
        );
    }
}

#[test]
fn products_over_quotients_of_16_16() {
    let rt = crate::std_for_tests::Host;
    let by_zero = Fixed::ZERO.mul_div(Fixed::NEG_ONE, Fixed::ZERO);
    let of_max = Fixed::MAX.mul_div(Fixed::MAX, Fixed::EPSILON);
    let of_min = Fixed::MIN.mul_div(Fixed::MIN, Fixed::from_bits(-1));
    assert!(rt; [by_zero, of_max, of_min].map(Fixed::to_bits) == [-i32::MAX, 1, 0]);
}

#[test]
fn products_and_quotients_of_26_6() {
    let rt = crate::std_for_tests::Host;
    for &(x, y, product, quotient) in &[
        (32, -154, -77, -13),
        (1, 32, 1, 2),
        (-1, 32, -1, -2),
        (64, 0, 0, i32::MAX),
        (-64, 0, 0, -i32::MAX),
        (0, 0, 0, i32::MAX),
        (i32::MIN, -64, i32::MIN, i32::MIN),
        (i32::MIN, -1, 0x200_0000, 0),
    ] {
        let [x, y] = [x, y].map(F26Dot6::from_bits);
        let [times, swapped, _] = f26dot6::product_laws(x, y);
        let [over, by_one, _] = f26dot6::quotient_laws(x, y);
        let (mut assigned, mut divided) = (x, x);
        assigned *= y;
        divided /= y;
        assert!(rt;
            [times, swapped, assigned].map(F26Dot6::to_bits) == [product; 3],
            "{x} * {y}"
        );
        assert!(rt;
            [over, divided].map(F26Dot6::to_bits) == [quotient; 2] && by_one == x,
            "{x} / {y}"
        );
    }
}

#[test]
fn rounding_of_16_bits() {
    let rt = crate::std_for_tests::Host;
    for &(bits, round, floor, fract) in &[
        (0x7000, -0x8000, 0x4000, 0x3000),
        (0x1F00, 0, 0, 0x1F00),
        (0x1FFF, 0, 0, 0x1FFF),
        (0x2000, 0x4000, 0, 0x2000),
        (-0x2000, 0, -0x4000, 0x2000),
        (-0x2001, -0x4000, -0x4000, 0x1FFF),
        (-0x6000, -0x4000, -0x8000, 0x2000),
    ] {
        let x = F2Dot14::from_bits(bits);
        let parts = [x.round(), x.floor(), x.fract()].map(F2Dot14::to_bits);
        assert!(rt; parts == [round, floor, fract], "{x}");
    }
    let ties = [F4Dot12::from_bits(-0x1800).round(), F4Dot12::from_bits(0x1800).round()];
    assert!(rt; ties.map(F4Dot12::to_bits) == [-0x1000, 0x2000], "4.12");
    let ties = [F6Dot10::from_bits(-0x600).round(), F6Dot10::from_bits(0x600).round()];
    assert!(rt; ties.map(F6Dot10::to_bits) == [-0x400, 0x800], "6.10");
}

#[test]
fn rounding_of_32_bits() {
    let rt = crate::std_for_tests::Host;
    for &(bits, round, floor, fract) in &[
        (0x1_7FFE, 0x1_0000, 0x1_0000, 0x7FFE),
        (0x1_7FFF, 0x1_0000, 0x1_0000, 0x7FFF),
        (0x1_8000, 0x2_0000, 0x1_0000, 0x8000),
        (i32::MAX, i32::MIN, 0x7FFF_0000, 0xFFFF),
        (-0x1_8000, -0x1_0000, -0x2_0000, 0x8000),
        (-0x1_8001, -0x2_0000, -0x2_0000, 0x7FFF),
    ] {
        let x = Fixed::from_bits(bits);
        let parts = [x.round(), x.floor(), x.fract()].map(Fixed::to_bits);
        assert!(rt; parts == [round, floor, fract], "{x}");
    }
    let parts = [F26Dot6::from_bits(-96).round(), F26Dot6::from_bits(-97).floor()];
    assert!(rt; parts.map(F26Dot6::to_bits) == [-64, -128], "26.6");
    let parts = [F2Dot30::from_bits(0x6000_0000).round(), F2Dot30::from_bits(-1).fract()];
    assert!(rt;
        parts.map(F2Dot30::to_bits) == [i32::MIN, 0x3FFF_FFFF],
        "2.30"
    );
}

#[test]
fn rounding_of_64_bits() {
    let rt = crate::std_for_tests::Host;
    for &(bits, round, floor, fract) in &[
        (0x1_7FFF, 0x1_0000, 0x1_0000, 0x7FFF),
        (0x1_8000, 0x2_0000, 0x1_0000, 0x8000),
        (-0x1_8000, -0x1_0000, -0x2_0000, 0x8000),
        (-0x1_8001, -0x2_0000, -0x2_0000, 0x7FFF),
        (i64::MAX, i64::MIN, 0x7FFF_FFFF_FFFF_0000, 0xFFFF),
    ] {
        let x = F48Dot16::from_bits(bits);
        let parts = [x.round(), x.floor(), x.fract()].map(F48Dot16::to_bits);
        assert!(rt; parts == [round, floor, fract], "{x}");
    }
}

#[test]
fn bytes() {
    let rt = crate::std_for_tests::Host;
    let (number, narrow) = (Fixed::from_bits(-0x1_8000), F2Dot14::from_bits(-10139));
    assert!(rt; number.to_be_bytes() == [0xFF, 0xFE, 0x80, 0x00]);
    assert!(rt; Fixed::read(&number.to_raw()) == Some(number));
    assert!(rt; F2Dot14::read(&[0xD8, 0x65]) == Some(narrow) && narrow.to_be_bytes()[0] == 0xD8);
    assert!(rt; F4Dot12::read(&[0x10, 0x00]) == Some(F4Dot12::ONE));
    assert!(rt; F6Dot10::read(&[0x04, 0x00]) == Some(F6Dot10::ONE));
    assert!(rt; F2Dot30::read(&[0xC0, 0x00, 0x00, 0x00]) == Some(F2Dot30::NEG_ONE));
    assert!(rt; F26Dot6::from_bits(-97).to_be_bytes() == [0xFF, 0xFF, 0xFF, 0x9F]);
    assert!(rt;
        F48Dot16::from_bits(-2).to_be_bytes() == [0xFF, 0xFF, 0xFF, 0xFF, 0xFF, 0xFF, 0xFF, 0xFE]
    );
    assert!(rt; BigEndian::from(Fixed::NEG_ONE) < BigEndian::from(Fixed::ZERO));
    assert!(rt; BigEndian::from(F2Dot30::NEG_ONE) < BigEndian::from(F2Dot30::ZERO));
}

#[test]
fn order_and_bounds() {
    let rt = crate::std_for_tests::Host;
    for &(x, y, a, c, right) in &[
        (3, 5, 1, 2, [2, 3]),
        (-5, -3, 1, 2, [-3, -2]),
        // 1000 and 1001 units at a size of 12 and 2048 units per em.
        (65536000, 65601536, 786432, 134217728, [384000, 384384]),
    ] {
        let (first, second) = fixed::scaled_in_order(
            Fixed::from_bits(x),
            Fixed::from_bits(y),
            Fixed::from_bits(a),
            Fixed::from_bits(c),
        );
        assert!(rt; [first, second].map(Fixed::to_bits) == right, "{x}, {y}");
    }
    // Each rounds away from zero, and their distance is one unit more than the scaled distance.
    let [x, y, c] = [1, -1, 2].map(Fixed::from_bits);
    assert!(rt; fixed::scaled_distance(x, y, x, c) == (x, y, x));
    let ties = [-0x8001, -0x8000, 0x7FFF, 0x8000].map(Fixed::from_bits);
    assert!(rt; ties.map(Fixed::to_i32) == [-1, 0, 0, 1]);
    assert!(rt; ties.map(Fixed::round) == [-1, 0, 0, 1].map(Fixed::from_i32));
    for &end in &[i16::MIN, -1, i16::MAX] {
        assert!(rt; F2Dot14::from_bits(end).to_fixed().to_f2dot14() == F2Dot14::from_bits(end));
        assert!(rt; Fixed::from_i32(i32::from(end)).to_i32() == i32::from(end));
    }
    let (two, tie) = (Fixed::from_i32(2), Fixed::from_bits(0x8000));
    assert!(rt; two / Fixed::from_i32(3) == Fixed::from_bits(43691));
    assert!(rt; two / Fixed::from_i32(-3) == Fixed::from_bits(-43691));
    assert!(rt; Fixed::from_bits(3) * tie == Fixed::from_bits(2));
    assert!(rt; Fixed::from_bits(-3) * tie == Fixed::from_bits(-2));
}
