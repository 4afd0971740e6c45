// @generated from crates/rows/src/tests/deltas.rt by tools/erase

//! Versions of font files, and sums of deltas and what they move, by rows of requirements.md
//! and of font-types.

use crate::font_types::laws::sum_in_parts;
use crate::font_types::{
    CFF_SFNT_VERSION, DeltaSum, F2Dot14, F48Dot16, FWord, Fixed, TRUE_SFNT_VERSION,
    TT_SFNT_VERSION, UfWord, checked_delta_sum, delta_sum, vary,
};
use crate::std_for_tests::test::Fail;

/// Two products whose sum does not fit in 64 bits, and one that brings it back.
const LEAST: (Fixed, i32) = (Fixed::MIN, i32::MIN);

const BACK: (Fixed, i32) = (Fixed::MIN, i32::MAX);

fn quarters() -> [(Fixed, i32); 3] {
    [(0x1_0000, 100), (0x8000, -250), (0x4000, 37)].map(|term| (Fixed::from_bits(term.0), term.1))
}

#[test]
fn sums_that_print() -> Result<(), Fail> {
    let rt = crate::std_for_tests::Host;
    for &(terms, bits, text) in &[
        (quarters(), -1032192, "-15.75"),
        ([LEAST; 3], -0x4000_0000_0000_0000, "-70368744177664"),
        ([LEAST, LEAST, BACK], 4611686020574871552, "70368744210432"),
    ] {
        let (mut sum, mut added) = (DeltaSum::new(), F48Dot16::ZERO);
        for &(scalar, delta) in &terms {
            sum.add_product(scalar, delta);
            added += scalar.mul_i32(delta);
        }
        let right = F48Dot16::from_bits(bits);
        assert!(rt;
            [delta_sum(&terms), sum.finish(), added] == [right; 3],
            "{text}"
        );
        assert!(rt;
            format!(in rt.alloc(); "{right}")?.as_str() == text,
            "{text}"
        );
    }
    assert!(rt; delta_sum(&[]) == F48Dot16::ZERO);
    Ok(())
}

#[test]
fn sums_in_parts() {
    let rt = crate::std_for_tests::Host;
    for &(terms, bits) in &[(quarters(), -1032192), ([LEAST, LEAST, BACK], 4611686020574871552)] {
        let [first, second, third] = terms;
        let (whole, parts) = sum_in_parts(&[first], &[second, third]);
        let right = F48Dot16::from_bits(bits);
        let in_another_order = delta_sum(&[third, first, second]);
        assert!(rt;
            [whole, parts.finish(), in_another_order] == [right; 3],
            "{bits}"
        );
    }
}

// The terms are checked together: the first two do not fit without the third.
#[test]
fn checked_sums() {
    let rt = crate::std_for_tests::Host;
    let right = F48Dot16::from_bits(4611686020574871552);
    assert!(rt; checked_delta_sum(&[LEAST; 3]).is_none());
    assert!(rt; checked_delta_sum(&[LEAST; 2]).is_none());
    assert!(rt; checked_delta_sum(&[LEAST, LEAST, BACK]) == Some(right));
    assert!(rt; vary(FWord::new(100), &quarters()) == Some(5521408));
    assert!(rt; vary(FWord::new(100), &[]) == Some(6553600));
    assert!(rt; vary(FWord::new(100), &[LEAST; 2]).is_none());
}

#[test]
fn moved_16_16_and_2_14() {
    let rt = crate::std_for_tests::Host;
    for &(delta, fixed, short) in &[
        (0, 6442450944, 268435456),
        (1, 6442450945, 268435457),
        (-1, 6442450943, 268435455),
        (100, 6442451044, 268435556),
        (-32768, 6442418176, 268402688),
        (65536, 6442516480, 268500992),
        (1 << 40, 1105954078720, 1099780063232),
        (-(1 << 40), -1093069176832, -1099243192320),
    ] {
        let x = F48Dot16::from_bits(delta);
        assert!(rt;
            Fixed::from_bits(0x1_8000).apply_delta(x) == fixed,
            "1.5 and {delta}"
        );
        assert!(rt;
            F2Dot14::from_bits(0x1000).apply_delta(x) == short,
            "0.25 and {delta}"
        );
    }
    let (one, half) = (F48Dot16::from_i64(1), F48Dot16::from_bits(-32768));
    assert!(rt; Fixed::ZERO.apply_delta(one) == 65536);
    assert!(rt; F2Dot14::ZERO.apply_delta(one) == 65536);
    assert!(rt; F2Dot14::from_bits(0x2000).apply_delta(half) == 536838144);
}

#[test]
fn moved_font_units() {
    let rt = crate::std_for_tests::Host;
    for &(base, delta, moved) in &[(100, 163840, 6717440), (-100, -16384, -6569984)] {
        let found = FWord::new(base).apply_delta(F48Dot16::from_bits(delta));
        assert!(rt; found == moved, "{base}");
    }
    for &(base, delta, moved) in &[(1000, -98304, 65437696), (0, 0, 0)] {
        let found = UfWord::new(base).apply_delta(F48Dot16::from_bits(delta));
        assert!(rt; found == moved, "{base}, unsigned");
    }
}

#[test]
fn versions_of_font_files() {
    let rt = crate::std_for_tests::Host;
    let versions = [TT_SFNT_VERSION, TRUE_SFNT_VERSION, CFF_SFNT_VERSION];
    assert!(rt; versions == [0x0001_0000, 0x7472_7565, 0x4F54_544F]);
}
