// @generated from crates/rows/src/tests/fixed/conversions.rt by tools/erase

//! Whether the definitions of conversions give the values of requirements.md and font-types.

use crate::font_fixed::*;

#[test]
fn narrowed_16_16() {
    let rt = crate::std_for_tests::Host;
    for &(bits, whole, f26dot6, f2dot14) in &[
        (i32::MAX, -32768, -2097152, 0),
        (262144, 4, 256, 0),
        (0x1_0000, 1, 64, 0x4000),
        (0x1_8000, 2, 96, 0x6000),
        (-0x1_8000, -1, -96, -0x6000),
        (0x200, 0, 1, 128),
        (0x1FF, 0, 0, 128),
        (-0x200, 0, 0, -128),
        (-0x201, 0, -1, -128),
        (2, 0, 0, 1),
        (1, 0, 0, 0),
        (-2, 0, 0, 0),
        (-3, 0, 0, -1),
        (-0x8001, -1, -32, -0x2000),
    ] {
        let x = Fixed::from_bits(bits);
        assert!(rt; x.to_i32() == whole, "to_i32 of {x}");
        assert!(rt;
            x.to_f26dot6() == F26Dot6::from_bits(f26dot6),
            "to_f26dot6 of {x}"
        );
        assert!(rt;
            x.to_f2dot14() == F2Dot14::from_bits(f2dot14),
            "to_f2dot14 of {x}"
        );
    }
}

#[test]
fn narrowed_48_16() {
    let rt = crate::std_for_tests::Host;
    for &(bits, wide, narrow, fixed) in &[
        (-0x1_8000, -1, -1, -0x1_8000),
        (-0x1_8001, -2, -2, -0x1_8001),
        (0x1_8000, 2, 2, 0x1_8000),
        (0x7FFF, 0, 0, 0x7FFF),
        (2147483648, 32768, 32768, i32::MIN),
        (-2147483649, -32768, -32768, i32::MAX),
        (i64::MAX, -140737488355328, 0, -1),
        (0x8000_0000_0000, 2147483648, i32::MIN, 0),
        (0x100_0000_0000_4000, 1 << 40, 0, 0x4000),
    ] {
        let x = F48Dot16::from_bits(bits);
        assert!(rt; x.to_i64() == wide && x.to_i32() == narrow, "{x}");
        assert!(rt; x.to_fixed() == Fixed::from_bits(fixed), "to_fixed of {x}");
    }
}

#[test]
fn narrowed_26_6() {
    let rt = crate::std_for_tests::Host;
    for &(bits, whole) in
        &[(64, 1), (96, 2), (-96, -1), (95, 1), (31, 0), (-97, -2), (i32::MAX, -33554432)]
    {
        assert!(rt; F26Dot6::from_bits(bits).to_i32() == whole, "{bits}");
    }
}

#[test]
fn widened() {
    let rt = crate::std_for_tests::Host;
    let half = F2Dot14::from_bits(-0x2000);
    assert!(rt; [half.to_fixed(), Fixed::from(half)] == [Fixed::from_bits(-0x8000); 2]);
    assert!(rt; [half.to_f2dot30(), F2Dot30::from(half)] == [F2Dot30::from_bits(-0x2000_0000); 2]);
    assert!(rt; Fixed::MIN.to_f48dot16() == F48Dot16::from_bits(-0x8000_0000));
    assert!(rt; Fixed::MIN.mul_i32(i32::MIN) == F48Dot16::from_bits(1 << 62));
    assert!(rt; Fixed::from_bits(-3).mul_i32(5) == F48Dot16::from_bits(-15));
    assert!(rt; Fixed::ONE.mul_i32(-7) == F48Dot16::from_i64(-7));
    assert!(rt; Fixed::ZERO.mul_i32(i32::MAX) == F48Dot16::ZERO);
}

#[test]
fn from_others() {
    let rt = crate::std_for_tests::Host;
    assert!(rt; [Fixed::from_i32(-1), Fixed::from(-1)] == [Fixed::NEG_ONE; 2]);
    assert!(rt; Fixed::from_i32(1000).to_bits() == 1000 << 16);
    assert!(rt;
        [-3, 1000, 0x200_0000]
            .map(F26Dot6::from_i32)
            .map(F26Dot6::to_bits)
            == [-192, 1000 << 6, i32::MIN]
    );
    assert!(rt;
        [1000, 1 << 40, 1 << 47]
            .map(F48Dot16::from_i64)
            .map(F48Dot16::to_bits)
            == [1000 << 16, 1 << 56, i64::MIN]
    );
    assert!(rt; F48Dot16::from_i32(i32::MIN) == F48Dot16::from_bits(-0x8000_0000_0000));
    for &(bits, long) in &[
        (65536, 0x4000_0000),
        (131071, 0x7FFF_C000),
        (131072, i32::MIN),
        (-131073, 0x7FFF_C000),
        (1, 0x4000),
    ] {
        let x = Fixed::from_bits(bits).to_f2dot30();
        assert!(rt; x == F2Dot30::from_bits(long), "to_f2dot30 of {bits}");
    }
}
