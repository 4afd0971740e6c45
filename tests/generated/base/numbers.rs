// @generated from crates/rows/src/tests/base/numbers.rt by tools/erase

//! Whether the definitions of bytes give the values of OpenType and of font-types, and what no
//! clause says: texts with flags, and of the error.

use crate::font_base::{BeByteArray, Int24, Scalar, Uint24};
use crate::std_for_tests::test::Fail;

#[test]
fn int24_bytes() {
    let rt = crate::std_for_tests::Host;
    for &(number, bytes) in &[
        (0, [0x00, 0x00, 0x00]),
        (123456, [0x01, 0xE2, 0x40]),
        (-123456, [0xFE, 0x1D, 0xC0]),
        (8388607, [0x7F, 0xFF, 0xFF]),
        (-8388608, [0x80, 0x00, 0x00]),
    ] {
        let read = Int24::from_be_bytes(bytes).to_i32();
        assert!(rt;
            Int24::new(number).to_be_bytes() == bytes && read == number,
            "{number}"
        );
    }
}

#[test]
fn uint24_bytes() {
    let rt = crate::std_for_tests::Host;
    for &(number, bytes) in
        &[(16755404, [0xFF, 0xAA, 0xCC]), (16777215, [0xFF, 0xFF, 0xFF]), (0, [0x00, 0x00, 0x00])]
    {
        let read = Uint24::from_be_bytes(bytes).to_u32();
        assert!(rt;
            Uint24::new(number).to_be_bytes() == bytes && read == number,
            "{number}"
        );
    }
}

#[test]
fn int24_range() {
    let rt = crate::std_for_tests::Host;
    let ends = [8388608, 8388607, -8388608, -8388609];
    let (least, greatest) = (Some(Int24::MIN), Some(Int24::MAX));
    assert!(rt; ends.map(Int24::checked_new) == [None, greatest, least, None]);
    assert!(rt; Int24::new(8388608) == Int24::MAX && Int24::new(-8388609) == Int24::MIN);
    assert!(rt; Int24::default().to_i32() == 0 && Int24::MIN < Int24::default());
}

#[test]
fn uint24_range() {
    let rt = crate::std_for_tests::Host;
    let ends = [16777216, 16777215, 0];
    assert!(rt; ends.map(Uint24::checked_new) == [None, Some(Uint24::MAX), Some(Uint24::MIN)]);
    assert!(rt; Uint24::new(16777216) == Uint24::MAX && Uint24::try_from(16777216usize).is_err());
}

#[test]
fn text_of_24_bit_integers() -> Result<(), Fail> {
    let rt = crate::std_for_tests::Host;
    for &(number, unsigned, text) in &[
        (0, 0, "0 Uint24(0), 0 Int24(0)"),
        (-5, 5, "5 Uint24(5), -5 Int24(-5)"),
        (65536, 65536, "65536 Uint24(65536), 65536 Int24(65536)"),
        (8388607, 16777215, "16777215 Uint24(16777215), 8388607 Int24(8388607)"),
        (-8388608, 0, "0 Uint24(0), -8388608 Int24(-8388608)"),
    ] {
        let (unsigned, signed) = (Uint24::new(unsigned), Int24::new(number));
        let shown = format!(in rt.alloc(); "{unsigned} {unsigned:?}, {signed} {signed:?}")?;
        assert!(rt; shown.as_str() == text, "{text}");
    }
    Ok(())
}

// The flags of a format go to the number inside, as in the original crate.
#[test]
fn text_with_flags() -> Result<(), Fail> {
    let rt = crate::std_for_tests::Host;
    let (number, negative) = (Uint24::new(5), Int24::new(-5));
    let text = format!(in rt.alloc(); "{number:4}|{number:<3}|{negative:04}")?;
    assert!(rt; text.as_str() == "   5|5  |-005");
    Ok(())
}

#[test]
fn conversion_error() -> Result<(), Fail> {
    let rt = crate::std_for_tests::Host;
    let fault = Uint24::try_from(16777216usize).err().ok_or("refused")?;
    let text = format!(in rt.alloc(); "{fault} {fault:?}")?;
    assert!(rt; text.as_str() == "failed to convert usize value into Uint24. TryFromUint24Error");
    Ok(())
}

const BYTES: [u8; 9] = [0xFF, 0xFE, 0xFD, 0xFC, 0xFB, 0xFA, 0xF9, 0xF8, 0xF7];

#[test]
fn scalar_read() {
    let rt = crate::std_for_tests::Host;
    assert!(rt; u8::read(&BYTES[..1]) == Some(255) && i8::read(&BYTES[..1]) == Some(-1));
    assert!(rt; u16::read(&BYTES[..2]) == Some(65534) && i16::read(&BYTES[..2]) == Some(-2));
    assert!(rt; Uint24::read(&BYTES[..3]) == Some(Uint24::new(16776957)));
    assert!(rt; Int24::read(&BYTES[..3]) == Some(Int24::new(-259)));
    assert!(rt; u32::read(&BYTES[..4]) == Some(4294901244));
    assert!(rt; i32::read(&BYTES[..4]) == Some(-66052));
    assert!(rt; i64::read(&BYTES[..8]) == Some(-283686952306184));
}

#[test]
fn read_requires_the_exact_length() {
    let rt = crate::std_for_tests::Host;
    assert!(rt; u16::read(&BYTES[..1]).is_none() && u16::read(&BYTES[..3]).is_none());
    assert!(rt; <[u8; 4]>::from_slice(&BYTES).is_none());
    assert!(rt; BeByteArray::as_slice(&(-283686952306184i64).to_raw()) == &BYTES[..8]);
}
