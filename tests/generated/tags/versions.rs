// @generated from crates/rows/src/tests/tags/versions.rt by tools/erase

//! Whether versions and dates have the numbers of OpenType and of font-types, and what no clause
//! says: texts of `Debug`.

use crate::font_base::{FixedSize, Scalar};
use crate::font_tags::{Compatible, LongDateTime, MajorMinor, Version16Dot16};
use crate::std_for_tests::test::Fail;

#[test]
fn version16dot16_numbers() {
    let rt = crate::std_for_tests::Host;
    for &(major, minor, version) in &[
        (0, 5, Version16Dot16::VERSION_0_5),
        (1, 0, Version16Dot16::VERSION_1_0),
        (1, 1, Version16Dot16::VERSION_1_1),
        (2, 0, Version16Dot16::VERSION_2_0),
        (2, 5, Version16Dot16::VERSION_2_5),
        (3, 0, Version16Dot16::VERSION_3_0),
    ] {
        let numbers = version.to_major_minor();
        assert!(rt;
            Version16Dot16::new(major, minor) == version && numbers == (major, minor),
            "{version}"
        );
    }
    for minor in 0..10 {
        assert!(rt;
            Version16Dot16::new(1, minor).to_major_minor() == (1, minor),
            "{minor}"
        );
    }
    let [low, nine, ten] = [65535, 9, 10].map(|minor| Version16Dot16::new(1, minor));
    assert!(rt; low.to_major_minor() == (1, 9) && ten == nine && nine.compatible((1, 12)));
}

#[test]
fn version16dot16_bytes() {
    let rt = crate::std_for_tests::Host;
    let default = Version16Dot16::default();
    assert!(rt; Version16Dot16::VERSION_2_5.to_be_bytes() == [0x00, 0x02, 0x50, 0x00]);
    assert!(rt; Version16Dot16::from_raw([0, 1, 0xF0, 0]).to_major_minor() == (1, 15));
    assert!(rt; Version16Dot16::read(&[0, 1, 0, 1]) != Some(Version16Dot16::VERSION_1_0));
    assert!(rt; default.to_be_bytes() == [0; 4] && default < Version16Dot16::VERSION_0_5);
    assert!(rt; Version16Dot16::RAW_BYTE_LEN == 4);
}

#[test]
fn version_texts() -> Result<(), Fail> {
    let rt = crate::std_for_tests::Host;
    let [odd, high] = [[0, 1, 0xF0, 0xAB], [0, 1, 0xF0, 0]].map(Version16Dot16::from_raw);
    let text = format!(in rt.alloc(); "{high} {odd} {odd:?}")?;
    assert!(rt; text.as_str() == "1.15 1.15 Version16Dot16(0001f0ab)");
    let pair = MajorMinor::new(10, 65535);
    let text = format!(in rt.alloc(); "{pair} {pair:?}")?;
    assert!(rt; text.as_str() == "10.65535 MajorMinor { major: 10, minor: 65535 }");
    Ok(())
}

#[test]
fn major_minor_constants() {
    let rt = crate::std_for_tests::Host;
    for &(major, minor, version) in &[
        (1, 0, MajorMinor::VERSION_1_0),
        (1, 1, MajorMinor::VERSION_1_1),
        (1, 2, MajorMinor::VERSION_1_2),
        (1, 3, MajorMinor::VERSION_1_3),
        (2, 0, MajorMinor::VERSION_2_0),
    ] {
        assert!(rt; MajorMinor::new(major, minor) == version, "{version}");
    }
    let default = MajorMinor::default();
    assert!(rt;
        default == MajorMinor::new(0, 0) && MajorMinor::VERSION_1_3 < MajorMinor::VERSION_2_0
    );
}

#[test]
fn long_date_time() -> Result<(), Fail> {
    let rt = crate::std_for_tests::Host;
    let (date, before) = (LongDateTime::new(1234569101), LongDateTime::new(-1));
    assert!(rt; date.as_secs() == 1234569101 && before < LongDateTime::default());
    assert!(rt; date.to_be_bytes() == [0, 0, 0, 0, 0x49, 0x96, 0x07, 0x8D]);
    assert!(rt; LongDateTime::read(&[0xFF; 8]) == Some(before) && LongDateTime::RAW_BYTE_LEN == 8);
    let text = format!(in rt.alloc(); "{:?}", LongDateTime::default())?;
    assert!(rt; text.as_str() == "LongDateTime(0)");
    Ok(())
}
