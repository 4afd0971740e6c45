// @generated from crates/rows/src/tests/tags/tag.rt by tools/erase

//! Whether the definitions of tags give the results of font-types, and what no clause says: texts
//! with flags, and of errors.

use crate::font_base::Scalar;
use crate::font_tags::{InvalidTag, TTC_HEADER_TAG, Tag};
use crate::std_for_tests::alloc::{AllocError, Global};
use crate::std_for_tests::str::FromStr;
use crate::std_for_tests::test::Fail;

#[test]
fn valid_texts() {
    let rt = crate::std_for_tests::Host;
    let texts = ["a", "bc", "cv1", "head", "!", "~ "];
    let tags = [b"a   ", b"bc  ", b"cv1 ", b"head", b"!   ", b"~   "].map(|tag| Ok(Tag::new(tag)));
    assert!(rt; texts.map(|text| Tag::new_checked(text.as_bytes())) == tags);
    assert!(rt; texts.map(Tag::from_str) == tags);
    assert!(rt; Tag::new(b"head").to_raw() == *b"head" && TTC_HEADER_TAG == Tag::new(b"ttcf"));
}

#[test]
fn invalid_bytes() {
    let rt = crate::std_for_tests::Host;
    for &(text, pos, byte) in &[
        ("b c", 2, 0x63),
        ("    ", 0, 0x20),
        (" bc", 0, 0x20),
        ("\u{19}", 0, 0x19),
        ("ab\u{7f}", 2, 0x7F),
        ("é", 0, 0xC3),
    ] {
        let fault = Err(InvalidTag::InvalidByte { pos, byte });
        assert!(rt;
            Tag::from_str(text) == fault && Tag::new_checked(text.as_bytes()) == fault,
            "'{text}'"
        );
    }
}

#[test]
fn invalid_lengths() {
    let rt = crate::std_for_tests::Host;
    for &(text, len) in &[("", 0), ("abcde", 5), ("a\0cde", 5), ("abc\u{e9}", 5)] {
        let fault = Err(InvalidTag::InvalidLength(len));
        assert!(rt;
            Tag::from_str(text) == fault && Tag::new_checked(text.as_bytes()) == fault,
            "'{text}'"
        );
    }
}

#[test]
fn validate_valid_tags() {
    let rt = crate::std_for_tests::Host;
    for tag in &[b"head", b"a   ", b"ab  ", b"abc ", b"!333", b"~333"] {
        assert!(rt; Tag::new(tag).validate().is_ok(), "{}", Tag::new(tag));
    }
}

#[test]
fn validate_invalid_tags() {
    let rt = crate::std_for_tests::Host;
    for &(tag, ref fault) in &[
        (b"    ", InvalidTag::InvalidLength(0)),
        (b"b cc", InvalidTag::ByteAfterSpace { pos: 2 }),
        (b" bcc", InvalidTag::InvalidByte { pos: 0, byte: 0x20 }),
        (b"\x19333", InvalidTag::InvalidByte { pos: 0, byte: 0x19 }),
        (b"\x7FABC", InvalidTag::InvalidByte { pos: 0, byte: 0x7F }),
        (b"a \x80b", InvalidTag::InvalidByte { pos: 2, byte: 0x80 }),
    ] {
        assert!(rt;
            Tag::new(tag).validate().as_ref() == Err(fault),
            "{}",
            Tag::new(tag)
        );
    }
}

/// Returns whether a tag has this text with any flags, which it ignores.
fn is_printed(alloc: Global, tag: Tag, text: &str) -> Result<bool, AllocError> {
    let forms = format!(in alloc; "{tag}|{tag:8}|{tag:>10}|{tag:.0}|{tag:?}")?;
    let texts = format!(in alloc; "{text}|{text}|{text}|{text}|Tag({text})")?;
    Ok(forms == texts)
}

#[test]
fn tag_texts() -> Result<(), Fail> {
    let rt = crate::std_for_tests::Host;
    for &(tag, text) in &[
        (0x197A_407F, "{0x19}z@{0x7F}"),
        (0x6376_7420, "cvt "),
        (0x6376_3120, "cv1 "),
        (0x00AB_FF7E, "{0x00}{0xAB}{0xFF}~"),
        (0x0000_0001, "{0x00}{0x00}{0x00}{0x01}"),
    ] {
        assert!(rt; is_printed(rt.alloc(), Tag::from_u32(tag), text)?, "{text}");
    }
    Ok(())
}

#[test]
fn error_texts() -> Result<(), Fail> {
    let rt = crate::std_for_tests::Host;
    for &(ref fault, text) in &[
        (InvalidTag::InvalidLength(5), "Invalid length (5) InvalidLength(5)"),
        (
            InvalidTag::InvalidByte { pos: 2, byte: 0x0A },
            "Invalid byte 0xA at index 2 InvalidByte { pos: 2, byte: 10 }",
        ),
        (
            InvalidTag::ByteAfterSpace { pos: 3 },
            "Non-space character after first space ByteAfterSpace { pos: 3 }",
        ),
    ] {
        assert!(rt;
            format!(in rt.alloc(); "{fault} {fault:?}")?.as_str() == text,
            "{text}"
        );
        assert!(rt; &fault.clone() == fault, "copy: {text}");
    }
    Ok(())
}
