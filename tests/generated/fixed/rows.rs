// @generated from crates/rows/src/tests/fixed/rows.rt by tools/erase

//! Decimals of the seven formats, by rows of requirements.md and of font-types.

use crate::font_decimal::DecimalFault;
use crate::font_fixed::*;
use crate::std_for_tests::alloc::{AllocError, Global};
use crate::std_for_tests::fmt::Display;
use crate::std_for_tests::test::Fail;

/// Returns whether a number prints as `text`.
fn prints(alloc: Global, number: impl Copy + Display, text: &str) -> Result<bool, AllocError> {
    Ok(format!(in alloc; "{number}")?.as_str() == text)
}

/// Returns whether the value of a format with this raw value prints as `text`.
fn has_text(alloc: Global, format: &str, bits: i64, text: &str) -> Result<bool, AllocError> {
    match (format, i16::try_from(bits), i32::try_from(bits)) {
        ("F2Dot14", Ok(bits), _) => prints(alloc, F2Dot14::from_bits(bits), text),
        ("F4Dot12", Ok(bits), _) => prints(alloc, F4Dot12::from_bits(bits), text),
        ("F6Dot10", Ok(bits), _) => prints(alloc, F6Dot10::from_bits(bits), text),
        ("Fixed", _, Ok(bits)) => prints(alloc, Fixed::from_bits(bits), text),
        ("F26Dot6", _, Ok(bits)) => prints(alloc, F26Dot6::from_bits(bits), text),
        ("F2Dot30", _, Ok(bits)) => prints(alloc, F2Dot30::from_bits(bits), text),
        ("F48Dot16", _, _) => prints(alloc, F48Dot16::from_bits(bits), text),
        _ => Ok(false),
    }
}

/// Returns the raw value that `text` is parsed as in a format.
fn parsed(format: &str, text: &str) -> Result<i64, DecimalFault> {
    Ok(match format {
        "F2Dot14" => i64::from(F2Dot14::from_decimal(text)?.to_bits()),
        "F4Dot12" => i64::from(F4Dot12::from_decimal(text)?.to_bits()),
        "F6Dot10" => i64::from(F6Dot10::from_decimal(text)?.to_bits()),
        "Fixed" => i64::from(Fixed::from_decimal(text)?.to_bits()),
        "F26Dot6" => i64::from(F26Dot6::from_decimal(text)?.to_bits()),
        "F2Dot30" => i64::from(F2Dot30::from_decimal(text)?.to_bits()),
        _ => F48Dot16::from_decimal(text)?.to_bits(),
    })
}

// The shortest decimal that parses back to a raw value; of two as near, the one farther from zero.
#[test]
fn printed_decimals() -> Result<(), Fail> {
    let rt = crate::std_for_tests::Host;
    for &(format, bits, text) in &[
        ("F2Dot14", 1, "0.00006"),
        ("F2Dot14", -32768, "-2"),
        ("F2Dot14", 32767, "1.99994"),
        ("F2Dot14", -806, "-0.0492"),
        ("F2Dot14", 9830, "0.6"),
        ("F2Dot14", -10139, "-0.61884"),
        ("F2Dot14", -1, "-0.00006"),
        ("F2Dot14", 16384, "1"),
        ("F2Dot14", -16384, "-1"),
        ("F2Dot14", 0, "0"),
        ("F2Dot14", 8192, "0.5"),
        ("F2Dot14", -4096, "-0.25"),
        ("F4Dot12", 1, "0.0002"),
        ("F4Dot12", 32767, "7.9998"),
        ("F4Dot12", -26007, "-6.3494"),
        ("F4Dot12", -32768, "-8"),
        ("F4Dot12", -6144, "-1.5"),
        ("F4Dot12", 2458, "0.6"),
        ("F6Dot10", 1, "0.001"),
        ("F6Dot10", 32767, "31.999"),
        ("F6Dot10", -87, "-0.085"),
        ("F6Dot10", -32768, "-32"),
        ("F6Dot10", -614, "-0.6"),
        ("Fixed", 1, "0.00002"),
        ("Fixed", -2147483648, "-32768"),
        ("Fixed", 2147483647, "32767.99998"),
        ("Fixed", -110031627, "-1678.94939"),
        ("Fixed", -1, "-0.00002"),
        ("Fixed", 0, "0"),
        ("Fixed", 98304, "1.5"),
        ("Fixed", 39322, "0.6"),
        ("Fixed", -39322, "-0.6"),
        ("Fixed", -98304, "-1.5"),
        ("Fixed", 65536000, "1000"),
        ("Fixed", 2147450880, "32767.5"),
        ("F26Dot6", 1, "0.02"),
        ("F26Dot6", 24, "0.38"),
        ("F26Dot6", -24, "-0.38"),
        ("F26Dot6", 2062335288, "32223988.88"),
        ("F26Dot6", 2147483647, "33554431.98"),
        ("F26Dot6", -2147483648, "-33554432"),
        ("F26Dot6", -3, "-0.05"),
        ("F26Dot6", 8, "0.13"),
        ("F26Dot6", 32, "0.5"),
        ("F26Dot6", 65, "1.02"),
        ("F26Dot6", -96, "-1.5"),
        ("F26Dot6", 6416, "100.25"),
        ("F26Dot6", -448, "-7"),
        ("F48Dot16", 1, "0.00002"),
        ("F48Dot16", -9223372036854775808, "-140737488355328"),
        ("F48Dot16", -9223372036854775807, "-140737488355327.99998"),
        ("F48Dot16", 9223372036854775807, "140737488355327.99998"),
        ("F48Dot16", 911303164702927670, "13905382762190.6688"),
        ("F48Dot16", 72057594037927936, "1099511627776"),
        ("F48Dot16", 39322, "0.6"),
        ("F48Dot16", -72057594037960704, "-1099511627776.5"),
        ("F2Dot30", 1, "0.000000001"),
        ("F2Dot30", 2147483647, "1.999999999"),
        ("F2Dot30", 131540037, "0.122506206"),
        ("F2Dot30", -2147483648, "-2"),
        ("F2Dot30", 7, "0.0000000065"),
        ("F2Dot30", 644245094, "0.6"),
    ] {
        assert!(rt;
            has_text(rt.alloc(), format, bits, text)?,
            "{format} {text}"
        );
        assert!(rt; parsed(format, text) == Ok(bits), "{format} {text}");
    }
    Ok(())
}

#[test]
fn parsed_decimals() {
    let rt = crate::std_for_tests::Host;
    for &(format, text, bits) in &[
        ("F2Dot14", "1.99996", 32767),
        ("F2Dot14", "-2.00003", -32768),
        ("F2Dot14", "1.2", 19661),
        ("F2Dot14", "1.999939", 32767),
        ("F2Dot14", "1.75", 28672),
        ("F2Dot14", "0.0000610356", 1),
        ("F2Dot14", "0.0", 0),
        ("F2Dot14", "-0.000061", -1),
        ("F2Dot14", "-2.0", -32768),
        ("F4Dot12", "0.0001220703125", 1),
        ("F4Dot12", "7.9998", 32767),
        ("F4Dot12", "-8.0001220703124", -32768),
        ("F6Dot10", "-0.00048828125", -1),
        ("F6Dot10", "31.9995", 32767),
        ("Fixed", "00012.50", 819200),
        ("Fixed", "-0.000", 0),
        ("Fixed", "0.6", 39322),
        ("Fixed", "32767.0", 2147418112),
        ("Fixed", "28672.00001525879", 1879048193),
        ("Fixed", "1.0", 65536),
        ("Fixed", "-0.000015259", -1),
        ("Fixed", "0.05", 3277),
        ("Fixed", "0.2", 13107),
        ("Fixed", "0.4", 26214),
        ("Fixed", "0.67755", 44404),
        ("Fixed", "-0.05", -3277),
        ("Fixed", "-0.6", -39322),
        ("Fixed", "-0.2", -13107),
        ("Fixed", "-0.4", -26214),
        ("Fixed", "-0.67755", -44404),
        ("Fixed", "0.00000762939453125", 1),
        ("Fixed", "-0.00000762939453125", -1),
        ("Fixed", "32767.99999", 2147483647),
        ("F26Dot6", "0.12", 8),
        ("F26Dot6", "0.0078125", 1),
        ("F26Dot6", "-1001.1", -64070),
        ("F48Dot16", "1.0", 65536),
        ("F48Dot16", "0.0", 0),
        ("F48Dot16", "1.5", 98304),
        ("F48Dot16", "-1.5", -98304),
        ("F2Dot30", "0.0000000004656612873077392578125", 1),
        ("F2Dot30", "-0.0000000004656612873077392578125", -1),
        ("F2Dot30", "1.9999999995", 2147483647),
        ("F2Dot30", "-2.0000000004", -2147483648),
    ] {
        assert!(rt; parsed(format, text) == Ok(bits), "{format} {text}");
    }
}

#[test]
fn decimals_out_of_range() {
    let rt = crate::std_for_tests::Host;
    for &(format, text) in &[
        ("F2Dot14", "1.99997"),
        ("F2Dot14", "-2.00004"),
        ("F4Dot12", "7.99988"),
        ("F6Dot10", "-32.0005"),
        ("Fixed", "4294967296"),
        ("Fixed", "32768.0"),
        ("Fixed", "32767.999993"),
        ("Fixed", "32767.99999237060546875"),
        ("Fixed", "-32768.00000762939453125"),
        ("F26Dot6", "33554431.9921875"),
        ("F48Dot16", "140737488355327.99999237060546875"),
        ("F48Dot16", "-140737488355328.00001"),
        ("F48Dot16", "18446744073709551616"),
        ("F2Dot30", "1.9999999996"),
        ("F2Dot30", "-2.0000000005"),
    ] {
        let read = parsed(format, text);
        assert!(rt; read == Err(DecimalFault::OutOfRange), "{format} {text}");
    }
}

#[test]
fn no_decimals() {
    let rt = crate::std_for_tests::Host;
    for &text in &["", "-", ".5", "5.", "+1", "1e3", "1.2.3", " 1", "1 "] {
        for &format in &["F2Dot14", "F4Dot12", "F6Dot10", "Fixed", "F26Dot6", "F2Dot30", "F48Dot16"]
        {
            let read = parsed(format, text);
            assert!(rt; read == Err(DecimalFault::Syntax), "{format} {text}");
        }
    }
}

// A text in three parts, of which the second is repeated.
#[test]
fn thousands_of_digits() -> Result<(), Fail> {
    let rt = crate::std_for_tests::Host;
    for &(format, head, digit, count, tail, ref bits) in &[
        ("Fixed", "", "0", 5000, "12.5", Ok(819200)),
        ("Fixed", "0.", "0", 5000, "1", Ok(0)),
        ("Fixed", "-0.", "0", 5000, "1", Ok(0)),
        ("Fixed", "1", "0", 4999, "", Err(DecimalFault::OutOfRange)),
        ("Fixed", "", "9", 4999, "x", Err(DecimalFault::Syntax)),
        ("Fixed", "0.00000762939453124", "9", 3000, "", Ok(0)),
        ("Fixed", "32767.99999237060546874", "9", 3000, "", Ok(2147483647)),
        ("Fixed", "-32768.00000762939453124", "9", 3000, "", Ok(-2147483648)),
        ("F26Dot6", "0.0078124", "9", 3000, "", Ok(0)),
        ("F26Dot6", "33554431.9921874", "9", 3000, "", Ok(2147483647)),
        ("F26Dot6", "-33554432.0078124", "9", 3000, "", Ok(-2147483648)),
        ("F2Dot30", "0.0000000004656612873077392578124", "9", 3000, "", Ok(0)),
    ] {
        let digits = digit.repeat(count);
        let text = format!(in rt.alloc(); "{head}{digits}{tail}")?;
        assert!(rt;
            parsed(format, text.as_str()) == *bits,
            "{format} {head}{digit}..{tail}"
        );
    }
    Ok(())
}

// Decimals of a format: two numbers, their product and their quotient.
macro_rules! check_products {
    ($rt:ident, $Number:ident, $rows:expr) => {
        for &(x, y, product, quotient) in $rows {
            let read = |text: &str| $Number::from_decimal(text).unwrap_or($Number::MIN);
            assert!($rt; read(x) * read(y) == read(product), "{x} * {y}");
            assert!($rt; read(x) / read(y) == read(quotient), "{x} / {y}");
        }
    };
}

#[test]
fn products_and_quotients_of_decimals() {
    let rt = crate::std_for_tests::Host;
    let rows = &[("0.5", "2", "1", "0.25"), ("0.5", "0.5", "0.25", "1")];
    check_products!(rt, Fixed, rows);
    let rows = &[
        ("0.5", "2.0", "1", "0.25"),
        ("0.5", "-2.4", "-1.2", "-0.20833333333333334"),
        ("2", "3", "6", "0.6666666666666666"),
        ("1", "1", "1", "1"),
    ];
    check_products!(rt, F26Dot6, rows);
}

// A decimal of 48.16, and its integer as an `i64`.
#[test]
fn integers_of_decimals() {
    let rt = crate::std_for_tests::Host;
    for &(text, integer) in
        &[("1", 1), ("1.5", 2), ("-1.5", -1), ("1099511627776.25", 1 << 40), ("-15.75", -16)]
    {
        let x = F48Dot16::from_decimal(text).unwrap_or(F48Dot16::MIN);
        assert!(rt; x.to_i64() == integer, "{text}");
        assert!(rt; x.round() == F48Dot16::from_i64(integer), "{text}");
    }
    let converted = Fixed::from_decimal("42.5").map(Fixed::to_f26dot6);
    assert!(rt; converted == F26Dot6::from_decimal("42.5"));
}
