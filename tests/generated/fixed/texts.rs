// @generated from crates/rows/src/tests/fixed/texts.rt by tools/erase

//! What no clause says: `Debug` obeys flags as `Display` does. Also, each value of 16 bits parses
//! back from its text.

use crate::font_decimal::DecimalFault;
use crate::font_fixed::*;
use crate::std_for_tests::alloc::{AllocError, Global};
use crate::std_for_tests::fmt::{Debug, Display};
use crate::std_for_tests::str::FromStr;
use crate::std_for_tests::test::Fail;

/// Returns whether `number` prints as `text`, whatever the precision, and `text` parses back.
fn prints<T>(alloc: Global, number: T, text: &str) -> Result<bool, AllocError>
where
    T: Copy + PartialEq + Display + Debug + FromStr<Err = DecimalFault>,
{
    let forms = format!(in alloc; "{number}|{number:3}|{number:.0}|{number:#}|{number:?}")?;
    Ok(forms.as_str().split('|').all(|form| form == text) && text.parse() == Ok(number))
}

/// Returns whether these are the texts of `number` in width 9: at each side and in the middle, with
/// a sign, and with zeros.
fn fills<T: Copy + Display + Debug>(
    alloc: Global,
    number: T,
    text: &str,
) -> Result<bool, AllocError> {
    let sides = format!(in alloc; "{number:9}|{number:<9}|{number:*^9}|{number:9?}")?;
    let signs = format!(in alloc; "{number:+}|{number:+9}|{number:09}|{number:<+09}")?;
    let texts = format!(in alloc; "{sides}|{signs}")?;
    Ok(texts.as_str() == text)
}

#[test]
fn texts_with_flags() -> Result<(), Fail> {
    let rt = crate::std_for_tests::Host;
    let alloc = rt.alloc();
    let (negative, number) = (F2Dot14::from_bits(-10139), Fixed::from_bits(0x1_8000));
    assert!(rt; prints(alloc, negative, "-0.61884")?);
    assert!(rt; prints(alloc, number, "1.5")?);
    assert!(rt; prints(alloc, F48Dot16::from_bits(39322), "0.6")?);
    assert!(rt;
        fills(
            alloc,
            number,
            "      1.5|1.5      |***1.5***|      1.5|+1.5|     +1.5|0000001.5|+000001.5"
        )?
    );
    assert!(rt;
        fills(
            alloc,
            negative,
            " -0.61884|-0.61884 |-0.61884*| -0.61884|-0.61884| -0.61884|-00.61884|-00.61884"
        )?
    );
    Ok(())
}

/// Returns the raw value of the first number that does not parse back from its text.
fn not_parsed_back<const F: u32>(alloc: Global) -> Result<Option<i16>, AllocError>
where
    FixedI16<F>: Format<16, F>,
{
    for bits in i16::MIN..=i16::MAX {
        let number = FixedI16::<F>::from_bits(bits);
        let text = format!(in alloc; "{number}")?;
        if text.as_str().parse() != Ok(number) {
            return Ok(Some(bits));
        }
    }
    Ok(None)
}

#[test]
fn every_value_of_16_bits() -> Result<(), Fail> {
    let rt = crate::std_for_tests::Host;
    let alloc = rt.alloc();
    assert!(rt; not_parsed_back::<14>(alloc)?.is_none(), "2.14");
    assert!(rt; not_parsed_back::<12>(alloc)?.is_none(), "4.12");
    assert!(rt; not_parsed_back::<10>(alloc)?.is_none(), "6.10");
    Ok(())
}
