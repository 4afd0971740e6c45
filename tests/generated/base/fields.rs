// @generated from crates/rows/src/tests/base/fields.rt by tools/erase

//! Impls of callers: an array of bytes and a header. Also whether fields and headers have the
//! values of requirements.md, and texts, which no clause says.

use crate::font_base::{
    BeByteArray, BigEndian, Int24, SampleHeader, ScalarArray, TableDataRef, TableHeader,
};
use crate::std_for_tests::test::Fail;

#[test]
fn field_order() {
    let rt = crate::std_for_tests::Host;
    let below = BigEndian::<i16>::new([0xFF, 0xFF]);
    let above = BigEndian::<i16>::new([0x00, 0x01]);
    assert!(rt; below < above && below.get() == -1 && below.eq_value(&-1));
    let array = ScalarArray::<i16>::new(&[0xFF, 0xFF, 0x00, 0x01]);
    assert!(rt; array.map(|array| array.get(1)) == Some(Some(1)));
}

/// A user-defined array, which compares by the trait's default method.
#[derive(Clone, Copy)]
struct Pair([u8; 2]);

impl BeByteArray for Pair {
    const LEN: usize = 2;

    fn from_slice(slice: &[u8]) -> Option<Pair> {
        Some(Pair(<[u8; 2]>::from_slice(slice)?))
    }

    fn as_slice(&self) -> &[u8] {
        BeByteArray::as_slice(&self.0)
    }
}

#[test]
fn eq_array() {
    let rt = crate::std_for_tests::Host;
    for &(other, equal) in &[([1, 2], true), ([0, 2], false), ([1, 0], false)] {
        let own = Pair([1, 2]).eq_array(&Pair(other));
        assert!(rt;
            [1, 2].eq_array(&other) == equal && own == equal,
            "{other:?}"
        );
    }
    assert!(rt; Pair::from_slice(&[1, 2, 3]).is_none());
}

#[test]
fn field_text() -> Result<(), Fail> {
    let rt = crate::std_for_tests::Host;
    let field = BigEndian::<Int24>::new([0xFF, 0xFF, 0xFB]);
    let text = format!(in rt.alloc(); "{field} {field:?}")?;
    assert!(rt; text.as_str() == "-5 Int24(-5)");
    for &(first, text) in &[(0x00, "2"), (0x01, "258"), (0x7F, "32514"), (0x80, "32770")] {
        let field = BigEndian::<u16>::new([first, 2]);
        assert!(rt;
            format!(in rt.alloc(); "{field:?}")?.as_str() == text,
            "{text}"
        );
    }
    Ok(())
}

#[test]
fn header_and_data() -> Result<(), Fail> {
    let rt = crate::std_for_tests::Host;
    let bytes = [0x00, 0x01, 0x00, 0x00, 0x00, 0x02, 0xFF];
    let table = TableDataRef::<SampleHeader>::new(&bytes).ok_or("long enough")?;
    let header = table.clone().header();
    assert!(rt; header.a.get() == 1 && header.b.get() == 2 && table.data().len() == 7);
    assert!(rt; table.data().ends_with(&[0x00, 0x02, 0xFF]));
    Ok(())
}

#[test]
fn header_of_a_subslice() -> Result<(), Fail> {
    let rt = crate::std_for_tests::Host;
    let bytes = [0xFF, 0x00, 0x03, 0x00, 0x00, 0x00, 0x04];
    let header = TableDataRef::<SampleHeader>::new(&bytes[1..]).ok_or("long enough")?.header();
    assert!(rt; header.a.get() == 3 && header.b.get() == 4);
    Ok(())
}

#[test]
fn header_requires_its_length() {
    let rt = crate::std_for_tests::Host;
    let bytes = [0x00, 0x01, 0x00, 0x00, 0x00, 0x02];
    assert!(rt; TableDataRef::<SampleHeader>::new(&bytes[..5]).is_none());
    assert!(rt; TableDataRef::<SampleHeader>::new(&bytes).is_some());
}

/// A header of no fields and no bytes.
struct EmptyHeader;

impl TableHeader for EmptyHeader {
    const BYTE_LEN: usize = 0;

    fn decode(_bytes: &[u8]) -> EmptyHeader {
        EmptyHeader
    }
}

#[test]
fn header_of_no_bytes() -> Result<(), Fail> {
    let rt = crate::std_for_tests::Host;
    let table = TableDataRef::<EmptyHeader>::new(&[]).ok_or("long enough")?;
    let EmptyHeader = table.header();
    let longer = TableDataRef::<EmptyHeader>::new(&[7]).ok_or("long enough")?;
    assert!(rt; table.data().is_empty() && longer.data() == [7].as_slice());
    Ok(())
}
