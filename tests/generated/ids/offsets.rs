// @generated from crates/rows/src/tests/ids/offsets.rt by tools/erase

//! Whether three zero bytes are a null offset, and what no clause says: texts of `Debug`.

use crate::font_base::{FixedSize, Scalar, Uint24};
use crate::font_ids::{Nullable, Offset16, Offset24, Offset32};
use crate::std_for_tests::test::Fail;

#[test]
fn nullable() -> Result<(), Fail> {
    let rt = crate::std_for_tests::Host;
    let null = Nullable::<Offset24>::read(&[0, 0, 0]).ok_or("three bytes")?;
    assert!(rt; null.is_null() && null == Nullable::default());
    assert!(rt; Nullable::<Offset32>::read(&[0, 0, 0]).is_none());
    assert!(rt; Nullable::<Offset32>::default().is_null());
    assert!(rt; !Nullable::<Offset32>::from_raw([0, 1, 0, 0]).is_null());
    assert!(rt; Nullable::<Offset24>::RAW_BYTE_LEN == 3);
    Ok(())
}

#[test]
fn offset_texts() -> Result<(), Fail> {
    let rt = crate::std_for_tests::Host;
    let (short, middle) = (Offset16::new(5), Offset24::new(Uint24::new(5)));
    let null = Nullable::<Offset16>::default();
    let text = format!(in rt.alloc(); "{short:?} {middle:?} {:?} {null:?}", Offset32::new(5))?;
    let printed = "Offset16(5) Offset24(Uint24(5)) Offset32(5) Nullable(Offset16(0))";
    assert!(rt; text.as_str() == printed);
    Ok(())
}
