// @generated from crates/rows/src/tests/ids/words.rt by tools/erase

//! What no clause says: texts of font units. And a row of requirements.md.

use crate::font_ids::{FWord, UfWord};
use crate::std_for_tests::test::Fail;

#[test]
fn font_unit_texts() -> Result<(), Fail> {
    let rt = crate::std_for_tests::Host;
    let (signed, unsigned) = (FWord::new(-32768), UfWord::new(65535));
    let text = format!(in rt.alloc(); "{signed} {signed:?} {unsigned} {unsigned:?}")?;
    assert!(rt; text.as_str() == "-32768 FWord(-32768) 65535 UfWord(65535)");
    Ok(())
}

#[test]
fn number_above_16_16() {
    let rt = crate::std_for_tests::Host;
    assert!(rt; UfWord::new(40000).to_fixed().to_bits() == -1673527296);
}
