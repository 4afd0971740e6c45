// @generated from crates/rows/src/tests/ids/glyphs.rt by tools/erase

//! What no clause says: texts of glyph ids, and of the error. And a row of requirements.md.

use crate::font_ids::{GlyphId, GlyphId16, GlyphId24};
use crate::std_for_tests::cmp::Ordering;
use crate::std_for_tests::test::Fail;

#[test]
fn conversion_error() -> Result<(), Fail> {
    let rt = crate::std_for_tests::Host;
    let wide = GlyphId::new(65536);
    let error = GlyphId16::try_from(wide).err().ok_or("refused")?;
    let text = format!(in rt.alloc(); "{error}; {error:?}")?;
    let texts = "glyph identifier 65536 too large for conversion; TryFromGlyphIdError(65536)";
    assert!(rt; error.value() == 65536 && text.as_str() == texts);
    Ok(())
}

#[test]
fn glyph_id_texts() -> Result<(), Fail> {
    let rt = crate::std_for_tests::Host;
    let (narrow, middle, wide) = (GlyphId16::new(5), GlyphId24::new(5), GlyphId::new(5));
    let text = format!(in rt.alloc(); "{narrow} {middle} {wide} {narrow:?} {middle:?} {wide:?}")?;
    let printed = "GID_5 GID_5 GID_5 GlyphId16(5) GlyphId24(Uint24(5)) GlyphId(5)";
    assert!(rt; text.as_str() == printed);
    Ok(())
}

#[test]
fn order_of_ids() {
    let rt = crate::std_for_tests::Host;
    let (wide, narrow) = (GlyphId::new(0x1_0000), GlyphId16::new(0xFFFF));
    assert!(rt; wide.cmp_gid16(&narrow) == Ordering::Greater);
}

#[test]
fn glyph_ids_that_saturate() {
    let rt = crate::std_for_tests::Host;
    let rows = [
        (0xFF_FFFE, 0xFF_FFFE),
        (0xFF_FFFF, 0xFF_FFFF),
        (0x100_0000, 0xFF_FFFF),
        (0xFFFF_FFFF, 0xFF_FFFF),
    ];
    for &(number, id) in &rows {
        assert!(rt; GlyphId24::new(number).to_u32() == id, "{number}");
    }
}
