// @generated from crates/variations/src/tests/advances.rt by tools/erase

//! Tables `HVAR`: stores, sets and offsets.

use crate::font_types::{F2Dot14, Fixed, GlyphId16, Scalar, UfWord};
use crate::std_for_tests::test::Fail;
use crate::variations::laws::varied_alike;
use crate::variations::{DeltaSetIndex, Hvar, ItemVariationStore};

// A table: its header of 20 bytes; a map of two entries of two bytes, with eight bits of the inner
// index, at 20; and a store at 28.
const HVAR: [u8; 62] = [
    0, 1, 0, 0, 0, 0, 0, 28, 0, 0, 0, 20, 0, 0, 0, 0, 0, 0, 0, 0, // The header.
    0, 0x17, 0, 2, 0, 1, 0, 0, // The map: set 1 and set 0 of subtable 0.
    0, 1, 0, 0, 0, 12, 0, 1, 0, 0, 0, 22, // The store: a list at 12, a subtable at 22.
    0, 1, 0, 1, 0, 0, 0x40, 0, 0x40, 0, // A region from 0 by 1 to 1.
    0, 2, 0, 1, 0, 1, 0, 0, 0, 40, 0xFF, 0xD8, // Two sets of one delta: 40 and -40.
];

// The table with a number of four bytes in it.
fn with(number: u32, offset: usize) -> [u8; 62] {
    let mut table = HVAR;
    let _ = number.write_at(&mut table, offset);
    table
}

// The set of a glyph.
fn set_of(table: &[u8], glyph: u16) -> Option<DeltaSetIndex> {
    Hvar::new(table)?.advance_set(GlyphId16::new(glyph))
}

// The advance 500, varied by the first set of a store.
fn varied(store: &[u8], coordinates: &[F2Dot14], scalars: &mut [Fixed]) -> Option<UfWord> {
    let instance = ItemVariationStore::new(store)?.instance(coordinates, scalars)?;
    instance.vary_advance(UfWord::new(500), DeltaSetIndex { outer: 0, inner: 0 })
}

#[test]
fn sets_of_glyphs() {
    let rt = crate::std_for_tests::Host;
    // The same table without a map.
    let unmapped = with(0, 8);
    for &(glyph, outer, inner) in &[(0, 0, 1), (1, 0, 0), (2, 0, 0), (0xFFFF, 0, 0)] {
        let set = |table| Hvar::new(table)?.advance_set(GlyphId16::new(glyph));
        assert!(rt;
            set(&HVAR) == Some(DeltaSetIndex { outer, inner }),
            "{glyph}"
        );
        let inner = u32::from(glyph);
        let outer = 0;
        assert!(rt;
            set(&unmapped) == Some(DeltaSetIndex { outer, inner }),
            "{glyph} unmapped"
        );
    }
    // A null offset of the store, one of a place with a store, and two past one: the last is of the
    // end. Then of the map: null, the end, and one past it.
    for &(number, offset, is_table, is_set) in &[
        (0, 4, false, false),
        (28, 4, true, true),
        (27, 4, false, false),
        (62, 4, false, false),
        (63, 4, false, false),
        (0, 8, true, true),
        (62, 8, true, false),
        (63, 8, true, false),
        // Of another major version, and of a later minor one.
        (0x0002_0000, 0, false, false),
        (0, 0, false, false),
        (0x0001_0001, 0, true, true),
    ] {
        let table = with(number, offset);
        assert!(rt;
            Hvar::new(&table).is_some() == is_table,
            "{number} at {offset}"
        );
        assert!(rt;
            set_of(&table, 0).is_some() == is_set,
            "a set of {number} at {offset}"
        );
    }
    assert!(rt; Hvar::new(&HVAR[..19]).is_none());
}

#[test]
fn advances_by_sets() -> Result<(), Fail> {
    let rt = crate::std_for_tests::Host;
    let (store, advance) = (Hvar::new(&HVAR).ok_or("a table")?.store(), UfWord::new(500));
    let (coordinates, mut scalars) = ([F2Dot14::from_bits(0x2000)], [Fixed::ZERO]);
    assert!(rt; store.region_count() == 1);
    let instance = store.instance(&coordinates, &mut scalars).ok_or("one region")?;
    assert!(rt; instance.store() == store && instance.coordinates().len() == 1);
    for &(outer, inner, varied) in &[
        (0, 0, Some(520)),
        (0, 1, Some(480)),
        (0, 2, None),
        (1, 0, None),
        (0, 0x1_0000, None),
        (0xFFFF, 0xFFFF, Some(500)),
    ] {
        let set = DeltaSetIndex { outer, inner };
        let found = instance.vary_advance(advance, set);
        assert!(rt; found == varied.map(UfWord::new), "{outer} {inner}");
        let alone = store.vary_advance(advance, set, &coordinates);
        assert!(rt; alone == found, "{outer} {inner} without a buffer");
        let (one, other) = varied_alike(&instance, advance, set);
        assert!(rt; [one, other] == [found, found], "{outer} {inner} alike");
    }
    for &(number, offset, is_store) in &[
        // Another format, no list of regions, a subtable less, one more, and none at its offset.
        (0x0002_0000, 28, false),
        (0, 30, false),
        (0x000C_0000, 32, true),
        (0x000C_FFFF, 32, true),
        (0, 36, true),
        (0xFFFF, 36, true),
    ] {
        let (changed, mut scalars) = (with(number, offset), [Fixed::ZERO]);
        let store = ItemVariationStore::new(&changed[28..]);
        assert!(rt; store.is_some() == is_store, "{number} at {offset}");
        let found = varied(&changed[28..], &coordinates, &mut scalars);
        assert!(rt; found.is_none(), "{number} at {offset}");
    }
    Ok(())
}
