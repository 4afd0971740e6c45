//! What is past the end of a table is refused, also where an offset or a size does not fit in 32 bits,
//! for which Rattle proves nothing.

use font_variations_proved::{
    DeltaSetIndex, DeltaSetIndexMap, F2Dot14, Fvar, ItemVariationStore, UfWord,
};

/// A store of one subtable: a list of regions of a number of axes, and the parts of the subtable.
fn store(axes: u16, sets: u16, words: u16, regions: &[u16]) -> Vec<u8> {
    let subtable_at = 16_u32 + 6 * u32::from(axes);
    let mut bytes = [&[0, 1, 0, 0, 0, 12, 0, 1][..], &subtable_at.to_be_bytes()].concat();
    bytes.extend([axes, 0x7FFF].map(u16::to_be_bytes).concat());
    bytes.resize(subtable_at as usize, 0);
    for n in [sets, words, regions.len() as u16].iter().chain(regions) {
        bytes.extend(n.to_be_bytes());
    }
    bytes
}

fn varied(bytes: &[u8], inner: u32) -> Option<UfWord> {
    let store = ItemVariationStore::new(bytes).unwrap();
    store.vary_advance(UfWord::new(500), DeltaSetIndex { outer: 0, inner }, &[F2Dot14::ONE])
}

// 4 + 6 * 22,088 * 32,408 is 2^32 + 132.
#[test]
fn region_past_the_end() {
    for (region, found) in [(0, Some(UfWord::new(501))), (32_408, None)] {
        let mut bytes = store(22_088, 1, 0, &[region]);
        bytes.resize(bytes.len() + 200, 1);
        assert_eq!(varied(&bytes, 0), found);
    }
}

// 62,525 rows of 17,173 columns of four bytes have 2^32 + 4 bytes.
#[test]
fn row_past_the_end() {
    let mut bytes = store(1, 0xFFFF, 0x8000 | 17_173, &[0; 17_173]);
    bytes.resize(bytes.len() + 4 * 17_174, 0);
    assert_eq!(varied(&bytes, 0), Some(UfWord::new(500)));
    assert_eq!(varied(&bytes, 62_525), None);
}

// 6 + 4 * 2^30 is 2^32 + 6.
#[test]
fn entry_past_the_end() {
    let bytes = [1, 0x3F, 0xFF, 0xFF, 0xFF, 0xFF, 0, 0, 0, 1, 0, 0, 0, 2];
    let map = DeltaSetIndexMap::new(&bytes).unwrap();
    for (index, inner) in [(0, Some(1)), (1, Some(2)), (2, None), (1 << 30, None)] {
        assert_eq!(map.get(index).map(|set| set.inner), inner, "{index}");
    }
}

// 65,535 + 65,535 * 65,534 is less than 2^32.
#[test]
fn axis_past_the_end() {
    let mut bytes = [0, 1, 0, 0, 0xFF, 0xFF, 0, 2, 0xFF, 0xFF, 0xFF, 0xFF, 0, 0, 0, 0].to_vec();
    bytes.resize(0x3_0000, 0);
    let fvar = Fvar::new(&bytes).unwrap();
    for (index, is_there) in [(0, true), (1, true), (2, false), (0xFFFE, false), (0xFFFF, false)] {
        assert_eq!(fvar.axis(index).is_some(), is_there, "{index}");
    }
}

#[test]
fn tables_past_the_end() {
    let mut bytes = store(1, 1, 0, &[0]);
    bytes.push(1);
    assert_eq!(varied(&bytes, 0), Some(UfWord::new(501)));
    for offset in (0..40).map(|n| u32::MAX - n).chain([0x8000_0000]) {
        let mut other = bytes.clone();
        other[8..12].copy_from_slice(&offset.to_be_bytes());
        assert_eq!(varied(&other, 0), None);
        other[2..6].copy_from_slice(&offset.to_be_bytes());
        assert!(ItemVariationStore::new(&other).is_none());
    }
}
