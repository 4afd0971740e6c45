// @generated from crates/variations/src/tests/variations.rt by tools/erase

//! Item variation stores: what `variations/tests` does not see, with values from exact arithmetic.

use crate::font_types::{F2Dot14, Fixed};
use crate::std_for_tests::test::Fail;
use crate::variations::{
    DeltaSetIndex, DeltaSetIndexMap, ItemVariationStore, RegionAxisCoordinates, StoreInstance,
};

// A store without subtables, whose list of regions, of at most 28 bytes, begins at 8.
fn store_of(regions: &[u8]) -> [u8; 36] {
    let mut store = [0; 36];
    store[..8].copy_from_slice(&[0, 1, 0, 0, 0, 8, 0, 0]);
    for (place, byte) in store[8..].iter_mut().zip(regions) {
        *place = *byte;
    }
    store
}

// A store at these coordinates.
fn at<'x>(
    store: &'x [u8],
    coordinates: &'x [F2Dot14],
    scalars: &'x mut [Fixed],
) -> Option<StoreInstance<'x>> {
    ItemVariationStore::new(store)?.instance(coordinates, scalars)
}

// The scalar of a region of a list.
fn region_scalar(regions: &[u8], region: u16, coordinates: &[F2Dot14]) -> Option<Fixed> {
    let (store, mut scalars) = (store_of(regions), [Fixed::ZERO; 2]);
    at(store.get(..8 + regions.len())?, coordinates, &mut scalars)?.scalar(region)
}

#[test]
fn scalars_of_axes() {
    let rt = crate::std_for_tests::Host;
    for &(start, peak, end, coordinate, bits) in &[
        // Ignored: out of order, on both sides of zero, or with the peak at zero.
        (3, 2, 4, 0, 65536),
        (1, 3, 2, 0, 65536),
        (-1, 1, 3, 2, 65536),
        (0, 0, 3, 2, 65536),
        // At the peak, which may be the end.
        (1, 3, 5, 3, 65536),
        (0, 12854, 12854, 12854, 65536),
        // Out of range, or at the start or the end.
        (1, 3, 5, 0, 0),
        (1, 3, 5, 1, 0),
        (1, 3, 5, 5, 0),
        (1, 3, 5, 6, 0),
        // Up to the peak: 21845.3, 32768 and 65199.4996.
        (0, 3, 5, 1, 21845),
        (-5, -3, 0, -4, 32768),
        (0, 12854, 12854, 12788, 65199),
        // Down from the peak: 43690.7 and 21845.3.
        (1, 2, 5, 3, 43691),
        (-5, -3, 0, -1, 21845),
    ] {
        let axis = RegionAxisCoordinates {
            start_coord: F2Dot14::from_bits(start),
            peak_coord: F2Dot14::from_bits(peak),
            end_coord: F2Dot14::from_bits(end),
        };
        let scalar = axis.scalar(F2Dot14::from_bits(coordinate));
        assert!(rt;
            scalar == Fixed::from_bits(bits),
            "{start} {peak} {end} at {coordinate}"
        );
    }
}

// One region of two axes, each from 0 to a peak that is the end, at 15489 and at 14464 of 2.14.
const NEAR_THE_PEAKS: [u8; 16] =
    [0, 2, 0, 1, 0, 0, 0x3C, 0x81, 0x3C, 0x81, 0, 0, 0x38, 0x80, 0x38, 0x80];

// 65536 * 15383/15489 * 14463/14464 is 65083.00007: the scalar is off by 0.99993, of at most 1.
#[test]
fn scalar_of_two_axes_near_its_bound() {
    let rt = crate::std_for_tests::Host;
    let coordinates = [15383, 14463].map(F2Dot14::from_bits);
    let scalar = region_scalar(&NEAR_THE_PEAKS, 0, &coordinates);
    assert!(rt; scalar == Some(Fixed::from_bits(65084)));
}

// Two axes and two regions: both axes from 0 to a peak at 3 of 2.14; the second alone.
const REGIONS: [u8; 28] =
    [0, 2, 0, 2, 0, 0, 0, 3, 0, 3, 0, 0, 0, 3, 0, 3, 0, 0, 0, 0, 0, 0, 0, 0, 0, 3, 0, 3];

#[test]
fn scalars_of_regions() -> Result<(), Fail> {
    let rt = crate::std_for_tests::Host;
    let [one, two] = [1, 2].map(F2Dot14::from_bits);
    for &(region, coordinates, bits) in &[
        // The products of 2/3 as rounded, and of 2/3 and 1/3: 29127.3 and 14563.7.
        (0, &[two, two][..], Some(29127)),
        (0, &[two, one], Some(14564)),
        (1, &[two, two], Some(43691)),
        (1, &[one, two, two], Some(43691)),
        (0, &[two], Some(0)),
        (1, &[], Some(0)),
        (2, &[two, two], None),
    ] {
        let scalar = region_scalar(&REGIONS, region, coordinates);
        assert!(rt;
            scalar == bits.map(Fixed::from_bits),
            "{region}, {}",
            coordinates.len()
        );
    }
    // A coordinate that is missing is 0, and not the peak, which is 1.
    assert!(rt; region_scalar(&[0, 1, 0, 1, 0, 0, 64, 0, 64, 0], 0, &[]) == Some(Fixed::ZERO));
    // A count of regions with the reserved bit.
    let (most, reserved) = (store_of(&[0, 0, 0x7F, 0xFF]), store_of(&[0, 0, 0x80, 0]));
    let (mut scalars, mut none) = ([Fixed::ZERO; 0x7FFF], [Fixed::ZERO; 0]);
    let instance = at(&most, &[], &mut scalars).ok_or("the most regions")?;
    assert!(rt; instance.scalar(0x7FFE) == Some(Fixed::ONE));
    let instance = at(&reserved, &[], &mut none).ok_or("no region")?;
    assert!(rt; instance.scalar(0).is_none());
    for len in 0..REGIONS.len() {
        assert!(rt; region_scalar(&REGIONS[..len], 1, &[]).is_none(), "{len}");
        assert!(rt;
            region_scalar(&REGIONS[..len], 0, &[]).is_some() == (len >= 16),
            "{len}"
        );
    }
    Ok(())
}

// A store of one region, whose subtable at 16 has two wide columns of one.
const WIDE: [u8; 32] = [
    0, 1, 0, 0, 0, 12, 0, 1, 0, 0, 0, 16, 0, 0, 0, 1, // The store, and a list of one region.
    0, 1, 0, 2, 0, 1, 0, 0, 0, 1, 0, 2, 0, 3, 0, 4,
];

#[test]
fn more_wide_columns_than_columns() -> Result<(), Fail> {
    let rt = crate::std_for_tests::Host;
    let set = DeltaSetIndex { outer: 0, inner: 0 };
    for &(words, is_there) in &[(2, false), (1, true), (0, true)] {
        let (mut table, mut scalars) = (WIDE, [Fixed::ZERO]);
        table[19] = words;
        let instance = at(&table, &[], &mut scalars).ok_or("a store")?;
        assert!(rt; instance.delta(set).is_some() == is_there, "{words}");
    }
    Ok(())
}

#[test]
fn indices_of_32_bits() {
    let rt = crate::std_for_tests::Host;
    for &(index, outer, inner) in &[
        (0, 0, 0),
        (0x1_0002, 1, 2),
        (0xFFFF, 0, 0xFFFF),
        (0xFFFF_0000, 0xFFFF, 0),
        (0xFFFF_FFFE, 0xFFFF, 0xFFFE),
    ] {
        let found = DeltaSetIndex::from_u32(index);
        assert!(rt; found == DeltaSetIndex { outer, inner }, "{index}");
        assert!(rt; !found.is_no_variation(), "{index}");
    }
    assert!(rt; DeltaSetIndex::from_u32(0xFFFF_FFFF) == DeltaSetIndex::NO_VARIATION);
}

// The delta set of an index.
fn set_of(map: &[u8], index: u32) -> Option<DeltaSetIndex> {
    DeltaSetIndexMap::new(map)?.get(index)
}

#[test]
fn maps_to_delta_sets() {
    let rt = crate::std_for_tests::Host;
    for &(outer, inner, is_none) in &[
        (0xFFFF, 0xFFFF, true),
        (0xFFFF, 0xFFFE, false),
        (0xFFFE, 0xFFFF, false),
        (0x1_FFFF, 0xFFFF, false),
    ] {
        let found = DeltaSetIndex { outer, inner }.is_no_variation();
        assert!(rt; found == is_none, "{outer} {inner}");
    }
    for map in [
        &[][..],
        &[0, 0x00, 0],
        // No entries, an entry that ends early, another format.
        &[0, 0x00, 0, 0, 7],
        &[0, 0x10, 0, 1, 7],
        &[1, 0x00, 0, 0, 0],
        &[1, 0x00, 0, 0, 0, 1],
        &[2, 0x00, 0, 1, 7, 7, 7],
    ] {
        assert!(rt; set_of(map, 0).is_none(), "{}", map.len());
    }
}
