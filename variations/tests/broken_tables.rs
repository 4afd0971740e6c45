//! Broken tables, by every constructor and method of variations: none panics, and both ways of
//! varying an advance agree.

#[allow(dead_code)]
#[path = "../../tests/fonts/mod.rs"]
mod fonts;

use font_types_proved::{F2Dot14, Fixed, GlyphId16, Tag, UfWord};
use font_variations_proved::{Avar, CoordinatesError, DeltaSetIndex, DeltaSetIndexMap, Fvar, Hvar};
use font_variations_proved::{ItemVariationStore, RegionAxisCoordinates, Setting};
use fonts::{MAP, MAPS, hvar, hvar_of_two_axes, long_axes, two_axes, words};

/// Numbers that a seed determines (Marsaglia's xorshift).
struct Random(u64);

impl Random {
    fn next(&mut self) -> u64 {
        self.0 ^= self.0 << 13;
        self.0 ^= self.0 >> 7;
        self.0 ^= self.0 << 17;
        self.0
    }

    fn below(&mut self, end: usize) -> usize {
        (self.next() >> 16) as usize % end
    }
}

/// Truncates or lengthens a table, or writes bytes or a count, up to four times.
fn broken(table: &[u8], random: &mut Random) -> Vec<u8> {
    let mut table = table.to_vec();
    for _ in 0..=random.below(4) {
        let (place, number) = (random.below(table.len() + 1), random.next());
        match random.below(4) {
            0 => table.truncate(place),
            1 => table.resize(table.len() + random.below(64), number as u8),
            2 => table.iter_mut().skip(place).take(1).for_each(|byte| *byte ^= number as u8),
            _ => {
                let count = [0_u16, 1, 2, 0x7FFF, 0x8000, 0xFFFF][random.below(6)];
                let pair = table.iter_mut().skip(place & !1).zip(count.to_be_bytes());
                pair.for_each(|(byte, new)| *byte = new);
            }
        }
    }
    table
}

fn of_fvar(bytes: &[u8], avar: &[u8], random: &mut Random) -> Option<()> {
    let (fvar, avar) = (Fvar::new(bytes)?, Avar::new(Some(avar)).or(Avar::new(None))?);
    let count = fvar.axis_count();
    for index in [0, 1, count.wrapping_sub(1), count, 0xFFFF] {
        assert!(index < count || fvar.axis(index).is_none());
    }
    assert!(fvar.axes().take(64).count() <= count.into());
    let settings = [b"wght", b"wdth", b"wght"]
        .map(|tag| Setting { axis: Tag::new(tag), value: Fixed::from_bits(random.next() as i32) });
    let mut at = vec![F2Dot14::MAX; if count < 64 { count.into() } else { 64 }];
    let strict = fvar.coordinates(&avar, &settings, &mut at);
    let kept = at.clone();
    let found = fvar.coordinates_ignoring_unknown(&avar, &settings, &mut at);
    match strict {
        Ok(()) => assert!(found.is_ok() && at == kept),
        Err(CoordinatesError::NoAxis(tag)) => {
            assert!(found.is_ok() && fvar.axes().all(|axis| axis.axis_tag != tag));
        }
        Err(error) => assert_eq!(found, Err(error)),
    }
    assert!(strict.is_ok() || kept.iter().all(|x| *x == F2Dot14::MAX));
    match found {
        Ok(()) => assert!(at.iter().all(|x| (F2Dot14::NEG_ONE..=F2Dot14::ONE).contains(x))),
        Err(error) => {
            assert!(at.iter().all(|x| *x == F2Dot14::MAX));
            assert_eq!(error == CoordinatesError::Places, at.len() != count.into());
            return None;
        }
    }
    Some(())
}

fn of_map(bytes: &[u8], random: &mut Random) -> Option<()> {
    let map = DeltaSetIndexMap::new(bytes)?;
    for index in [0, 1, random.next() as u32, u32::MAX] {
        assert!(map.get(index).is_none_or(|set| set.inner < 0x1_0000));
    }
    Some(())
}

fn of_store(store: ItemVariationStore<'_>, random: &mut Random) -> Option<()> {
    let coordinates = [(); 3].map(|()| F2Dot14::from_bits(random.next() as i16));
    let coordinates = &coordinates[..random.below(4)];
    let mut scalars = [Fixed::MIN; 16];
    let instance = store.instance(coordinates, &mut scalars)?;
    assert!(instance.store() == store && instance.coordinates() == coordinates);
    assert!(instance.scalar(store.region_count()).is_none());
    for index in [0, 1, 0x1_0000, u32::MAX, random.next() as u32 & 0x0003_0003] {
        let (set, advance) = (DeltaSetIndex::from_u32(index), UfWord::new(random.next() as u16));
        let varied = instance.vary_advance(advance, set);
        assert_eq!(store.vary_advance(advance, set, coordinates), varied);
        assert!(varied.is_none() || instance.delta(set).is_some());
        assert!(varied == Some(advance) || !set.is_no_variation());
    }
    Some(())
}

fn of_hvar(bytes: &[u8], random: &mut Random) -> Option<()> {
    let hvar = Hvar::new(bytes)?;
    for glyph in [0, 1, 0xFFFF].map(GlyphId16::new) {
        if let Some(set) = hvar.advance_set(glyph) {
            let _ = hvar.store().vary_advance(UfWord::new(500), set, &[F2Dot14::ONE]);
        }
    }
    of_store(hvar.store(), random)
}

/// What takes no table.
fn of_numbers(random: &mut Random) {
    let mut bits = || F2Dot14::from_bits(random.next() as i16);
    let (start_coord, peak_coord, end_coord) = (bits(), bits(), bits());
    let axis = RegionAxisCoordinates { start_coord, peak_coord, end_coord };
    assert!((Fixed::ZERO..=Fixed::ONE).contains(&axis.scalar(bits())));
    let text = random.next().to_be_bytes().map(|byte| b"wght=-.5"[usize::from(byte) % 8]);
    let _ = str::from_utf8(&text).unwrap().parse::<Setting>();
}

#[test]
fn broken_tables() {
    let rounds = if cfg!(debug_assertions) { 30_000 } else { 300_000 };
    let avar = words(&[&[1, 0, 0, 2][..], &MAP, &MAP].concat());
    let hvars: Vec<_> = MAPS.iter().map(|map| hvar_of_two_axes(map)).chain([hvar()]).collect();
    let mut random = Random(0x9E37_79B9_7F4A_7C15);
    let mut taken = [0; 4];
    for round in 0..rounds {
        let hvar = &hvars[round % hvars.len()];
        let fvar = if round % 2 == 0 { two_axes() } else { long_axes() };
        let [fvar, avar, map, store, hvar] =
            [&fvar, &avar, &hvar[hvar.len() - 9..], &hvar[20..], hvar]
                .map(|table: &[u8]| broken(table, &mut random));
        let found = [
            of_fvar(&fvar, &avar, &mut random),
            of_map(&map, &mut random),
            ItemVariationStore::new(&store).and_then(|store| of_store(store, &mut random)),
            of_hvar(&hvar, &mut random),
        ];
        of_numbers(&mut random);
        for (taken, found) in taken.iter_mut().zip(found) {
            *taken += usize::from(found.is_some());
        }
    }
    // Tables of each kind were taken, and not all.
    assert!(taken.iter().all(|taken| (rounds / 20..rounds).contains(taken)), "{taken:?}");
}
