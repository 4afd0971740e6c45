//! 24-bit integers, font units, ids, versions, dates and offsets.

use compare::{Random, assert_same, sampled};

fn assert_same_24_bits(n: u32) {
    let (i, [_, b, c, d]) = (n as i32, n.to_be_bytes());
    assert_same!(n, |k| {
        let x = k::Uint24::from_be_bytes([b, c, d]);
        let new = k::Uint24::new(n);
        (new.to_u32(), new.to_be_bytes(), x.to_u32(), x.to_be_bytes())
    });
    assert_same!(n, |k| k::Uint24::checked_new(n).map(u32::from));
    assert_same!(n, |k| k::Uint24::try_from(n as usize).ok().map(usize::from));
    assert_same!(n, |k| {
        let x = k::Int24::from_be_bytes([b, c, d]);
        let new = k::Int24::new(i);
        (new.to_i32(), new.to_be_bytes(), x.to_i32(), x.to_be_bytes())
    });
    assert_same!(n, |k| k::Int24::checked_new(i).map(i32::from));
    assert_same!(n, |k| {
        let new = k::GlyphId24::new(n);
        let wide = k::GlyphId::from(new);
        let wide = (wide.to_u32(), u32::from(wide), usize::from(new), k::GlyphId::from(n).to_u32());
        let read = k::GlyphId24::from_be_bytes([b, c, d]);
        let checked = k::GlyphId24::checked_new(n).map(|id| id.to_u32());
        let narrowed = k::GlyphId24::try_from(k::GlyphId::new(n)).ok();
        let narrowed = narrowed.map(u32::from);
        (new.to_u32(), new.to_be_bytes(), checked, narrowed, wide, read.to_string())
    });
    assert_same!(n, |k| {
        let offset = k::Offset24::new(k::Uint24::new(n));
        (offset.to_u32(), offset.is_null(), offset == n)
    });
}

#[test]
fn integers_of_24_bits() {
    let ends = [0, 1 << 23, 1 << 24, 1 << 31].map(|end: u32| end.wrapping_sub(300)..end + 300);
    let numbers =
        sampled().chain(ends.into_iter().flatten()).chain(0..300).chain(u32::MAX - 300..=u32::MAX);
    numbers.for_each(assert_same_24_bits);
    for n in sampled().step_by(8).chain((1 << 23) - 300..(1 << 23) + 300) {
        assert_same!(n, |k| {
            let (x, y) = (k::Uint24::new(n), k::Int24::new(n as i32));
            format!("{x} {y} {x:?} {y:>12}")
        });
    }
}

#[test]
fn ids_and_units_of_16_bits() {
    for n in 0..=u16::MAX {
        let i = n as i16;
        assert_same!(n, |k| {
            let (x, y) = (k::FWord::new(i), k::UfWord::new(n));
            let numbers = (x.to_i16(), i16::from(x), y.to_u16(), u16::from(y));
            let same = (x == k::FWord::from(i), y == k::UfWord::from(n));
            let fixed = [x.to_fixed(), y.to_fixed()].map(k::Fixed::to_bits);
            let bytes = [x.to_be_bytes(), y.to_be_bytes()];
            (numbers, same, fixed, bytes, format!("{x} {x:+} {y:>7}"))
        });
        assert_same!(n, |k| {
            let id = k::GlyphId16::new(n);
            let wide =
                [k::GlyphId::from(id), k::GlyphId::from(n), k::GlyphId::new(u32::from(n) + 1)];
            let same = wide.map(|wide| (wide == id, id == wide));
            let numbers = (id.to_u32(), usize::from(id), k::GlyphId16::from(n).to_u16());
            (id.to_u16(), numbers, same, id.to_be_bytes(), id.to_string())
        });
        assert_same!(n, |k| {
            let id = k::NameId::new(n);
            let sums = [0, 1, n, 32767 - n % 32768, u16::MAX];
            let sums = sums.map(|more| id.checked_add(more).map(k::NameId::to_u16));
            let place = k::NameId::predefined().position(|other| other == id);
            let is_same = id == k::NameId::from(n);
            let number = (id.to_u16(), is_same, id.is_reserved(), id.to_be_bytes());
            (number, sums, place, format!("{id} {id:?}"))
        });
        assert_same!(n, |k| {
            let offset = k::Offset16::new(n);
            let order = (offset == 7, offset < k::Offset16::new(300));
            (offset.to_u32(), offset.is_null(), order)
        });
    }
}

#[test]
fn versions_ids_and_dates() {
    let mut random = Random::new(1);
    for _ in 0..500_000 {
        let mut number = || random.u64() as u32 >> random.below(32);
        let (m, n) = (number(), number());
        let [[a, b], [c, d]] = [m, n].map(|n| [(n >> 16) as u16, n as u16]);
        let seconds = random.signed(64);
        assert_same!((m, n), |k| {
            let of = |n: u32| <k::Version16Dot16 as k::Scalar>::from_raw(n.to_be_bytes());
            let [x, y] = [m, n].map(of);
            let new = k::Version16Dot16::new(a, b);
            let bytes = (x.to_be_bytes(), new.to_be_bytes());
            let text = format!("{new} {new:?}");
            (x.to_major_minor(), bytes, x == y, x.cmp(&y), text)
        });
        assert_same!((m, n), |k| {
            use k::Compatible;
            let [a, b, c, d] = [a % 3, b % 12, c % 3, d % 12];
            let (x, y) = (k::Version16Dot16::new(a, b), k::Version16Dot16::new(c, d));
            let (v, w) = (k::MajorMinor::new(a, b), k::MajorMinor::new(c, d));
            let packed = (x.compatible(y), x.compatible((c, d)));
            let pairs = (v.compatible(w), v.compatible((c, d)));
            (packed, pairs, a.compatible(c))
        });
        assert_same!((m, n), |k| {
            let (v, w) = (k::MajorMinor::new(a, b), k::MajorMinor::new(c, d));
            let numbers = (v.major, v.minor, v.to_be_bytes());
            (numbers, v == w, v.cmp(&w), format!("{v} {v:?}"))
        });
        assert_same!((m, n), |k| {
            let (wide, narrow) = (k::GlyphId::new(m), k::GlyphId16::new(d));
            let order = (wide.partial_cmp(&narrow), narrow.partial_cmp(&wide));
            let narrowed = k::GlyphId16::try_from(wide).map(u32::from);
            let narrowed = narrowed.map_err(|error| format!("{error} {error:?}"));
            (narrowed, order, wide == narrow, wide.to_string())
        });
        assert_same!((m, n), |k| {
            let [x, y] = [m, n].map(k::Offset32::new);
            let raw = [0, 0, (b % 2) as u8, (a % 2) as u8];
            let null = <k::Nullable<k::Offset32> as k::Scalar>::from_raw(raw);
            let read = <k::Nullable<k::Offset32> as k::Scalar>::read(&raw);
            let default = k::Nullable::<k::Offset32>::default();
            let copies = (read == Some(null), null == default, *null.offset() == x);
            let nullable = (null.is_null(), null == 1, copies, k::Scalar::to_raw(null));
            (x.to_u32(), x.is_null(), x == n, x.cmp(&y), nullable)
        });
        assert_same!(seconds, |k| {
            let date = k::LongDateTime::new(seconds);
            let order = date.cmp(&k::LongDateTime::new(0));
            (date.as_secs(), date.to_be_bytes(), order)
        });
    }
}
