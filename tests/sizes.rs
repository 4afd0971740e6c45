//! What is past the end of memory is refused, and does not wrap to what is there. Most of it is for a
//! `usize` of 32 bits, for which Rattle proves nothing.

use std::fmt::Debug;

use font_types_proved::{
    BigEndian, ByteChunks, ByteRecords, GlyphId24, Int24, LongDateTime, Nullable, Offset16,
    Offset24, Offset32, OffsetValue, Scalar, ScalarArray, Tag, Uint24,
};

/// Yields counts whose product with a size wraps to less than the size, and to less than that above
/// the half of all addresses.
fn wrapping(size: usize) -> impl Iterator<Item = usize> {
    let halves = (1..2 * size as u128).map(|n| n << (usize::BITS - 1));
    halves.map(move |it| usize::try_from(it.div_ceil(size as u128)).unwrap())
}

fn of_scalar<T: Scalar + Copy + PartialEq + Debug>(value: T)
where
    T::Raw: ByteChunks,
{
    let (mut bytes, size) = ([7; 16], T::RAW_BYTE_LEN);
    for offset in (0..20).map(|n| usize::MAX - n).chain(wrapping(size)) {
        assert_eq!(T::read_at(&bytes, offset), None);
        assert!(BigEndian::<T>::read_at(&bytes, offset).is_none());
        assert_eq!(value.write_at(&mut bytes, offset), None);
        assert_eq!(BigEndian::from(value).write_at(&mut bytes, offset), None);
        assert!(ScalarArray::<T>::read_at(&bytes, offset, 0).is_none());
        assert!(ScalarArray::<T>::read_at(&bytes, offset, 1).is_none());
    }
    let whole = bytes[..4 * size.min(4)].to_vec();
    let array = ScalarArray::<T>::new(&whole).unwrap_or_default();
    for count in wrapping(size).chain([usize::MAX, usize::MAX - 1]) {
        for offset in (0..17).chain([0_usize.wrapping_sub(count.wrapping_mul(size))]) {
            assert!(ScalarArray::<T>::read_at(&bytes, offset, count).is_none());
            assert!(ByteRecords { offset, count, size }.of(&bytes).is_none());
            assert!(ByteRecords { offset, count: size, size: count }.of(&bytes).is_none());
        }
        let mut rest = &bytes[..];
        assert!(ScalarArray::<T>::take_from(&mut rest, count).is_none() && rest.len() == 16);
        assert_eq!((array.get(count), array.slice(0..count)), (None, None));
        assert_eq!((array.slice(count..count), array.slice(count..usize::MAX)), (None, None));
    }
    assert_eq!(bytes, [7; 16]);
}

#[test]
fn offsets_and_counts() {
    of_scalar(1_u8);
    of_scalar(1_i16);
    of_scalar(Uint24::new(1));
    of_scalar(Int24::new(1));
    of_scalar(GlyphId24::new(1));
    of_scalar(1_u32);
    of_scalar(Tag::new(b"wght"));
    of_scalar(Nullable::<Offset32>::from_raw([0, 0, 0, 1]));
    of_scalar(LongDateTime::new(1));
    of_scalar([Uint24::new(1); 5]);
}

#[test]
fn offsets_to_tables() {
    let bytes = [7; 16];
    for offset in (0..20).map(|n| u32::MAX - n).chain([0x7FFF_FFFF, 0x8000_0000]) {
        let offset = Offset32::new(offset);
        assert_eq!(u64::try_from(offset.to_usize()), Ok(offset.to_u32().into()));
        assert_eq!(offset.follow(&bytes), None);
    }
    assert_eq!(Offset24::new(Uint24::MAX).follow(&bytes), None);
    assert_eq!(Offset16::new(0xFFFF).follow(&bytes), None);
}
