//! The hand-written impls of `src/traits.rs`.

use font_types_proved::*;
use std::cell::Cell;
use std::cmp::Ordering::{self, Equal, Greater, Less};
use std::collections::{BTreeMap, HashMap, HashSet};
use std::error::Error;
use std::fmt::{self, Debug, Write};
use std::hash::{BuildHasher, Hash};
use std::iter::FusedIterator;

/// Asserts that the values have these texts, and that all of them and their hashes differ, wherever
/// they are.
fn assert_distinct<T: Clone + Eq + Hash + Debug>(values: &[T], texts: &[&str]) {
    let printed: Vec<String> = values.iter().map(|value| format!("{value:?}")).collect();
    assert_eq!(printed, texts);
    let set: HashSet<T> = values.iter().chain(values).cloned().collect();
    // Copies in other places have the same hashes.
    let copies: Vec<Box<T>> = values.iter().cloned().map(Box::new).collect();
    let copied = copies.iter().map(|value| set.hasher().hash_one(&**value));
    let hashes: Vec<u64> = values.iter().map(|value| set.hasher().hash_one(value)).collect();
    assert!(hashes.iter().copied().eq(copied), "{values:?}");
    let hashes: HashSet<u64> = hashes.into_iter().collect();
    assert_eq!([set.len(), hashes.len()], [values.len(); 2], "{values:?}");
    for (n, value) in values.iter().enumerate() {
        let found = values.iter().position(|other| other == value);
        assert_eq!(found, Some(n), "{value:?}");
    }
}

/// Takes so many calls, and refuses those after them.
struct Calls(i32);

impl Write for Calls {
    fn write_str(&mut self, _: &str) -> fmt::Result {
        self.0 -= 1;
        if self.0 < 0 { Err(fmt::Error) } else { Ok(()) }
    }
}

#[test]
fn nothing_is_printed_after_an_error() {
    macro_rules! assert_stops {
        ($($value:expr;)*) => {$(
            for calls in 0.. {
                let (value, mut left) = ($value, Calls(calls));
                if write!(left, "{value}{value:+09}").is_ok() {
                    break;
                }
                assert_eq!(left.0, -1, "{value}, which may call {calls} times");
            }
        )*};
    }
    assert_stops! {
        F2Dot14::ONE; Fixed::NEG_ONE; F48Dot16::ONE; Shortest::new(-3, 6); DecimalFault::Syntax;
        BigEndian::from(Fixed::ONE); Int24::new(-7); Uint24::new(7); FWord::new(-7); UfWord::new(7);
        GlyphId16::new(7); GlyphId24::new(7); GlyphId::new(7); NameId::new(7); Tag::new(b"a\0b ");
        MajorMinor::new(1, 2); Version16Dot16::new(1, 5); InvalidTag::InvalidLength(5);
        GlyphId16::try_from(GlyphId::new(1 << 16)).unwrap_err();
        Uint24::try_from(1 << 24).unwrap_err();
    }
}

#[test]
fn debug_and_hash_of_padding() {
    let aligns = [Align::Left, Align::Center, Align::Right];
    assert_distinct(&aligns, &["Left", "Center", "Right"]);
    let [mut filled, mut left, mut plus, mut zeros] = [Pad::new(3); 4];
    filled.fill = b'*';
    left.align = Align::Left;
    plus.plus = true;
    zeros.zeros = true;
    let both = Pad { plus: true, ..zeros };
    let unused = Pad { fill: b'*', ..zeros };
    assert_distinct(
        &[Pad::new(3), Pad::new(4), filled, left, plus, zeros, both, unused],
        &[
            "Pad { width: 3, fill: 32, align: Right, plus: false, zeros: false }",
            "Pad { width: 4, fill: 32, align: Right, plus: false, zeros: false }",
            "Pad { width: 3, fill: 42, align: Right, plus: false, zeros: false }",
            "Pad { width: 3, fill: 32, align: Left, plus: false, zeros: false }",
            "Pad { width: 3, fill: 32, align: Right, plus: true, zeros: false }",
            "Pad { width: 3, fill: 32, align: Right, plus: false, zeros: true }",
            "Pad { width: 3, fill: 32, align: Right, plus: true, zeros: true }",
            "Pad { width: 3, fill: 42, align: Right, plus: false, zeros: true }",
        ],
    );
}

#[test]
fn debug_and_hash_of_shortest() {
    let texts = [-3, 96, 95, 64, 640, 0].map(|bits| Shortest::new(bits, 6));
    assert_eq!(texts[0].as_ref() as &str, "-0.05");
    assert_eq!(texts[4].as_ref() as &str, "10");
    assert_eq!(texts[1].to_string(), "1.5");
    let debug = ["-0.05", "1.5", "1.48", "1", "10", "0"].map(|text| format!("Shortest({text:?})"));
    assert_distinct(&texts, &debug.each_ref().map(|text| &**text));
    // Equal texts are equal, whatever the type of their numbers.
    let ones = [Shortest::new(64, 6), Shortest::new(0x1_0000, 16)];
    assert_eq!(HashSet::from(ones).len(), 1);
}

#[test]
fn debug_and_hash_of_numbers() {
    assert_distinct(&[F2Dot14::MIN, F2Dot14::MAX], &["-2", "1.99994"]);
    assert_distinct(&[Fixed::MIN, Fixed::MAX], &["-32768", "32767.99998"]);
    let texts = ["-140737488355328", "140737488355327.99998"];
    assert_distinct(&[F48Dot16::MIN, F48Dot16::MAX], &texts);
}

/// Does not compile for a type that has the trait.
macro_rules! is_not {
    ($Type:ty: $Trait:path) => {{
        trait Has<Of> {
            fn any() {}
        }

        struct Trait;

        impl<T> Has<()> for T {}

        impl<T: $Trait> Has<Trait> for T {}

        <$Type as Has<_>>::any();
    }};
}

#[test]
fn traits_that_types_do_not_have() {
    is_not!(GlyphId: Scalar);
    is_not!(F26Dot6: Scalar);
    is_not!(F48Dot16: Scalar);
    is_not!(Offset16: Hash);
    is_not!(Offset24: Hash);
    is_not!(Offset32: Hash);
    is_not!(Offset24: Default);
    is_not!(Nullable<Offset24>: Ord);
    is_not!(Nullable<Offset24>: IdentityEq);
    is_not!(Fixed: RingElement);
}

#[test]
fn iterators() {
    fn is_exact(iterator: impl ExactSizeIterator + FusedIterator + Clone + Debug) -> String {
        assert_eq!(iterator.len(), iterator.clone().count());
        format!("{iterator:?}")
    }
    let names = is_exact(NameId::predefined());
    assert!(names.starts_with("[COPYRIGHT_NOTICE, FAMILY_NAME, ") && names.ends_with("_PREFIX]"));
    let mut last = NameId::predefined();
    last.nth(23);
    assert_eq!(is_exact(last), "[VARIATIONS_POSTSCRIPT_NAME_PREFIX]");
    let array = ScalarArray::<u16>::new(&[0, 1, 0, 4]).unwrap();
    assert_eq!(is_exact(array.into_iter()), "[1, 4]");
    fn is_fused(_: impl ExactSizeIterator + DoubleEndedIterator + FusedIterator + Clone) {}
    is_fused(array.iter());
    let numbers: Vec<u16> = (0..300).collect();
    let bytes: Vec<u8> = numbers.iter().flat_map(|n| n.to_be_bytes()).collect();
    let array = ScalarArray::<u16>::new(&bytes).unwrap();
    assert_eq!(format!("{array:?}"), format!("{numbers:?}"));
    let mut ended = NameId::predefined();
    let found = [ended.nth(25), ended.next(), ended.next()];
    assert_eq!(found, [None; 3]);
}

#[test]
fn errors() {
    fn texts<T: Error + Copy + Send + Sync + 'static>(error: T) -> String {
        format!("{} {error:?}", Box::<dyn Error>::from(error))
    }
    let error = |id| GlyphId16::try_from(GlyphId::new(id)).unwrap_err();
    for other in [70_001, 70_000 + 0x1_0000, 70_000 + 0x100_0000] {
        assert!(error(70_000) == error(70_000) && error(70_000) != error(other));
        assert!(error(other) != error(70_000), "{other}");
    }
    assert_eq!(Uint24::try_from(usize::MAX), Err(TryFromUint24Error));
    let found = [
        texts(error(70_000)),
        texts(Uint24::try_from(1usize << 24).unwrap_err()),
        texts(DecimalFault::Syntax),
        texts(DecimalFault::OutOfRange),
        texts(InvalidTag::InvalidLength(9)),
        texts(InvalidTag::InvalidByte { pos: 3, byte: 0xAB }),
        texts(InvalidTag::ByteAfterSpace { pos: 2 }),
    ];
    let right = "\
glyph identifier 70000 too large for conversion TryFromGlyphIdError(70000)
failed to convert usize value into Uint24. TryFromUint24Error
not a decimal number Syntax
number out of range OutOfRange
Invalid length (9) InvalidLength(9)
Invalid byte 0xAB at index 3 InvalidByte { pos: 3, byte: 171 }
Non-space character after first space ByteAfterSpace { pos: 2 }";
    assert_eq!(found.join("\n"), right);
    let codes = [DecimalFault::Syntax, DecimalFault::OutOfRange];
    assert_eq!(codes.map(|fault| fault as i32), [1, 2]);
}

#[test]
fn copy_send_and_sync() {
    fn is_copy<T: Copy + Send + Sync>(_: T) {}
    let table = TableDataRef::<SampleHeader>::new(&[0, 1, 0, 3, 0, 2, 7]).unwrap();
    let right = "TableDataRef([0, 1, 0, 3, 0, 2, 7]) SampleHeader { a: 1, b: 196610 }";
    assert_eq!(format!("{table:?} {:?}", table.header()), right);
    is_copy((table, table.header()));
    is_copy(ScalarArray::<Tag>::new(&[]).unwrap());
    is_copy((Nullable::<Offset24>::default(), BigEndian::<i64>::from(0)));
    is_copy((Matrix::<Fixed>::default(), Point::new(0i32, 0)));
    is_copy((BoundingBox::<i16>::default(), DeltaSum::new(), Pad::new(0)));
}

#[test]
fn compare_glyph_ids_of_different_widths() {
    let rows: [(u32, u16, Ordering); 7] = [
        (65536, 65535, Greater),
        (6, 5, Greater),
        (5, 6, Less),
        (6, 6, Equal),
        (0x1_0005, 5, Greater),
        (u32::MAX, 0xFFFF, Greater),
        (0xFFFF, 0xFFFF, Equal),
    ];
    for (wide, narrow, order) in rows {
        let (wide, narrow) = (GlyphId::new(wide), GlyphId16::new(narrow));
        let found = (wide.partial_cmp(&narrow), narrow.partial_cmp(&wide));
        assert_eq!(found, (Some(order), Some(order.reverse())), "{wide} {narrow}");
        assert_eq!([wide == narrow, narrow == wide], [order == Equal; 2], "{wide} {narrow}");
    }
}

#[test]
fn compare_offsets_with_numbers() {
    fn assert_equal_to<T>(offset: T, number: u32)
    where
        T: OffsetValue + Scalar + PartialEq<u32>,
    {
        let nullable = Nullable::<T>::read(offset.to_raw().as_slice()).unwrap();
        for other in [0, 7, 8, 0xFFFF, 0x1_0000, 0x1_0007, 0x100_0007, 0x8000_0007, !0] {
            let found = [offset == other, nullable == other];
            assert_eq!(found, [number == other; 2], "{number:#X} {other:#X}");
        }
    }
    for n in [0, 7, 0xFFFF, 0x1_0000, 0x1_0007, 0x100_0007, 0x8000_0007] {
        assert_equal_to(Offset16::new(n as u16), n & 0xFFFF);
        assert_equal_to(Offset24::new(Uint24::new(n)), n.min(0xFF_FFFF));
        assert_equal_to(Offset32::new(n), n);
    }
}

#[test]
fn compare_tags_with_texts() {
    let kern = Tag::new(b"kern");
    for text in ["kern", "kerm", "Kern", "ker", "ker ", "kern ", "kern\0", "kern\n", ""] {
        let found = [kern == *text, kern == text, kern == text.as_bytes()];
        assert_eq!(found, [text == "kern"; 3], "{text}");
    }
    assert!(kern == *b"kern" && kern != *b"Kern" && kern != *b"kerm");
    assert!(Tag::new(b"cvt ") == "cvt " && Tag::new(b"cvt ") != "cvt" && Tag::default() != "");
    assert!(Tag::new(b"cvt ") == *b"cvt " && Tag::new(b"cvt ") != *b"cvt\0");
    assert!(Tag::default() != b"".as_slice());
    // Each form of the bytes and of the text, and another tag.
    for (bytes, text, same) in [(b"cvt ", "cvt ", true), (b"cvt\0", "cvt", false)] {
        let tag = Tag::new(b"cvt ");
        assert_eq!([tag == *bytes, tag == bytes, bytes == tag], [same; 3], "{text}");
        assert_eq!([tag == *text, tag == text, tag == bytes.as_slice()], [same; 3], "{text}");
    }
    assert_eq!(BTreeMap::from([(kern, 1)]).get(b"kern"), Some(&1));
    assert_eq!(HashMap::from([(kern, 1)]).get(b"kern"), Some(&1));
    assert_eq!(AsRef::<[u8]>::as_ref(&Tag::new(b"a\0b ")), b"a\0b ");
}

#[test]
fn compare_fields_with_values() {
    let field = BigEndian::<i16>::from;
    assert!(field(-1) == -1 && field(-1) != 255 && field(0x100) != 0 && field(0x102) != 0x103);
    assert!(field(-1) < field(0) && field(0xFF) < field(0x100) && field(-1) != field(0x00FF));
    assert_eq!(HashSet::from([field(1), field(1), field(256)]).len(), 2);
    assert_eq!(BigEndian::<NameId>::default().get(), NameId::new(0xFFFF));
}

#[test]
fn sums_of_terms() {
    let many = vec![(Fixed::ONE, -1 << 20); 65_537];
    let mut sum = DeltaSum::from_iter(many.iter().copied());
    assert_eq!(sum.checked_finish(), Some(F48Dot16::from_i64(-65_537 << 20)));
    sum.extend([(Fixed::ZERO, 5), (Fixed::EPSILON, 1)]);
    assert_eq!(
        sum.checked_finish(),
        checked_delta_sum(&[&many[..], &[(Fixed::EPSILON, 1)]].concat())
    );
}

/// A borrowed array, and its iterator, can be taken for those of a shorter borrow.
#[test]
fn lifetimes() {
    fn shortened<'a>(
        array: ScalarArray<'static, u16>,
        _borrow: &'a [u8],
    ) -> (ScalarArray<'a, u16>, ScalarArrayIter<'a, u16>) {
        (array, array.into_iter())
    }
    let local = vec![0, 2];
    let (array, mut numbers) = shortened(ScalarArray::new(&[0, 1]).unwrap(), &local);
    let arrays = [array, ScalarArray::new(&local).unwrap()];
    assert_eq!((arrays.map(|array| array.get(0)), numbers.next()), ([Some(1), Some(2)], Some(1)));
}

/// A scalar that counts how many were decoded in this thread.
#[derive(Clone, Copy, Debug, PartialEq)]
struct Counted(u8);

thread_local! {
    static DECODED: Cell<usize> = const { Cell::new(0) };
}

impl FixedSize for Counted {
    const RAW_BYTE_LEN: usize = 1;
}

impl Scalar for Counted {
    type Raw = [u8; 1];

    fn from_raw([byte]: [u8; 1]) -> Self {
        DECODED.set(DECODED.get() + 1);
        Self(byte)
    }

    fn to_raw(self) -> [u8; 1] {
        [self.0]
    }
}

// Each element that is passed is decoded, but not those of the raw bytes.
#[test]
fn decoded_elements() {
    let bytes: Vec<u8> = (0..=255).collect();
    let array = ScalarArray::<Counted>::new(&bytes).unwrap();
    let rest = array.slice(200..256).unwrap();
    let raw = array.as_raw().iter().map(|raw| Counted::from_raw(*raw));
    for (decoded, last, mut found) in [
        (1, 200, Box::new(rest.iter().take(1)) as Box<dyn Iterator<Item = Counted>>),
        (1, 200, Box::new(rest.into_iter().take(1))),
        (201, 200, Box::new(array.iter().skip(200).take(1))),
        (201, 200, Box::new(array.into_iter().skip(200).take(1))),
        (256, 240, Box::new(array.iter().step_by(16))),
        (256, 255, Box::new(raw)),
    ] {
        assert_eq!((found.by_ref().last(), DECODED.take()), (Some(Counted(last)), decoded));
    }
    let stepped = array.as_raw().iter().step_by(16).map(|raw| Counted::from_raw(*raw));
    assert_eq!((stepped.max_by_key(|it| it.0), DECODED.take()), (Some(Counted(240)), 16));
    assert_eq!(
        (array.get(200), array.last(), DECODED.take()),
        (Some(Counted(200)), Some(Counted(255)), 2)
    );
}

/// A user's traits with methods that the library's have too: a call names its trait.
trait Taken: Scalar {
    fn take_from(bytes: &mut &[u8]) -> Self {
        <Self as Scalar>::take_from(bytes).unwrap()
    }
}

/// As in read-fonts, whose calls by value have to mean this method.
trait Resolved: OffsetValue {
    fn resolve(&self, table: &[u8]) -> usize {
        self.follow(table).map_or(0, <[u8]>::len)
    }
}

/// Of a method that takes `&self`, a call by value means the library's.
trait Emitted: Scalar + Copy {
    fn write_at(&self, bytes: &mut [u8], at: usize) -> usize {
        self.to_raw().as_slice().iter().zip(&mut bytes[at..]).map(|(n, to)| *to = *n).count()
    }
}

impl<T: Scalar> Taken for T {}
impl<T: OffsetValue> Resolved for T {}
impl<T: Scalar + Copy> Emitted for T {}

#[test]
fn methods_of_two_traits() {
    let mut bytes = &[0, 3, 9][..];
    assert_eq!(<Offset16 as Taken>::take_from(&mut bytes), Offset16::new(3));
    assert_eq!((Offset16::new(3).resolve(&[0; 10]), Offset16::new(0).resolve(bytes)), (7, 0));
    let mut bytes = [9; 3];
    assert_eq!((0x0102_u16.write_at(&mut bytes, 2), bytes), (None, [9; 3]));
    assert_eq!((Emitted::write_at(&0x0102_u16, &mut bytes, 2), bytes), (1, [9, 9, 1]));
}
