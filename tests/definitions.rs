//! Definitions for which no test of Rattle has values and `font-types` has no call: against exact
//! arithmetic and std, and over elements of a caller. Of functions that `tools/smt` proves, a row
//! or two.

mod exact;

use exact::{fits, near, up, wrap};
use font_types_proved::*;
use std::cell::RefCell;
use std::fmt::Debug;
use std::ops::*;

// ---- numbers

macro_rules! one_of_each_width {
    ($($name:ident $Type:ident $bits:ident $f:literal $longest:literal;)*) => {$(
        #[test]
        fn $name() {
            // Half of 1 is a tie, and the sum of it and the largest value overflows.
            let half = 1 << ($f - 1);
            let [x, y, z] = [half, $bits::MAX, $bits::MIN].map($Type::from_bits);
            let [mut sum, mut difference] = [x; 2];
            sum += y;
            difference -= z;
            let wrapped = [x.round(), x.ceil(), -x, (-x).abs(), x + y, sum, x - z, difference];
            let [more, less] = [$bits::MIN + half - 1, $bits::MIN + half];
            let right = [2 * half, 2 * half, -half, half, more, more, less, less];
            let calls = "round, ceil, -, abs, +, +=, - and -=";
            assert_eq!(wrapped.map($Type::to_bits), right, "{calls}");
            assert_eq!([x.saturating_add(y), z.saturating_sub(x)], [y, z]);
            let checked = [
                (x.checked_round(), y.checked_round(), 2 * half),
                (x.checked_ceil(), y.checked_ceil(), 2 * half),
                (x.checked_neg(), z.checked_neg(), -half),
                ((-x).checked_abs(), z.checked_abs(), half),
                (x.checked_add(x), x.checked_add(y), 2 * half),
                (x.checked_sub(x), z.checked_sub(x), 0),
            ];
            for (row, (found, none, right)) in checked.into_iter().enumerate() {
                assert_eq!((found, none), (Some($Type::from_bits(right)), None), "row {row}");
            }
            assert_eq!([$Type::max_text_len(), $Type::MAX_TEXT_LEN], [$longest; 2]);
            assert_eq!([x, y, z].map(|n| $Type::from_be_bytes(n.to_be_bytes())), [x, y, z]);
            for text in ["-0", "+1", "--1", "1\0", "\n1", "1/", "1:", "1_0", "\u{661}", "1.5a"] {
                let right = if text == "-0" { Ok($Type::ZERO) } else { Err(DecimalFault::Syntax) };
                let found = [text.parse(), $Type::from_decimal_bytes(text.as_bytes())];
                assert_eq!(found, [right; 2], "{text:?}");
            }
            let printed = [$Type::MAX.to_decimal(), Shortest::new($bits::MAX.into(), $f)];
            assert_eq!(printed.map(|text| text.as_str().parse()), [Ok($Type::MAX); 2]);
        }
    )*};
}

one_of_each_width! {
    f2dot14 F2Dot14 i16 14 8;
    f2dot30 F2Dot30 i32 30 13;
    f48dot16 F48Dot16 i64 16 22;
}

#[test]
fn lengths_of_the_longest_texts() {
    let found = [F4Dot12::MAX_TEXT_LEN, F6Dot10::MAX_TEXT_LEN, F26Dot6::MAX_TEXT_LEN];
    assert_eq!((found, Fixed::MAX_TEXT_LEN), ([7, 8, 12], 12));
}

/// Returns the raw values whose products and quotients are tested.
fn factors() -> impl Iterator<Item = i32> {
    let factors = [0, 3, 64, 0x7FFF, 0x8000, 0x1_0000, 0x123_4567, 0x4000_0001, i32::MAX];
    factors.into_iter().flat_map(|n| [n, -n, !n])
}

#[test]
fn numbers_of_ids_offsets_and_versions() {
    let (n, long, middle) = (0x8001, 0x8001, Uint24::new(0x8001));
    let numbers: [u16; 3] =
        [GlyphId16::new(n).into(), NameId::from(n).into(), UfWord::from(n).into()];
    assert_eq!(numbers, [n; 3]);
    let indices = [
        GlyphId16::new(n).to_usize(),
        GlyphId24::new(long).to_usize(),
        GlyphId::from(n).to_usize(),
        Offset16::new(n).to_usize(),
        Offset24::new(middle).to_usize(),
        Offset24::new(middle).into(),
        Offset32::new(long).to_usize(),
        middle.into(),
    ];
    assert_eq!(indices, [0x8001; 8]);
    let (word, signed) = (UfWord::new(n), FWord::new(-0x7FFF));
    assert_eq!([i32::from(word), signed.into()], [0x8001, -0x7FFF]);
    assert_eq!(Fixed::from(signed), Fixed::from_i32(-0x7FFF));
    let nullable = |raw| Nullable::<Offset16>::from_raw(raw).get();
    assert_eq!([nullable([0, 0]), nullable([0, 1])], [None, Some(Offset16::new(1))]);
    assert_eq!(Tag::from_u32(long).to_u32(), long);
    assert!(NameId::new(255).is_reserved() && !NameId::new(256).is_reserved());
    assert!(MajorMinor::new(2, 5).compatible((2, 5)) && !MajorMinor::new(2, 4).compatible((2, 5)));
}

/// Of as many terms as no solver goes through one by one.
#[test]
fn deltas() {
    let (many, mut sum) = ([(Fixed::MIN, i32::MIN); 65], DeltaSum::default());
    for (scalar, delta) in many {
        sum.add_product(scalar, delta);
        sum += DeltaSum::new();
    }
    // Exactly 65 times 2^62, of which 64 are taken again.
    assert_eq!([sum.checked_finish(), checked_delta_sum(&many)], [None; 2]);
    many[1..]
        .iter()
        .for_each(|_| (0..2).for_each(|_| sum.add_product(Fixed::from_bits(1 << 30), i32::MIN)));
    assert_eq!(sum.checked_finish(), Some(F48Dot16::from_bits(1 << 62)));
    assert!(sum != DeltaSum::new() && checked_delta_sum(&many[..2]).is_none());
    // Partial sums beyond 64 bits, of values with a fraction.
    for bits in [i64::MAX, i64::MAX, 3, i64::MIN, i64::MIN, -(1 << 62)] {
        sum += F48Dot16::from_bits(bits);
    }
    assert_eq!(sum.checked_finish(), Some(F48Dot16::from_bits(1)));
    let many = vec![(Fixed::ONE, 1); 65_537];
    assert_eq!(checked_delta_sum(&many), Some(F48Dot16::from_i32(65_537)));
    assert_eq!(delta_sum(&many), F48Dot16::from_i32(65_537));
}

// ---- decimals

#[test]
fn any_fraction_bits() {
    for (bits, f, text) in [
        (1, 30, "0.000000001"),
        (22, 30, "0.0000000205"),
        (-2147483641, 30, "-1.9999999935"),
        (i64::MIN + 7, 30, "-8589934591.9999999935"),
        (i64::MAX, 24, "549755813887.99999994"),
        (i64::MIN, 24, "-549755813888"),
        (1, 20, "0.000001"),
        (i64::MAX, 7, "72057594037927935.99"),
        (i64::MAX, 6, "144115188075855871.98"),
    ] {
        assert_eq!(Shortest::new(bits, f).as_str(), text, "{bits} of {f}");
        assert_eq!(read_decimal(text, f, i64::MIN, i64::MAX), Ok(bits), "{text} of {f}");
    }
    // Half a unit of 18 fraction bits is the last whose digits are read in 64 bits.
    let (out, zeros, nines) = (Err(DecimalFault::OutOfRange), "0".repeat(6_000), "9".repeat(5_000));
    for (text, f, min, max, right) in [
        ("0.00000095367431640625", 19, -9, 9, Ok(1)),
        ("0.00000095367431640624", 19, -9, 9, Ok(0)),
        ("0.0000019073486328125", 18, -9, 9, Ok(1)),
        ("0.0000019073486328124", 18, -9, 9, Ok(0)),
        ("0.99999999999999999999", 19, -9, 1 << 19, Ok(1 << 19)),
        ("0.9999999999999999999999999999999", 30, -9, 1 << 30, Ok(1 << 30)),
        ("1.5", 6, -100, 96, Ok(96)),
        ("1.5", 6, -100, 95, out),
        ("-1.5", 6, -96, 100, Ok(-96)),
        ("-1.5", 6, -95, 100, out),
        ("-140737488355328", 16, i64::MIN, i64::MAX, Ok(i64::MIN)),
        ("-140737488355329", 16, i64::MIN, i64::MAX, out),
        // The last digit decides on which side of a tie it is, however late it comes.
        (&format!("-{zeros}1.{zeros}"), 16, i64::MIN, i64::MAX, Ok(-0x1_0000)),
        (&format!("0.000007629394531249{nines}"), 16, -9, 9, Ok(0)),
        (&format!("0.000007629394531249{zeros}a"), 16, -9, 9, Err(DecimalFault::Syntax)),
        (&format!("{nines}.{zeros}a"), 16, -9, 9, Err(DecimalFault::Syntax)),
    ] {
        assert_eq!(read_decimal(text, f, min, max), right, "{text:.30} of {f}");
        assert_eq!(read_decimal_bytes(text.as_bytes(), f, min, max), right, "{text:.30} of {f}");
    }
    assert_eq!(read_decimal_bytes(b"1.5\xFF", 16, -9, 9), Err(DecimalFault::Syntax));
    let found = laws::reads_in_order("0.5", "-1", 6, -64, 64);
    assert_eq!(found, (Ok(32), Ok(-64)));
    let (less, greater) = laws::prints_in_order(9830, 9831, 14);
    assert_eq!((less.as_str(), greater.as_str()), ("0.6", "0.60004"));
}

#[test]
fn padded_texts() {
    let (left, center, right) = (Align::Left, Align::Center, Align::Right);
    let long = format!("1.{}5", "0".repeat(70_000));
    for (text, width, align, plus, zeros, padded) in [
        ("1.5", 6, left, false, false, "1.5***"),
        ("1.5", 6, center, false, false, "*1.5**"),
        ("-1.5", 7, center, true, false, "*-1.5**"),
        ("1.5", 6, right, true, false, "**+1.5"),
        ("1.5", 3, right, false, true, "1.5"),
        ("1.5", 7, left, true, true, "+0001.5"),
        ("-1.5", 6, center, false, true, "-001.5"),
        ("0", 1, left, true, false, "+0"),
        ("-0", 4, left, true, true, "-000"),
        ("-00.50", 0, left, true, false, "-00.50"),
        ("", 0, right, false, false, ""),
        ("1", 5000, right, true, true, &format!("+{}1", "0".repeat(4998))),
        (&long, 0, left, true, false, &format!("+{long}")),
    ] {
        let (pad, len) = (Pad { width, fill: b'*', align, plus, zeros }, padded.len());
        let mut out = vec![b'~'; len + 1];
        let short =
            len.checked_sub(1).and_then(|short| write_padded(text, &mut out[..short], &pad));
        assert_eq!((short, &*out), (None, &*vec![b'~'; len + 1]), "{pad:?}");
        assert_eq!(write_padded(text, &mut out, &pad), Some(len), "{pad:?}");
        assert_eq!(out, format!("{padded}~").as_bytes(), "{pad:?}");
    }
}

// ---- scalars and arrays

/// Asserts that the value has these bytes, as a scalar, a field and an element of an array.
fn assert_stored<T: Scalar<Raw: ByteChunks> + Copy + PartialEq + Debug>(value: T, bytes: &[u8]) {
    let (len, after) = (bytes.len(), [&[7], bytes].concat());
    assert_eq!((T::RAW_BYTE_LEN, value.to_raw().as_slice()), (len, bytes), "{value:?}");
    assert_eq!([T::read(bytes), T::read(&after), T::read(&bytes[1..])], [Some(value), None, None]);
    for (offset, read) in [(1, Some(value)), (2, None), (usize::MAX, None)] {
        let field = BigEndian::<T>::read_at(&after, offset).map(|field| field.get());
        assert_eq!([T::read_at(&after, offset), field], [read; 2], "{value:?} at {offset}");
        let mut found = [vec![9; len + 1], vec![9; len + 1]];
        let [scalar, of_field] = &mut found;
        let written =
            [value.write_at(scalar, offset), BigEndian::from(value).write_at(of_field, offset)];
        assert_eq!(written, [read.map(|_| ()); 2], "{value:?} at {offset}");
        let right = if read.is_some() { [&[9], bytes].concat() } else { vec![9; len + 1] };
        assert!(found == [&*right; 2], "{value:?} at {offset}: {found:?}");
    }
    let mut field = BigEndian::from(T::read(&vec![0; len]).unwrap());
    field.set(value);
    assert!(
        field == value
            && field == BigEndian::from_slice(bytes).unwrap()
            && field.be_bytes() == bytes
    );
    let all = bytes.repeat(4);
    let array = ScalarArray::<T>::new(&all).unwrap();
    assert!(array.into_iter().eq([value; 4]) && array.iter().rev().eq([value; 4]), "{array:?}");
    assert_eq!(ScalarArray::<T>::new(&after).is_some(), len == 1, "{value:?}");
}

#[test]
fn scalars_in_bytes_fields_and_arrays() {
    assert_stored(0x87u8, &[0x87]);
    assert_stored(-2i8, &[0xFE]);
    assert_stored(0x1234u16, &[0x12, 0x34]);
    assert_stored(-2i16, &[0xFF, 0xFE]);
    assert_stored(0x1234_5678u32, &[0x12, 0x34, 0x56, 0x78]);
    assert_stored(-0x1234i32, &[0xFF, 0xFF, 0xED, 0xCC]);
    assert_stored(Uint24::new(0x12_3456), &[0x12, 0x34, 0x56]);
    assert_stored(Int24::new(-0x12_3456), &[0xED, 0xCB, 0xAA]);
    assert_stored(F2Dot14::from_bits(-2), &[0xFF, 0xFE]);
    assert_stored(F4Dot12::from_bits(-2), &[0xFF, 0xFE]);
    assert_stored(F6Dot10::from_bits(0x1234), &[0x12, 0x34]);
    assert_stored(Fixed::from_bits(-0x1234), &[0xFF, 0xFF, 0xED, 0xCC]);
    assert_stored(F2Dot30::from_bits(-0x1234), &[0xFF, 0xFF, 0xED, 0xCC]);
    assert_stored(FWord::new(-2), &[0xFF, 0xFE]);
    assert_stored(UfWord::new(0xFFFE), &[0xFF, 0xFE]);
    assert_stored(GlyphId16::new(0x1234), &[0x12, 0x34]);
    assert_stored(GlyphId24::new(0x12_3456), &[0x12, 0x34, 0x56]);
    assert_stored(NameId::new(0x1234), &[0x12, 0x34]);
    assert_stored(Offset16::new(0x1234), &[0x12, 0x34]);
    assert_stored(Offset24::new(Uint24::new(0x12_3456)), &[0x12, 0x34, 0x56]);
    assert_stored(Offset32::new(0x1234_5678), &[0x12, 0x34, 0x56, 0x78]);
    let nullable = Nullable::<Offset16>::read(&[0x12, 0x34]).unwrap();
    assert_stored(nullable, &[0x12, 0x34]);
    let bytes = [0xFF, 0xFF, 0xFF, 0xFF, 0xFF, 0xFF, 0xED, 0xCC];
    assert_stored(LongDateTime::new(-0x1234), &bytes);
    assert_stored(-0x1234i64, &bytes);
    assert_stored(Version16Dot16::new(0x1234, 5), &[0x12, 0x34, 0x50, 0]);
    assert_stored(MajorMinor::new(0x1234, 0x5678), &[0x12, 0x34, 0x56, 0x78]);
    assert_stored(Tag::new(b"GPOS"), b"GPOS");
}

/// A caller's scalar of any number of bytes.
#[derive(Clone, Copy, PartialEq, Debug)]
struct Record<const N: usize>([u8; N]);

impl<const N: usize> FixedSize for Record<N> {
    const RAW_BYTE_LEN: usize = N;
}

impl<const N: usize> Scalar for Record<N> {
    type Raw = [u8; N];

    fn from_raw(raw: [u8; N]) -> Self {
        Self(raw)
    }

    fn to_raw(self) -> [u8; N] {
        self.0
    }
}

#[test]
fn caller_defined_scalar() {
    assert_stored(Record(*b"abcde"), b"abcde");
    // Only an empty array has elements of zero bytes.
    assert!(ScalarArray::<Record<0>>::new(&[1]).is_none());
    let read = |offset, count| {
        ScalarArray::<Record<0>>::read_at(&[1, 2], offset, count).map(|array| array.len())
    };
    assert_eq!([read(1, 0), read(2, 9), read(3, 0)], [Some(0), Some(0), None]);
}

/// An array of 70,000 even numbers, against a vector of std.
#[test]
fn arrays() {
    let numbers: Vec<u32> = (0..70_000).map(|n| 2 * n).collect();
    let bytes: Vec<u8> = numbers.iter().flat_map(|n| n.to_be_bytes()).collect();
    let array = ScalarArray::<u32>::new(&bytes).unwrap();
    assert_eq!((array.len(), array.is_empty(), array.as_bytes()), (70_000, false, &*bytes));
    assert_eq!(
        (array.first(), array.last(), array.get(66_000), array.get(70_000)),
        (Some(0), Some(139_998), Some(132_000), None)
    );
    assert!(
        array.into_iter().eq(numbers.iter().copied())
            && array.into_iter().rev().eq(numbers.iter().rev().copied())
    );
    let mut ends = array.into_iter();
    assert_eq!(
        (ends.next(), ends.next_back(), ends.len(), ends.size_hint()),
        (Some(0), Some(139_998), 69_998, (69_998, Some(69_998)))
    );
    assert_eq!(ends.as_array(), array.slice(1..69_999).unwrap());
    for key in (0..42).chain((0..140_009).step_by(4321)) {
        assert_eq!(
            array.partition_point(|n| n < key),
            numbers.partition_point(|n| *n < key),
            "{key}"
        );
        let found = [
            array.binary_search(&key),
            array.binary_search_by(|n| n.cmp(&key)),
            array.binary_search_by_key(&(key / 2), |n| n / 2),
        ];
        assert_eq!(found[..2], [numbers.binary_search(&key); 2], "{key}");
        assert_eq!(found[2], numbers.binary_search_by_key(&(key / 2), |n| n / 2), "{key}");
    }
    for (start, end) in
        [(0, 70_000), (1, 2), (3, 3), (2, 1), (0, 70_001), (70_001, 70_001), (0, usize::MAX)]
    {
        let part = array.slice(start..end).map(|part| part.iter().collect::<Vec<_>>());
        assert_eq!(part.as_deref(), numbers.get(start..end), "{start} to {end}");
    }
    for (offset, count, len) in [
        (1, 69_999, Some(69_999)),
        (280_000, 0, Some(0)),
        (1, 70_000, None),
        (280_001, 0, None),
        (1, usize::MAX, None),
        (usize::MAX, 1, None),
    ] {
        let found = ScalarArray::<u32>::read_at(&bytes, offset, count);
        assert_eq!(found.map(|array| array.len()), len, "{count} at {offset}");
        let right =
            found.and_then(|array| u32::read_at(&bytes, offset).filter(|_| !array.is_empty()));
        assert_eq!(found.and_then(|array| array.get(0)), right, "{count} at {offset}");
    }
    let field = BigEndian::<u32>::read_at(&bytes, 0x4_0004).map(|field| field.get());
    assert_eq!([u32::read_at(&bytes, 0x4_0004), field], [Some(2 * 0x1_0001); 2]);
    let none = ScalarArray::<u16>::default();
    assert!(none.is_empty() && array.slice(0..3) != array.slice(0..4));
    assert!(none != ScalarArray::new(&[0, 1]).unwrap() && array.slice(0..2) != array.slice(1..3));
    assert_eq!(
        (none.first(), none.last(), none.binary_search(&1), none.into_iter().next_back()),
        (None, None, Err(0), None)
    );
    assert_eq!(
        <[u8; 2] as ByteChunks>::as_chunks(&[9, 0, 1, 0, 2]),
        (&[[9, 0], [1, 0]][..], &[2][..])
    );
    let (header, rest) =
        TableDataRef::<SampleHeader>::new(&[0, 1, 0, 0, 0, 2, 7, 8]).unwrap().split();
    assert_eq!((header.a.get(), header.b.get(), rest), (1, 2, &[7, 8][..]));
}

#[test]
fn constants_and_orders() {
    assert_eq!((Uint24::default(), Int24::default()), (Uint24::new(0), Int24::new(0)));
    let zeros = (GlyphId::new(0), GlyphId16::new(0), GlyphId24::new(0));
    assert_eq!((GlyphId::NOTDEF, GlyphId16::NOTDEF, GlyphId24::NOTDEF), zeros);
    assert!(Tag::new(b"Kern") < Tag::new(b"a\xFF  ") && Tag::new(b"b   ") < Tag::new(b"kern"));
    assert_eq!(format!("{:+} {:>3}", FWord::new(5), UfWord::new(7)), "+5   7");
}

#[test]
fn flags_of_tags_ids_and_versions() {
    fn shown(x: impl std::fmt::Display) -> [String; 4] {
        [format!("{x}"), format!("{x:>40}"), format!("{x:+040}"), format!("{x:#.1}")]
    }
    let (tag, long, short) =
        (Tag::new(b"a\x1F c"), Version16Dot16::VERSION_2_5, MajorMinor::VERSION_1_1);
    let ids = (GlyphId16::new(7), GlyphId24::new(7), GlyphId::new(7));
    assert_eq!(shown(tag), ["a{0x1F} c"; 4]);
    assert_eq!([shown(ids.0), shown(ids.1), shown(ids.2)], [["GID_7"; 4]; 3]);
    assert_eq!(shown(NameId::FAMILY_NAME), ["FAMILY_NAME"; 4]);
    assert_eq!(shown(NameId::new(300)), ["NameId 300"; 4]);
    assert_eq!([shown(long), shown(short)], [["2.5"; 4], ["1.1"; 4]]);
}

// ---- elements of a caller

/// A hash of the expression that gave it, so that the order of operands is seen.
#[derive(Clone, Copy, PartialEq, Eq, Debug, Default)]
struct Mark(u64);

thread_local! {
    /// The first operand of each operator that was called, in order.
    static CALLS: RefCell<Vec<Mark>> = const { RefCell::new(Vec::new()) };
}

macro_rules! operators {
    ($($number:literal $Trait:ident $method:ident $Assign:ident $assign:ident;)*) => {$(
        impl $Trait for Mark {
            type Output = Self;

            fn $method(self, other: Self) -> Self {
                CALLS.with_borrow_mut(|calls| calls.push(self));
                let mixed = self.0.wrapping_mul(0x9E37_79B9_7F4A_7C15).rotate_left(29) ^ $number;
                Self(mixed.wrapping_mul(0xBF58_476D_1CE4_E5B9) ^ other.0.rotate_left(17))
            }
        }

        impl $Assign for Mark {
            fn $assign(&mut self, other: Self) {
                *self = self.$method(other);
            }
        }
    )*};
}

operators! {
    1 Add add AddAssign add_assign;
    2 Sub sub SubAssign sub_assign;
    3 Mul mul MulAssign mul_assign;
    4 Div div DivAssign div_assign;
}

impl Neg for Mark {
    type Output = Self;

    fn neg(self) -> Self {
        CALLS.with_borrow_mut(|calls| calls.push(self));
        Self(!self.0)
    }
}

impl MatrixElement for Mark {
    const ZERO: Self = Self(0x1234);
    const ONE: Self = Self(0x5678);
}

const ELEMENTS: [Mark; 6] = [Mark(2), Mark(3), Mark(5), Mark(7), Mark(11), Mark(13)];

#[test]
fn points_and_boxes() {
    let ([a, b, c, d, x, y], z) = (ELEMENTS, Mark(17));
    let (p, q) = (Point::new(a, b), Point::new(x, y));
    let [mut sum, mut difference, mut product, mut quotient, mut scaled, mut divided] = [p; 6];
    sum += q;
    difference -= q;
    product *= q;
    quotient /= q;
    scaled *= x;
    divided /= x;
    assert_eq!([p + q, sum], [Point { x: a + x, y: b + y }; 2]);
    assert_eq!([p - q, difference], [Point::new(a - x, b - y); 2]);
    assert_eq!([p * q, product], [Point::new(a * x, b * y); 2]);
    assert_eq!([p / q, quotient], [Point::new(a / x, b / y); 2]);
    assert_eq!([p * x, scaled], [Point::new(a * x, b * x); 2]);
    assert_eq!([p / x, divided], [Point::new(a / x, b / x); 2]);
    assert_eq!([-p, Point::broadcast(x)], [Point::new(-a, -b), Point::new(x, x)]);
    assert!(p != Point::new(a, c) && Point::<Mark>::default() == Point::broadcast(Mark(0)));
    let of = |[x_min, y_min, x_max, y_max]: [Mark; 4]| BoundingBox { x_min, y_min, x_max, y_max };
    assert_eq!(of([a, b, c, d]).scale(z), of([a * z, b * z, c * z, d * z]));
    // A pair that does not compare is swapped too, and sides that are equal stay, as zeros show.
    let nan = f64::NAN;
    for (sides, swapped) in [
        ([nan, 1., 2., 3.], [2., 1., nan, 3.]),
        ([0., 1., nan, 3.], [nan, 1., 0., 3.]),
        ([1., nan, 2., 3.], [1., 3., 2., nan]),
        ([1., 2., 2., nan], [1., nan, 2., 2.]),
        ([0., -0., -0., 0.], [0., -0., -0., 0.]),
    ] {
        let [x_min, y_min, x_max, y_max] = sides;
        let of = BoundingBox { x_min, y_min, x_max, y_max };
        let found = of.normalize();
        let found = [found.x_min, found.y_min, found.x_max, found.y_max];
        assert_eq!(found.map(f64::to_bits), swapped.map(f64::to_bits), "{sides:?}");
        assert_eq!(of.is_normalized(), sides == swapped, "{sides:?}");
    }
}

// No clause has the order of the calls.
#[test]
fn points_call_operators_of_x_first() {
    fn assigned(mut p: Point<Mark>, assign: impl Fn(&mut Point<Mark>)) -> Point<Mark> {
        assign(&mut p);
        p
    }
    type Call = fn(Point<Mark>, Point<Mark>) -> Point<Mark>;
    let calls: [Call; 13] = [
        |p, q| p + q,
        |p, q| p - q,
        |p, q| p * q,
        |p, q| p / q,
        |p, q| p * q.x,
        |p, q| p / q.x,
        |p, _| -p,
        |p, q| assigned(p, |p| *p += q),
        |p, q| assigned(p, |p| *p -= q),
        |p, q| assigned(p, |p| *p *= q),
        |p, q| assigned(p, |p| *p /= q),
        |p, q| assigned(p, |p| *p *= q.x),
        |p, q| assigned(p, |p| *p /= q.x),
    ];
    let [a, b, x, y, ..] = ELEMENTS;
    for (n, call) in calls.iter().enumerate() {
        CALLS.take();
        call(Point::new(a, b), Point::new(x, y));
        assert_eq!(CALLS.take(), [a, b], "call {n}");
    }
}

#[test]
fn matrices() {
    let ([a, b, c, d, e, f], x, y) = (ELEMENTS, Mark(17), Mark(19));
    let matrix = Matrix { xx: a, yx: b, xy: c, yy: d, dx: e, dy: f };
    assert_eq!((matrix, matrix.elements()), (Matrix::from_elements(ELEMENTS), ELEMENTS));
    let (zero, one) = (Mark::ZERO, Mark::ONE);
    let identity = Matrix::from_elements([one, zero, zero, one, zero, zero]);
    assert_eq!([Matrix::identity(), Matrix::IDENTITY, Matrix::default()], [identity; 3]);
    let image = (a * x + c * y + e, b * x + d * y + f);
    assert_eq!(
        (matrix.transform(x, y), matrix * Point::new(x, y)),
        (image, Point::new(image.0, image.1))
    );
    let other = Matrix::from_elements([x, y, f, e, d, c]);
    let first = [a * x + c * y, b * x + d * y, a * f + c * e, b * f + d * e];
    let second = [a * d + c * c + e, b * d + d * c + f];
    let mut assigned = matrix;
    assigned *= other;
    let product =
        Matrix::from_elements([first[0], first[1], first[2], first[3], second[0], second[1]]);
    assert_eq!([matrix * other, assigned], [product; 2]);
    let mut seen = Vec::new();
    let mut count = |element| {
        seen.push(element);
        seen.len()
    };
    let mapped = matrix.map(&mut count).elements();
    assert_eq!((mapped, Point::new(x, y).map(&mut count)), ([1, 2, 3, 4, 5, 6], Point::new(7, 8)));
    assert_eq!(seen, [&ELEMENTS[..], &[x, y]].concat());
    let a = Matrix::from_elements([1, 2, 3, 5, 7, 11].map(Fixed::from_i32));
    assert_eq!(laws::fixed_identity(a), (a, a));
}

#[test]
fn laws_of_checked_matrices() {
    let values = [-0x1_8000, 0x8000, 0x1_0000, 0x4E20_0000];
    let (mut kept, mut refused) = (0, 0);
    for n in 0..values.len().pow(4) {
        let [p, q, x, y] =
            [0, 1, 2, 3].map(|place| Fixed::from_bits(values[n / 4usize.pow(place) % 4]));
        let (a, b) =
            (Matrix::from_elements([p, q, -q, x, y, y]), Matrix::from_elements([x, y, p, q, p, x]));
        let image = |m: Matrix<Fixed>, p: Point<Fixed>| {
            m.checked_transform(p.x, p.y).map(|(x, y)| Point::new(x, y))
        };
        let w = Point::new(x, y);
        let right =
            [a.checked_mul(b).and_then(|ab| image(ab, w)), image(b, w).and_then(|bw| image(a, bw))];
        assert_eq!([laws::checked_composed(a, b, w), laws::checked_in_turn(a, b, w)], right);
        for it in right {
            if it.is_some() { kept += 1 } else { refused += 1 }
        }
    }
    assert!(kept > 50 && refused > 50, "{kept} {refused}");
    const HALVED: Option<(Fixed, Fixed)> = Matrix::from_elements([Fixed::from_bits(0x8000); 6])
        .checked_transform(Fixed::ONE, Fixed::ONE);
    assert_eq!(HALVED.map(|(x, _)| x.to_bits()), Some(0x1_8000));
}

#[test]
fn scales() {
    // By FreeType 2.12.1: `FT_DivFix(size, units_per_em)`, and `FT_MulFix` of the units and that.
    for (size, units_per_em, factor, units, pixels) in [
        (768, 1000, 50332, 700, 538),
        (768, 1000, 50332, -250, -192),
        (1029, 1000, 67437, -515, -530),
        (1024, 2048, 32768, 1, 1),
        (1024, 2048, 32768, -1, -1),
        (1, 65535, 1, 32767, 0),
        (-768, 1000, -50332, 700, -538),
        (16320, 16, 66846720, i16::MIN, -33423360),
    ] {
        let scale = Scale::new(F26Dot6::from_bits(size), units_per_em).unwrap();
        assert_eq!(scale, Scale::from_factor(Fixed::from_bits(factor)));
        assert_eq!(scale.apply(units).to_bits(), pixels, "{size} {units_per_em} {units}");
    }
    assert_eq!([Scale::new(F26Dot6::ONE, 0), Scale::new(F26Dot6::MAX, 1)], [None; 2]);
    let scale = Scale::from_factor(Fixed::from_bits(0x1_8000));
    let found = scale.checked_apply_point_i32(Point::new(3, -3)).map(|it| it.map(F26Dot6::to_bits));
    assert_eq!((found, scale.checked_apply_i32(i32::MAX)), (Some(Point::new(5, -5)), None));
    let pixels = laws::scaled(F26Dot6::from_bits(768), 1000, 700, -250);
    assert_eq!(pixels.map(|(x, y)| [x, y].map(F26Dot6::to_bits)), Some([538, -192]));
    const HALF: Option<Scale> = Scale::new(F26Dot6::from_bits(512), 1024);
    assert_eq!(HALF.map(|it| it.apply_point(Point::new(2, -3)).y.to_bits()), Some(-2));
}

/// Returns `x * a / c` as `mul_div` does.
fn scaled(x: i128, a: i128, c: i128) -> i128 {
    let greatest = i128::from(i32::MAX);
    match c {
        0 if (x < 0) != (a < 0) => -greatest,
        0 => greatest,
        _ => wrap(32, near(x * a, c)),
    }
}

#[test]
fn laws_of_calls() {
    let raw = |n: i128| Fixed::from_bits(n as i32);
    for [x, a, c] in
        factors().flat_map(|x| factors().flat_map(move |a| factors().map(move |c| [x, a, c])))
    {
        let [n, m, d] = [x, a, c].map(i128::from);
        let [x, a, c] = [x, a, c].map(Fixed::from_bits);
        let up_and_back = laws::fixed::scaled_back(x, a, c);
        let first = scaled(n, m, d);
        assert_eq!(up_and_back, (raw(first), raw(scaled(first, d, m))), "{x:?} {a:?} {c:?}");
        let is_kept = 0 < d && d <= m && fits(32, near(n * m, d));
        assert!(!is_kept || up_and_back.1 == x, "{x:?} {a:?} {c:?}");
        let parts = laws::scaled_in_parts(&[x, a, x, c], a, c);
        let each: i128 = [n, m, n, d].iter().map(|n| scaled(*n, m, d)).sum();
        let right = [each, scaled(wrap(32, 2 * n + m + d), m, d)].map(|n| raw(wrap(32, n)));
        assert_eq!(parts, right.into(), "{x:?} {a:?} {c:?}");
        // The delta moves half of a unit up, and no more.
        let [delta, more] = [m * 65_537, m * 65_537 + d].map(|n| F48Dot16::from_bits(n as i64));
        let moved = |n, delta: F48Dot16| {
            i32::try_from(up((n << 16) + i128::from(delta.to_bits()), 1 << 16))
                .ok()
                .map(Fixed::from_bits)
        };
        assert_eq!(laws::fixed::delta_in_steps(x, delta), (moved(n, delta), moved(n, delta)));
        let found = laws::fixed::deltas_in_order(x, c, delta, more);
        assert_eq!(found, (moved(n, delta), moved(d, more)), "{x:?} {a:?} {c:?}");
        let matrix = Matrix::from_elements([x, a, c, x, a, c]);
        let row = |u, v, e| raw(wrap(32, near(u * n, 1 << 16) + near(v * d, 1 << 16) + e));
        let image = Point::new(row(n, d, m), row(m, n, d));
        assert_eq!(laws::image(matrix, Point::new(x, c)), image, "{x:?} {a:?} {c:?}");
    }
    // At most 4 digits of 2.14, 9 of 2.30 and 1 of 26.6, and one more or a needless zero.
    for (text, f, shown) in [
        ("-1.9999", 14, "-1.9999"),
        ("0.12345", 14, "0.1235"),
        ("1.999999999", 30, "1.999999999"),
        ("-0.0000000005", 30, "-0.000000001"),
        ("72.9", 6, "72.9"),
        ("72.12", 6, "72.13"),
        ("1.50", 16, "1.5"),
        ("-00", 16, "0"),
    ] {
        let printed = laws::printed_again(text, f, i64::MIN, i64::MAX).unwrap();
        assert_eq!(printed.as_str(), shown, "{text} of {f}");
    }
    let found = laws::printed_again("2", 14, -0x8000, 0x7FFF).map(|text| text.to_string());
    assert_eq!(found, Err(DecimalFault::OutOfRange));
}

/// Compares constants from decimals with `decimal * 2^f / 10^places`, rounded half away from zero.
macro_rules! constants {
    ($($Type:ident $f:literal)*) => {$({
        const PARSED: Result<$Type, DecimalFault> = $Type::from_decimal("-1.40625");
        const BYTES: Result<$Type, DecimalFault> = $Type::from_decimal_bytes(b"-1.40625");
        const LONG: $Type = $Type::lit("0.00000000093132257461547851562500000000000000000000001");
        const LITERAL: $Type = $Type::lit("0.1");
        const BAD: Result<$Type, DecimalFault> = $Type::from_decimal(".5");
        const FAR: Result<$Type, DecimalFault> = $Type::from_decimal("140737488355328");
        let found = [PARSED, BYTES].map(|read| read.map(|x| i64::from(x.to_bits())));
        assert_eq!(found, [Ok(-45 << ($f - 5)); 2]);
        assert_eq!(i64::from(LITERAL.to_bits()), ((1 << $f) + 5) / 10, stringify!($Type));
        assert_eq!(i64::from(LONG.to_bits()), i64::from($f == 30), stringify!($Type));
        assert_eq!((BAD, FAR), (Err(DecimalFault::Syntax), Err(DecimalFault::OutOfRange)));
    })*};
}

#[test]
fn constants_from_decimals() {
    constants! { F2Dot14 14 F4Dot12 12 F6Dot10 10 Fixed 16 F26Dot6 6 F2Dot30 30 F48Dot16 16 }
    const READ: Result<i64, DecimalFault> = read_decimal("-1.5", 16, i64::MIN, i64::MAX);
    assert_eq!(READ, Ok(-98304));
}
