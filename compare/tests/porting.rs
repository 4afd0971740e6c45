//! The replacements of calls of `font-types` in docs/PORTING.md, against these calls, for each type
//! that has them.

use compare::edges;
use font_types as there;
use font_types_proved as here;
use here::{IdentityEq, ScalarArray};

/// The trait of the page.
trait Floats: Sized {
    fn from_f64(x: f64) -> Self;
    fn to_f64(self) -> f64;
}

macro_rules! floats {
    ($($Type:ident $bits:ident)*) => {
        $(impl<const F: u32> Floats for here::$Type<F> {
            fn from_f64(x: f64) -> Self {
                Self::from_bits((x * f64::from(1 << F) + 0.5_f64.copysign(x)) as $bits)
            }

            fn to_f64(self) -> f64 {
                self.to_bits() as f64 / f64::from(1 << F)
            }
        })*
    };
}

floats! { FixedI16 i16 FixedI32 i32 FixedI64 i64 }

#[test]
fn trait_of_the_page() {
    let page = include_str!("../../docs/PORTING.md");
    for line in [
        "Self::from_bits((x * f64::from(1 << F) + 0.5_f64.copysign(x)) as i32)",
        "f64::from(self.to_bits()) / f64::from(1 << F)",
    ] {
        assert!(page.contains(line), "{line}");
    }
}

#[test]
fn just_below_half_a_step() {
    let x = 0.49999997_f32 / 16384.0;
    assert_eq!(there::F2Dot14::from_f32(x).to_bits(), 1);
    assert_eq!(here::F2Dot14::from_f64(x.into()).to_bits(), 0);
}

/// The rows about fixed-point numbers, for each type, with its raw integer and its fraction bits.
macro_rules! of_each_type {
    ($($Type:ident $bits:ident $f:literal;)*) => {
        #[test]
        fn floats() {
            $(for raw in edges($bits::BITS).into_iter().filter(|raw| raw.unsigned_abs() < 1 << 50) {
                let x = here::$Type::from_bits(raw as $bits);
                let y = there::$Type::from_bits(raw as $bits);
                // Half a step and the number below it, and values that saturate.
                for step in [-0.5, -0.49999999999999994, -0.25, 0.0, 0.49999999999999994, 0.5] {
                    for v in [(raw as f64 + step) / f64::from(1 << $f), raw as f64, f64::NAN] {
                        let z = there::$Type::from_f64(v);
                        assert_eq!(here::$Type::from_f64(v).to_bits(), z.to_bits(), "{v}");
                    }
                }
                assert_eq!(x.to_f64(), y.to_f64(), "{raw}");
                assert_eq!(x.to_f64() as f32, y.to_f32(), "{raw}");
                // `"1.5".parse::<f64>()` and `from_f64`.
                let text = x.to_string();
                let z = there::$Type::from_f64(text.parse().unwrap());
                assert_eq!(text.parse::<here::$Type>().unwrap().to_bits(), z.to_bits());
            })*
        }

        #[test]
        fn ignored_precisions() {
            $(for raw in edges($bits::BITS) {
                let x = here::$Type::from_bits(raw as $bits);
                assert_eq!(format!("{x:.2} {x:+.0} {x:9.40}"), format!("{x} {x:+} {x:9}"));
                // `{:.2}` of `x.to_f64()`.
                let (x, y) = (x.to_f64(), there::$Type::from_bits(raw as $bits));
                assert_eq!(format!("{x:.2} {x:+.0} {x:9.40}"), format!("{y:.2} {y:+.0} {y:9.40}"));
            })*
        }
    };
}

of_each_type! {
    F2Dot14 i16 14;
    F4Dot12 i16 12;
    F6Dot10 i16 10;
    Fixed i32 16;
    F26Dot6 i32 6;
    F48Dot16 i64 16;
}

#[test]
fn texts_of_f2dot14_by_f32() {
    let is_read_back = |raw: &i16| {
        let text = there::F2Dot14::from_bits(*raw).to_string();
        assert_eq!(text.parse(), Ok(here::F2Dot14::from_bits(*raw)));
        there::F2Dot14::from_f32(text.parse().unwrap()).to_bits() == *raw
    };
    let read_back = (i16::MIN..=i16::MAX).filter(is_read_back);
    assert_eq!(read_back.count(), 65536 - 32);
}

/// Returns the power of two in the table of units, by which a result of `apply_delta` is divided.
fn power(name: &str) -> u32 {
    let rows = include_str!("../../docs/PORTING.md").lines();
    let mut rows = rows.filter_map(|row| row.split_once(" | `2^-"));
    let row = rows.find_map(|(types, row)| types.contains(name).then_some(row));
    let (power, row) = row.and_then(|row| row.split_once('`')).expect(name);
    assert!(row.contains(&format!("divide by `2^{power}`")), "{row}");
    power.parse().expect(name)
}

/// The low bits are those of a wrapping sum of `font-types`, and the value is near its float, whose
/// terms are rounded to 24 bits.
fn check_apply_delta(base: i16, raw: i64) {
    let (ours, theirs) = (here::F48Dot16::from_bits(raw), there::F48Dot16::from_bits(raw));
    macro_rules! moved {
        ($($Type:ident::$new:ident($base:expr)),*) => {
            [$((
                concat!("`", stringify!($Type), "`"),
                i64::from($base),
                here::$Type::$new($base).apply_delta(ours),
                there::$Type::$new($base).apply_delta(theirs),
            )),*]
        };
    }
    let fixed = i32::from(base) << 16;
    for (name, base, moved, float) in moved![
        FWord::new(base),
        UfWord::new(base as u16),
        Fixed::from_bits(fixed),
        F2Dot14::from_bits(base)
    ] {
        let sum = there::F48Dot16::from_i64(base) + theirs;
        assert_eq!(moved as i64, sum.to_bits(), "{name} {base} {raw}");
        let far = moved as f64 - f64::from(float) * (1u64 << power(name)) as f64;
        let terms = base.unsigned_abs() as f64 * 65536.0 + raw.unsigned_abs() as f64;
        assert!(far.abs() <= terms / f64::from(1 << 22), "{name} {base} {raw}: {moved} {float}");
    }
}

#[test]
fn apply_delta() {
    for raw in edges(64) {
        for base in [i16::MIN, -1, 0, 500, i16::MAX] {
            check_apply_delta(base, raw);
        }
    }
    // Rounded once, and not to an f32 first.
    for raw in edges(20) {
        let moved = here::FWord::new(500).checked_add_delta(here::F48Dot16::from_bits(raw));
        let exact = 500.0 + there::F48Dot16::from_bits(raw).to_f64();
        let rounded = (exact + 0.5).floor() as i16;
        let ours = moved.map(here::FWord::to_i16);
        assert_eq!(ours, Some(rounded), "{raw}");
    }
}

#[test]
fn array_in_place_of_a_slice_of_fields() {
    let bytes = [0, 1, 0, 4, 0xFF, 0xFE];
    let array = ScalarArray::<u16>::new(&bytes).unwrap();
    let field = |bytes| there::BigEndian::from_slice(bytes).unwrap();
    let fields: Vec<there::BigEndian<u16>> = bytes.chunks(2).map(field).collect();
    assert!(array.iter().eq(fields.iter().map(|field| field.get())));
    for value in 0..6 {
        let place = fields.binary_search_by_key(&value, |field| field.get());
        assert_eq!(array.binary_search(&value), place);
    }
}

#[test]
fn values_between_both() {
    use {here::Scalar as _, there::Scalar as _};
    for raw in edges(32).into_iter().map(|raw| raw as i32) {
        let (ours, theirs) = (here::Fixed::from_bits(raw), there::Fixed::from_bits(raw));
        assert_eq!(here::Fixed::from_bits(theirs.to_bits()), ours);
        assert_eq!(there::Fixed::from_bits(ours.to_bits()), theirs);
        let tag = there::Tag::from_u32(raw as u32);
        assert_eq!(here::Tag::new(&tag.to_be_bytes()).to_u32(), raw as u32);
        assert_eq!(there::Tag::new(&here::Tag::new(&tag.to_be_bytes()).to_be_bytes()), tag);
        let date = there::LongDateTime::new(raw.into());
        let read = here::LongDateTime::read(&there::Scalar::to_raw(date)).unwrap();
        assert_eq!(there::LongDateTime::read(&here::Scalar::to_raw(read)), Some(date));
        assert_eq!(read.as_secs(), raw.into());
    }
}

// `font-types` requires an arm `_`.
#[test]
fn exhaustive_match_of_errors() {
    for bytes in [b"    ", b" abc", b"a\x07bc", b"abc\x7F", b"a bc", b"ab c"] {
        let ours = match here::Tag::new(bytes).validate().unwrap_err() {
            here::InvalidTag::InvalidLength(length) => [1, length, 0],
            here::InvalidTag::InvalidByte { pos, byte } => [2, pos, byte.into()],
            here::InvalidTag::ByteAfterSpace { pos } => [3, pos, 0],
        };
        let theirs = match there::Tag::new(bytes).validate().unwrap_err() {
            there::InvalidTag::InvalidLength(length) => [1, length, 0],
            there::InvalidTag::InvalidByte { pos, byte } => [2, pos, byte.into()],
            there::InvalidTag::ByteAfterSpace { pos } => [3, pos, 0],
            _ => unreachable!(),
        };
        assert_eq!(ours, theirs, "{bytes:?}");
    }
}

/// A caller's scalar. `font-types` has `FixedSize` of each, and orders fields by `Ord`.
#[derive(Clone, Copy, Debug, PartialEq, Eq, PartialOrd, Ord)]
struct Selector(u32);

macro_rules! scalar {
    ($($side:ident)*) => {$(
        impl $side::Scalar for Selector {
            type Raw = [u8; 4];

            fn from_raw(raw: [u8; 4]) -> Self {
                Self(u32::from_be_bytes(raw))
            }

            fn to_raw(self) -> [u8; 4] {
                self.0.to_be_bytes()
            }
        }
    )*};
}

scalar!(here there);

impl here::FixedSize for Selector {
    const RAW_BYTE_LEN: usize = 4;
}

impl IdentityEq for Selector {}

#[test]
fn caller_defined_scalars() {
    let [x, y] = [Selector(1), Selector(256)];
    assert!(here::BigEndian::from(x) < here::BigEndian::from(y));
    assert!(there::BigEndian::from(x) < there::BigEndian::from(y));
}

/// A caller's element of a matrix.
#[derive(Clone, Copy)]
struct Float(f32);

macro_rules! operator {
    ($($Trait:ident $name:ident $sign:tt;)*) => {$(
        impl std::ops::$Trait for Float {
            type Output = Self;

            fn $name(self, other: Self) -> Self {
                Self(self.0 $sign other.0)
            }
        }
    )*};
}

operator! { Add add +; Mul mul *; }

impl here::MatrixElement for Float {
    const ZERO: Self = Self(0.0);
    const ONE: Self = Self(1.0);
}

#[test]
fn caller_defined_elements() {
    let bits = [1.5, -2.0, 0.25, 3.0, 10.0, 20.0];
    let point = here::Point::new(Float(2.0), Float(4.0));
    let here = here::Matrix::from_elements(bits.map(Float)) * point;
    let there = there::Matrix::from_elements(bits) * there::Point::new(2.0, 4.0);
    assert_eq!([here.x.0, here.y.0], [there.x, there.y]);
}

/// Asserts that a call returns this in both crates, and that a row of docs/PORTING.md says so.
macro_rules! assert_corrected {
    ($($right:literal, |$k:ident| $call:expr;)*) => {$({
        let there = {
            use font_types as $k;
            format!("{:?}", $call)
        };
        let here = {
            use font_types_proved as $k;
            format!("{:?}", $call)
        };
        let call = stringify!($call).replace("k::", "");
        assert_eq!([there, here], [$right; 2], "{call}");
        let page = include_str!("../../docs/PORTING.md");
        let row = page.lines().find(|line| line.starts_with(&format!("| `{call}` |")));
        assert!(row.expect(&call).contains(&format!("| `{}`", $right)), "{call}");
    })*};
}

#[test]
fn corrections() {
    assert_corrected! {
        "-1", |k| k::Int24::new(-1).to_i32();
        "Err(InvalidByte { pos: 2, byte: 99 })", |k| k::Tag::new_checked(b"b c");
        "Ok(Tag(head))", |k| k::Tag::new_checked(b"head");
        "Ok(())", |k| k::Tag::new(b"!~0 ").validate();
        "1", |k| k::Fixed::EPSILON.to_bits();
        "true", |k| k::Offset16::new(0).is_null();
        "-1673527296", |k| k::UfWord::new(40000).to_fixed().to_bits();
        "-32768", |k| k::Fixed::from_bits(0x7FFF_8000).to_i32();
        "-2097152", |k| k::Fixed::from_bits(0x7FFF_FE00).to_f26dot6().to_bits();
        "-33554432", |k| k::F26Dot6::from_bits(0x7FFF_FFE0).to_i32();
        "-140737488355328", |k| k::F48Dot16::from_bits(0x7FFF_FFFF_FFFF_8000).to_i64();
    }
}
