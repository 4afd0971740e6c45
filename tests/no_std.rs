//! Code without `std`, under the name of `font-types`: constants, a `match` on a tag, and the
//! examples' reader of fonts. That it compiles shows that it needs no `std`.
#![no_std]

use font_types::*;
use font_types_proved as font_types;

#[macro_use]
#[path = "../examples/font/mod.rs"]
mod font;

const WEIGHT: Tag = Tag::new(b"wght");
const WIDTH: Tag = Tag::from_be_bytes(*b"wdth");
const HALF: Fixed = Fixed::from_bits(0x8000);
const DIFFERENCE: Fixed = Fixed::from_i32(3).wrapping_sub(HALF);
const BITS: i32 = DIFFERENCE.round().abs().to_bits();
const INTEGER: i32 = HALF.saturating_add(HALF).floor().to_i32();
const SHIFT: Matrix<Fixed> = Matrix::from_elements(Matrix::<Fixed>::identity().elements());
const ORIGIN: Point<Fixed> = Point::broadcast(Fixed::ZERO);

#[test]
fn constants() {
    let name = |tag| match tag {
        WEIGHT => "weight",
        WIDTH => "width",
        _ => "other",
    };
    assert_eq!((name(Tag::new(b"wght")), name(WIDTH)), ("weight", "width"));
    assert_eq!(name(Tag::default()), "other");
    assert_eq!((BITS, INTEGER), (0x3_0000, 1));
    assert_eq!(SHIFT * ORIGIN, ORIGIN);
    const { assert!(F2Dot14::from_bits(-1).fract().to_bits() == 0x3FFF) };
}

// Constants of a type are patterns.
const _: () = {
    assert!(!matches!(F2Dot14::MIN, F2Dot14::MAX) && !matches!(Fixed::MIN, Fixed::MAX));
    assert!(!matches!(F48Dot16::MIN, F48Dot16::MAX));
    assert!(
        !matches!(NameId::FULL_NAME, NameId::FAMILY_NAME)
            && matches!(Tag::new_checked(b"cvt"), Ok(CVT))
    );
    assert!(matches!(Version16Dot16::new(2, 5), Version16Dot16::VERSION_2_5));
    assert!(matches!(MajorMinor::new(1, 2), MajorMinor::VERSION_1_2));
};

// Functions that are `const`, and are not in `font-types`, or not `const` there; `compare/compared`
// looks at the others, and at those named `checked_..`.
const _: () = {
    assert!(Fixed::ONE.to_f2dot30().to_fixed().to_bits() == 0x1_0000);
    assert!(F2Dot14::ONE.to_f2dot30().to_f2dot14().to_bits() == 0x4000);
    assert!(DeltaSum::new().finish().to_bits() == 0 && Pad::new(3).width == 3);
    assert!(!Offset16::new(12).is_null() && Offset16::new(12).eq_u32(&12));
    assert!(CVT.as_bytes()[2] == b't' && CVT.into_bytes()[1] == b'v');
};

const CVT: Tag = Tag::new(b"cvt ");

// The test harness links `std`, so the attributes are read from the sources.
#[test]
fn library_is_no_std() {
    for (root, refuses) in [
        (include_str!("../src/lib.rs"), "#![deny(unsafe_code)]"),
        (include_str!("../variations/src/lib.rs"), "#![forbid(unsafe_code)]"),
        (include_str!("../c/src/lib.rs"), "#![no_std]"),
    ] {
        let has = |attribute| root.lines().any(|line| line == attribute);
        assert!(has("#![no_std]") && has(refuses), "{root}");
        assert!(!root.contains("extern crate"));
    }
}
