// @generated from crates/rows/src/tests/geom/ring.rt by tools/erase

//! An impl of a caller: `RingElement` for `u32` modulo `2^32`.

use crate::font_fixed::Fixed;
use crate::font_geom::laws::{action, associative, identity_neutral, step_and_halves};
use crate::font_geom::{Matrix, MatrixElement, Point, RingElement};
use crate::std_for_tests::ops::{Add, Mul};

/// A number of 32 bits whose sums and products wrap.
#[derive(Clone, Copy, PartialEq, Eq)]
struct Turn {
    number: u32,
}

impl Add for Turn {
    type Output = Turn;

    fn add(self, rhs: Turn) -> Turn {
        Turn { number: self.number.wrapping_add(rhs.number) }
    }
}

impl Mul for Turn {
    type Output = Turn;

    fn mul(self, rhs: Turn) -> Turn {
        Turn { number: self.number.wrapping_mul(rhs.number) }
    }
}

impl MatrixElement for Turn {
    const ZERO: Self = Turn { number: 0 };

    const ONE: Self = Turn { number: 1 };
}

impl RingElement for Turn {}

fn turns(numbers: [u32; 6]) -> Matrix<Turn> {
    Matrix::from_elements(numbers).map(|number| Turn { number })
}

#[test]
fn products_associate() {
    let rt = crate::std_for_tests::Host;
    let a = turns([2, 3, 5, 7, 11, 13]);
    let b = turns([0x8000_0000, 1, 0xFFFF_FFFF, 4, 5, 6]);
    let c = turns([17, 0xFFFF_FFF0, 19, 23, 29, 31]);
    let (first, second) = associative(a, b, c);
    assert!(rt; first == second && first == a * b * c);
}

#[test]
fn products_act_on_points() {
    let rt = crate::std_for_tests::Host;
    let a = turns([2, 3, 5, 7, 11, 13]);
    let b = turns([0x8000_0000, 1, 0xFFFF_FFFF, 4, 5, 6]);
    let (p, image) = (Point::new(1, 0xFFFF_FFFF), Point::new(38, 0x8000_0034));
    let (first, second) = action(a, b, p.map(|number| Turn { number }));
    assert!(rt; first == second && first == image.map(|number| Turn { number }));
}

#[test]
fn identity_is_neutral() {
    let rt = crate::std_for_tests::Host;
    let a = turns([2, 3, 5, 7, 11, 0xFFFF_FFFF]);
    assert!(rt; identity_neutral(a) == (a, a));
}

#[test]
fn fixed_products_do_not_associate() {
    let rt = crate::std_for_tests::Host;
    assert!(rt; step_and_halves() == (Fixed::EPSILON, Fixed::ZERO));
}
