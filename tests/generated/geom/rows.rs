// @generated from crates/rows/src/tests/geom/rows.rt by tools/erase

//! Products of matrices of `Fixed` and images of points, by rows of requirements.md.

use crate::font_fixed::{F26Dot6, Fixed};
use crate::font_geom::laws::{composed, in_turn};
use crate::font_geom::{Matrix, Point};

fn whole(elements: [i32; 6]) -> Matrix<Fixed> {
    Matrix::from_elements(elements).map(Fixed::from_i32)
}

fn at((x, y): (i32, i32)) -> Point<Fixed> {
    Point::new(x, y).map(Fixed::from_i32)
}

#[test]
fn products() {
    let rt = crate::std_for_tests::Host;
    for &(a, b, product) in &[
        ([2, 0, 0, 3, 0, 0], [1, 0, 0, 1, 10, 20], [2, 0, 0, 3, 20, 60]),
        ([1, 0, 0, 1, 10, 20], [2, 0, 0, 3, 0, 0], [2, 0, 0, 3, 10, 20]),
        ([2, 3, 5, 7, 11, 13], [17, 19, 23, 29, 31, 37], [129, 184, 191, 272, 258, 365]),
    ] {
        assert!(rt; whole(a) * whole(b) == whole(product), "{a:?} * {b:?}");
    }
}

#[test]
fn images() {
    let rt = crate::std_for_tests::Host;
    for &(a, p, image) in &[
        ([1, 0, 0, 1, 10, 20], (5, -22), (15, -2)),
        ([2, 0, 0, 3, 0, 0], (5, -22), (10, -66)),
        ([2, 3, 5, 7, 11, 13], (17, 19), (140, 197)),
    ] {
        assert!(rt; whole(a) * at(p) == at(image), "{a:?}");
    }
}

#[test]
fn images_composed_and_in_turn() {
    let rt = crate::std_for_tests::Host;
    for &(a, b, p, image) in &[
        // Nothing is rounded.
        ([2, 0, 0, 3, 0, 0], [1, 0, 0, 1, 10, 20], (5, -22), (30, -6)),
        ([1, 0, 0, 1, 10, 20], [2, 0, 0, 3, 0, 0], (5, -22), (20, -46)),
        // Only a partial sum leaves 32 bits.
        ([1, 0, 1, 1, -30000, 0], [1, 0, 0, 1, 0, 0], (20000, 20000), (10000, 20000)),
        // An entry and a coordinate leave 32 bits.
        ([32767, 0, 0, 1, 0, 0], [2, 0, 0, 1, 0, 0], (1, 0), (-2, 0)),
    ] {
        let (a, b, p) = (whole(a), whole(b), at(p));
        assert!(rt;
            [composed(a, b, p), in_turn(a, b, p)] == [at(image); 2],
            "{image:?}"
        );
    }
}

// The composed image rounds apart from that in turn.
#[test]
fn images_that_round() {
    let rt = crate::std_for_tests::Host;
    let (mut a, mut b, p) = (Matrix::identity(), Matrix::identity(), at((100, 0)));
    (a.xx, b.xx) = (Fixed::from_bits(0x8000), Fixed::EPSILON);
    assert!(rt; composed(a, b, p) == Point::new(Fixed::from_bits(100), Fixed::ZERO));
    assert!(rt; in_turn(a, b, p) == Point::new(Fixed::from_bits(50), Fixed::ZERO));
}

#[test]
fn point_of_decimals() {
    let rt = crate::std_for_tests::Host;
    let read = |text: &str| F26Dot6::from_decimal(text).unwrap_or(F26Dot6::MIN);
    let mapped = Point::new("42.5", "20.1").map(read);
    assert!(rt; mapped == Point::new(F26Dot6::from_bits(2720), F26Dot6::from_bits(1286)));
}

#[test]
fn points_of_integers() {
    let rt = crate::std_for_tests::Host;
    let (p, q) = (Point::new(10, 16), Point::new(1, 2));
    assert!(rt; p + q == Point::new(11, 18) && p - q == Point::new(9, 14));
    assert!(rt; p * Point::new(2, 3) == Point::new(20, 48) && -p == Point::new(-10, -16));
    assert!(rt; Point::new(10, 16) / Point::new(2, 3) == Point::new(5, 5));
    assert!(rt; Point::new(1, 2) * 8 == Point::new(8, 16));
}
