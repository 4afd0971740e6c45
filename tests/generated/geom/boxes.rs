// @generated from crates/rows/src/tests/geom/boxes.rt by tools/erase

//! An element of a caller: one that does not compare with every other.
//! Also whether boxes have the values of requirements.md.

use crate::font_geom::BoundingBox;
use crate::std_for_tests::cmp::Ordering;

pub(super) fn sides(x_min: i32, y_min: i32, x_max: i32, y_max: i32) -> BoundingBox<i32> {
    BoundingBox { x_min, y_min, x_max, y_max }
}

#[test]
fn scale_by_a_negative_factor() {
    let rt = crate::std_for_tests::Host;
    let turned = sides(5, 5, 10, 10).scale(-2);
    assert!(rt; turned == sides(-10, -10, -20, -20) && !turned.is_normalized());
    assert!(rt; turned.normalize() == sides(-20, -20, -10, -10));
}

#[test]
fn normalize() {
    let rt = crate::std_for_tests::Host;
    let (one, y_swapped, x_swapped) = (sides(1, 2, 3, 4), sides(1, 4, 3, 2), sides(3, 2, 1, 4));
    assert!(rt; one.is_normalized() && !sides(3, 4, 1, 2).is_normalized());
    assert!(rt; !y_swapped.is_normalized() && y_swapped.normalize() == one);
    assert!(rt; !x_swapped.is_normalized() && x_swapped.normalize() == one);
    assert!(rt; sides(3, 3, 3, 3).is_normalized());
    assert!(rt; BoundingBox::<i32>::default() == sides(0, 0, 0, 0));
}

/// A corner, less than or equal to another if neither coordinate is greater.
#[derive(Clone, Copy)]
struct Corner {
    x: u8,
    y: u8,
}

impl Corner {
    fn is_within(&self, other: &Corner) -> bool {
        self.x <= other.x && self.y <= other.y
    }
}

impl PartialEq for Corner {
    fn eq(&self, other: &Corner) -> bool {
        self.is_within(other) && other.is_within(self)
    }
}

impl PartialOrd for Corner {
    fn partial_cmp(&self, other: &Corner) -> Option<Ordering> {
        match (self.is_within(other), other.is_within(self)) {
            (true, true) => Some(Ordering::Equal),
            (true, false) => Some(Ordering::Less),
            (false, true) => Some(Ordering::Greater),
            (false, false) => None,
        }
    }
}

#[test]
fn normalize_incomparable_sides() {
    let rt = crate::std_for_tests::Host;
    let (left, right) = (Corner { x: 1, y: 2 }, Corner { x: 2, y: 1 });
    assert!(rt; left.partial_cmp(&right).is_none());
    let odd = BoundingBox { x_min: left, y_min: left, x_max: right, y_max: left };
    let swapped = odd.normalize();
    assert!(rt; swapped.x_min == right && swapped.x_max == left);
    assert!(rt; swapped.y_min == left && swapped.y_max == left);
    assert!(rt; !swapped.is_normalized() && swapped.normalize() == odd);
}
