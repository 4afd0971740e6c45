// @generated from crates/rows/src/tests/geom/traits.rt by tools/erase

//! What no clause says: the traits of each type, by functions with bounds, and texts of `Debug`.

use super::boxes::sides;
use crate::font_fixed::Fixed;
use crate::font_geom::{BoundingBox, Matrix, MatrixElement, Point};
use crate::std_for_tests::alloc::{AllocError, Global};
use crate::std_for_tests::fmt::Debug;
use crate::std_for_tests::test::Fail;

fn is_shape<T: Copy + Eq + Default + Debug>() {}

fn is_element<T: MatrixElement>() {}

#[test]
fn traits() {
    let _rt = crate::std_for_tests::Host;
    is_shape::<Point<Fixed>>();
    is_shape::<BoundingBox<i32>>();
    is_shape::<Matrix<Fixed>>();
    is_element::<Fixed>();
}

// Returns whether a shape has this `{:?}`, and is equal to its clone.
fn has_debug_text<T: Copy + Eq + Debug>(
    alloc: Global,
    shape: T,
    text: &str,
) -> Result<bool, AllocError> {
    Ok(format!(in alloc; "{shape:?}")?.as_str() == text && shape.clone() == shape)
}

#[test]
fn debug_and_clone() -> Result<(), Fail> {
    let rt = crate::std_for_tests::Host;
    let text = "BoundingBox { x_min: 0, y_min: 1, x_max: 2, y_max: 3 }";
    assert!(rt; has_debug_text(rt.alloc(), sides(0, 1, 2, 3), text)?);
    let text = "Matrix { xx: 1, yx: 0, xy: 0, yy: 1, dx: 0, dy: 0 }";
    assert!(rt; has_debug_text(rt.alloc(), Matrix::<Fixed>::identity(), text)?);
    assert!(rt; has_debug_text(rt.alloc(), Point::new(1, -2), "Point { x: 1, y: -2 }")?);
    Ok(())
}
