// @generated from crates/font_c/src/laws.rt by tools/erase

//! The bounds of matrices, as contracts of functions that make two calls of exports.

use crate::font_c::matrix::{
    FontMatrix, FontPoint, fty_matrix_product, fty_matrix_transform_point,
};

/// Transforms a point by the product of `a` and `b`.
///
/// If no element of the product and no coordinate of the result overflows, each coordinate is at
/// most `(|p.x| + |p.y|) / 65536 + 2` from the exact one, all as raw values.
#[must_use]
pub fn composed(a: FontMatrix, b: FontMatrix, p: FontPoint) -> FontPoint {
    fty_matrix_transform_point(fty_matrix_product(a, b), p)
}

/// Transforms a point by `b`, and the result by `a`.
///
/// If no coordinate of either image overflows, `x` is at most `(|a.xx| + |a.xy|) / 65536 + 1` from
/// the exact one, and `y` at most `(|a.yx| + |a.yy|) / 65536 + 1`, all as raw values.
#[must_use]
pub fn in_turn(a: FontMatrix, b: FontMatrix, p: FontPoint) -> FontPoint {
    fty_matrix_transform_point(a, fty_matrix_transform_point(b, p))
}
