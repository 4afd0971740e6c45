// @generated from crates/font_c/src/matrix.rt by tools/erase

//! Matrices and points of 16.16 values.

use crate::font_types::{Fixed, Matrix, Point};

/// A matrix of raw 16.16 values: it transforms `(x, y)` to
/// `(xx * x + xy * y + dx, yx * x + yy * y + dy)`.
#[repr(C)]
#[derive(Clone, Copy)]
pub struct FontMatrix {
    pub xx: i32,
    pub yx: i32,
    pub xy: i32,
    pub yy: i32,
    pub dx: i32,
    pub dy: i32,
}

/// A point of raw 16.16 values.
#[repr(C)]
#[derive(Clone, Copy)]
pub struct FontPoint {
    pub x: i32,
    pub y: i32,
}

impl From<Matrix<Fixed>> for FontMatrix {
    fn from(matrix: Matrix<Fixed>) -> Self {
        Self {
            xx: matrix.xx.to_bits(),
            yx: matrix.yx.to_bits(),
            xy: matrix.xy.to_bits(),
            yy: matrix.yy.to_bits(),
            dx: matrix.dx.to_bits(),
            dy: matrix.dy.to_bits(),
        }
    }
}

impl From<FontMatrix> for Matrix<Fixed> {
    fn from(given: FontMatrix) -> Self {
        Self {
            xx: Fixed::from_bits(given.xx),
            yx: Fixed::from_bits(given.yx),
            xy: Fixed::from_bits(given.xy),
            yy: Fixed::from_bits(given.yy),
            dx: Fixed::from_bits(given.dx),
            dy: Fixed::from_bits(given.dy),
        }
    }
}

impl From<Point<Fixed>> for FontPoint {
    fn from(point: Point<Fixed>) -> Self {
        Self { x: point.x.to_bits(), y: point.y.to_bits() }
    }
}

impl From<FontPoint> for Point<Fixed> {
    fn from(given: FontPoint) -> Self {
        Self::new(Fixed::from_bits(given.x), Fixed::from_bits(given.y))
    }
}

/// Returns the matrix that applies `b` first, then `a`. Products round and sums wrap, as of 16.16
/// values.
#[unsafe(no_mangle)]
pub extern "C" fn fty_matrix_product(a: FontMatrix, b: FontMatrix) -> FontMatrix {
    (Matrix::from(a) * Matrix::from(b)).into()
}

/// Transforms a point.
#[unsafe(no_mangle)]
pub extern "C" fn fty_matrix_transform_point(m: FontMatrix, p: FontPoint) -> FontPoint {
    (Matrix::from(m) * Point::from(p)).into()
}

/// Transforms a vector: as `fty_matrix_transform_point`, without the translation.
#[unsafe(no_mangle)]
pub extern "C" fn fty_matrix_transform_vector(m: FontMatrix, v: FontPoint) -> FontPoint {
    fty_matrix_transform_point(FontMatrix { dx: 0, dy: 0, ..m }, v)
}

/// Transforms points in place, each as `fty_matrix_transform_point` does.
#[unsafe(no_mangle)]
pub unsafe extern "C" fn fty_matrix_transform_points(
    m: &FontMatrix,
    points: *mut FontPoint,
    points_len: usize,
) {
    let points = unsafe { crate::slice_mut(points, points_len) };
    for p in points.iter_mut() {
        *p = fty_matrix_transform_point(*m, *p);
    }
}
