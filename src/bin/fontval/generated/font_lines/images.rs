// @generated from crates/font_lines/src/images.rt by tools/erase

//! The images of a point under two matrices.

use crate::host::*;

use crate::font_lines::error::CommandError;
use crate::font_lines::output::{append, append_decimal};
use crate::host::alloc::Allocator;
use font_types_proved::{Fixed, Matrix, Point, laws};

/// A point and two matrices.
#[derive(Clone, Copy)]
pub struct Images {
    /// The matrix that is applied last.
    pub a: Matrix<Fixed>,
    /// The matrix that is applied first.
    pub b: Matrix<Fixed>,
    /// The point.
    pub p: Point<Fixed>,
}

// The numbers are the elements of both matrices and the coordinates of the point.
impl From<[Fixed; 14]> for Images {
    fn from(numbers: [Fixed; 14]) -> Self {
        let (a, rest) = numbers.split_first_chunk::<6>().unwrap();
        let (b, rest) = rest.split_first_chunk::<6>().unwrap();
        Self {
            a: Matrix::from_elements(*a),
            b: Matrix::from_elements(*b),
            p: Point::new(rest[0], rest[1]),
        }
    }
}

/// Appends the image under the product of the matrices, and that under one after the other.
pub fn append_images<A: Allocator>(
    images: Images,
    output: &mut Vec<u8, A>,
) -> Result<(), CommandError> {
    append_point(laws::composed(images.a, images.b, images.p), output)?;
    append(b" ", output)?;
    append_point(laws::in_turn(images.a, images.b, images.p), output)
}

// Appends the coordinates of a point.
fn append_point<A: Allocator>(
    point: Point<Fixed>,
    output: &mut Vec<u8, A>,
) -> Result<(), CommandError> {
    append_decimal(point.x.to_decimal(), output)?;
    append(b" ", output)?;
    append_decimal(point.y.to_decimal(), output)
}
