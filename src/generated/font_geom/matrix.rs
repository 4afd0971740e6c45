// @generated from crates/font_geom/src/matrix.rt by tools/erase

//! Affine matrices.

#[cfg(doc)]
use crate::definitions::font_base::Wrap_antt::FitsBits;
#[cfg(doc)]
use crate::definitions::font_geom::{
    Calls_antt::{CallsEach, CanCallEach},
    FixedMatrix_antt::{
        FitsPoint, bits_of_point, matrix_bits, point_bits, rounded_image, rounded_matrix_product,
    },
    Matrix_antt::{
        CanMultiply, CanTransform, FitsEach, IsProductOf, IsTransformed, elements_of,
        identity_matrix,
    },
};

use crate::font_fixed::{F48Dot16, Fixed, FixedI32, nearest_product};
use crate::font_geom::Point;
use core::ops::{Add, Mul, MulAssign};

/// An affine transformation: a 2 by 2 matrix and a translation.
///
/// ```none
/// | xx xy dx |
/// | yx yy dy |
/// ```
///
/// Transforms `(x, y)` to `(xx * x + xy * y + dx, yx * x + yy * y + dy)`. The product `a * b`
/// applies `b` first, then `a`. For [`Fixed`], the translation is in the unit of the points.
///
/// Over [`Fixed`], each product is rounded half away from zero, and what does not fit in 32 bits
/// wraps, in `*`, `*=` and `transform`. [`checked_transform`](Matrix::checked_transform) and
/// [`checked_mul`](Matrix::checked_mul) return `None` instead.
///
/// ```
/// use font_types_proved::{Fixed, Matrix, Point};
/// let half = Fixed::from_bits(0x8000);
/// let shrink = Matrix { xx: half, yy: half, ..Matrix::identity() };
/// assert_eq!(shrink * Point::new(Fixed::ONE, half), Point::new(half, half * half));
/// ```
///
/// The source and its contracts: `crates/font_geom/src/matrix.rt`.
#[derive(Clone, Copy, PartialEq, Eq, Debug)]
pub struct Matrix<T> {
    /// The factor of x in x.
    pub xx: T,
    /// The factor of x in y.
    pub yx: T,
    /// The factor of y in x.
    pub xy: T,
    /// The factor of y in y.
    pub yy: T,
    /// The translation along x.
    pub dx: T,
    /// The translation along y.
    pub dy: T,
}

/// A type of matrix elements.
///
/// # Laws
///
/// None. That `ZERO` and `ONE` are neutral, so that the identity matrix is neutral, is a law of
/// [`RingElement`](crate::RingElement).
///
/// ```
/// use core::ops::{Add, Mul};
/// use font_types_proved::{Matrix, MatrixElement, Point};
///
/// /// An integer that wraps.
/// #[derive(Clone, Copy, Debug, PartialEq)]
/// struct Units(i32);
///
/// impl Add for Units {
///     type Output = Self;
///
///     fn add(self, other: Self) -> Self {
///         Self(self.0.wrapping_add(other.0))
///     }
/// }
///
/// impl Mul for Units {
///     type Output = Self;
///
///     fn mul(self, other: Self) -> Self {
///         Self(self.0.wrapping_mul(other.0))
///     }
/// }
///
/// impl MatrixElement for Units {
///     const ZERO: Self = Self(0);
///     const ONE: Self = Self(1);
/// }
///
/// let shift = Matrix { dx: Units(5), ..Matrix::identity() };
/// assert_eq!(shift * Point::new(Units(1), Units(2)), Point::new(Units(6), Units(2)));
/// ```
///
/// The source and its contracts: `crates/font_geom/src/matrix.rt`.
pub trait MatrixElement: Copy + Add<Output = Self> + Mul<Output = Self> {
    /// The value 0.
    const ZERO: Self;

    /// The value 1.
    const ONE: Self;
}

impl MatrixElement for Fixed {
    const ZERO: Self = Fixed::ZERO;

    const ONE: Self = Fixed::ONE;
}

impl<T: Copy> Matrix<T> {
    /// Creates a matrix from its elements in the order `[xx, yx, xy, yy, dx, dy]`.
    ///
    /// ```
    /// use font_types_proved::{Fixed, Matrix, Point};
    /// let double_and_move = Matrix::from_elements([2, 0, 0, 2, 10, 20].map(Fixed::from_i32));
    /// let moved = double_and_move * Point::new(Fixed::ONE, Fixed::ONE);
    /// assert_eq!(moved, Point::new(12, 22).map(Fixed::from_i32));
    /// ```
    ///
    /// <details><summary>Contract</summary>
    ///
    /// ```text
    /// ensures { elements_of result ≡ elements }
    /// ```
    /// [Notation](crate::definitions): [`elements_of`]
    /// </details>
    #[must_use]
    #[inline]
    pub const fn from_elements(elements: [T; 6]) -> Self {
        let [xx, yx, xy, yy, dx, dy] = elements;
        Self { xx, yx, xy, yy, dx, dy }
    }

    /// Returns the elements in the order `[xx, yx, xy, yy, dx, dy]`.
    ///
    /// <details><summary>Contract</summary>
    ///
    /// ```text
    /// ensures { result ≡ elements_of self.now }
    /// ```
    /// [Notation](crate::definitions): [`elements_of`]
    /// </details>
    #[must_use]
    #[inline]
    pub const fn elements(&self) -> [T; 6] {
        [self.xx, self.yx, self.xy, self.yy, self.dx, self.dy]
    }

    /// Applies a function to each element, in the order of `elements`.
    ///
    /// # Panics
    ///
    /// Panics if the function does.
    ///
    /// <details><summary>Contract</summary>
    ///
    /// ```text
    /// requires { CanCallEach F.pre F.step f (elements_of self) }
    /// ensures { CallsEach F.step f (elements_of self) (elements_of result) }
    /// ```
    /// [Notation](crate::definitions): [`CanCallEach`], [`elements_of`], [`CallsEach`]
    /// </details>
    #[must_use]
    #[inline(always)]
    pub fn map<U: Copy, F: FnMut(T) -> U>(self, mut f: F) -> Matrix<U> {
        Matrix {
            xx: f(self.xx),
            yx: f(self.yx),
            xy: f(self.xy),
            yy: f(self.yy),
            dx: f(self.dx),
            dy: f(self.dy),
        }
    }
}

impl<T: MatrixElement> Matrix<T> {
    /// Returns the identity matrix: `ONE` in `xx` and `yy`, and `ZERO` elsewhere.
    ///
    /// <details><summary>Contract</summary>
    ///
    /// ```text
    /// ensures { result ≡ identity_matrix T.ZERO T.ONE }
    /// ```
    /// [Notation](crate::definitions): [`identity_matrix`]
    /// </details>
    #[must_use]
    #[inline]
    pub const fn identity() -> Self {
        Self { xx: T::ONE, yx: T::ZERO, xy: T::ZERO, yy: T::ONE, dx: T::ZERO, dy: T::ZERO }
    }

    /// Returns `(xx * x + xy * y + dx, yx * x + yy * y + dy)`, the image of the point `(x, y)`, by
    /// the operators of the elements: those of [`Fixed`] wrap on overflow.
    ///
    /// # Panics
    ///
    /// Panics if an operator of the elements does.
    ///
    /// <details><summary>Contract</summary>
    ///
    /// ```text
    /// requires { CanTransform T.can_mul T.mul_gives T.can_add T.add_gives self.now x y }
    /// ensures { IsTransformed T.mul_gives T.add_gives self.now x y result.0 result.1 }
    /// ```
    /// [Notation](crate::definitions): [`CanTransform`], [`IsTransformed`]
    /// </details>
    #[must_use]
    #[inline]
    pub fn transform(&self, x: T, y: T) -> (T, T) {
        (self.xx * x + self.xy * y + self.dx, self.yx * x + self.yy * y + self.dy)
    }
}

impl Matrix<Fixed> {
    /// Returns the image of the point `(x, y)`, as [`transform`](Self::transform) does, or `None`
    /// if one of its coordinates overflows. Intermediate sums may overflow.
    ///
    /// <details><summary>Contract</summary>
    ///
    /// ```text
    /// ensures variant { IsSome result ↔ FitsPoint
    ///     (rounded_image (matrix_bits self.now) (point_bits (record { x = x; y = y }))) }
    /// ensures value { IfSome result (λ moved. point_bits (record { x = moved.0; y = moved.1 })
    ///     ≡ rounded_image (matrix_bits self.now) (point_bits (record { x = x; y = y }))) }
    /// ```
    /// [Notation](crate::definitions): [`FitsPoint`], [`rounded_image`], [`matrix_bits`], [`point_bits`]
    /// </details>
    #[must_use]
    #[inline]
    pub const fn checked_transform(&self, x: Fixed, y: Fixed) -> Option<(Fixed, Fixed)> {
        match (
            checked_form(self.xx, x, self.xy, y, self.dx),
            checked_form(self.yx, x, self.yy, y, self.dy),
        ) {
            (Some(x), Some(y)) => Some((x, y)),
            _ => None,
        }
    }

    /// Returns the image of a point of any format, or `None` if one of its coordinates overflows.
    /// Only the linear entries are numbers of 16.16: `dx` and `dy` have the raw values of a
    /// translation in the format of the point.
    ///
    /// ```
    /// use font_types_proved::{F26Dot6, Fixed, Matrix, Point};
    /// let (xx, dx) = (Fixed::lit("0.5"), Fixed::from_bits(64));
    /// let matrix = Matrix { xx, dx, ..Matrix::identity() };
    /// let pixels = Point::new(F26Dot6::from_i32(10), F26Dot6::ZERO);
    /// let moved = Point::new(F26Dot6::from_i32(6), F26Dot6::ZERO);
    /// assert_eq!(matrix.checked_transform_point(pixels), Some(moved));
    /// ```
    ///
    /// <details><summary>Contract</summary>
    ///
    /// ```text
    /// ensures variant { IsSome result
    ///     ↔ FitsPoint (rounded_image (matrix_bits self) (bits_of_point point.entry)) }
    /// ensures value { IfSome result (λ moved. bits_of_point moved
    ///     ≡ rounded_image (matrix_bits self) (bits_of_point point.entry)) }
    /// ```
    /// [Notation](crate::definitions): [`FitsPoint`], [`rounded_image`], [`matrix_bits`], [`bits_of_point`]
    /// </details>
    #[doc(alias = "FT_Vector_Transform")]
    #[must_use]
    #[inline]
    pub const fn checked_transform_point<const F: u32>(
        self,
        point: Point<FixedI32<F>>,
    ) -> Option<Point<FixedI32<F>>> {
        let (x, y) = (Fixed::from_bits(point.x.to_bits()), Fixed::from_bits(point.y.to_bits()));
        match self.checked_transform(x, y) {
            Some((x, y)) => {
                Some(Point::new(FixedI32::from_bits(x.to_bits()), FixedI32::from_bits(y.to_bits())))
            }
            None => None,
        }
    }

    /// Returns `self * other`, or `None` if one of its entries overflows. Intermediate sums may
    /// overflow.
    ///
    /// <details><summary>Contract</summary>
    ///
    /// ```text
    /// ensures variant { IsSome result ↔ FitsEach (FitsBits 32)
    ///     (rounded_matrix_product (matrix_bits self) (matrix_bits other)) }
    /// ensures value { IfSome result (λ product. matrix_bits product
    ///     ≡ rounded_matrix_product (matrix_bits self) (matrix_bits other)) }
    /// ```
    /// [Notation](crate::definitions): [`FitsEach`], [`FitsBits`], [`rounded_matrix_product`], [`matrix_bits`]
    /// </details>
    #[doc(alias = "FT_Matrix_Multiply")]
    #[must_use]
    #[inline]
    pub const fn checked_mul(self, other: Self) -> Option<Self> {
        let zero = Fixed::ZERO;
        match (
            checked_form(self.xx, other.xx, self.xy, other.yx, zero),
            checked_form(self.yx, other.xx, self.yy, other.yx, zero),
            checked_form(self.xx, other.xy, self.xy, other.yy, zero),
            checked_form(self.yx, other.xy, self.yy, other.yy, zero),
            checked_form(self.xx, other.dx, self.xy, other.dy, self.dx),
            checked_form(self.yx, other.dx, self.yy, other.dy, self.dy),
        ) {
            (Some(xx), Some(yx), Some(xy), Some(yy), Some(dx), Some(dy)) => {
                Some(Self { xx, yx, xy, yy, dx, dy })
            }
            _ => None,
        }
    }
}

// Returns `p * x + q * y + d`, or `None` if it overflows.
#[inline(always)]
const fn checked_form(p: Fixed, x: Fixed, q: Fixed, y: Fixed, d: Fixed) -> Option<Fixed> {
    F48Dot16::from_bits(exact_form(p, x, q, y, d)).checked_to_fixed()
}

// Returns the raw bits of `p * x + q * y + d`, which may not fit in 32 bits.
#[inline(always)]
const fn exact_form(p: Fixed, x: Fixed, q: Fixed, y: Fixed, d: Fixed) -> i64 {
    exact_product(p, x) + exact_product(q, y) + d.to_bits() as i64
}

// Returns the raw bits of `x * y`, which may not fit in 32 bits.
#[inline(always)]
const fn exact_product(x: Fixed, y: Fixed) -> i64 {
    nearest_product(x.to_bits(), y.to_bits(), 16)
}

/// <details><summary>Contract</summary>
///
/// ```text
/// ghost is_default = { λ matrix. matrix ≡ identity_matrix T.ZERO T.ONE };
/// ```
/// [Notation](crate::definitions): [`identity_matrix`]
/// </details>
impl<T: MatrixElement> Default for Matrix<T> {
    #[inline]
    fn default() -> Matrix<T> {
        Self::identity()
    }
}

/// Returns the matrix that transforms by `rhs` first, and then by `self`.
///
/// Its `xx` is `self.xx * rhs.xx + self.xy * rhs.yx`, and its `dx` is
/// `self.xx * rhs.dx + self.xy * rhs.dy + self.dx`.
///
/// <details><summary>Contract</summary>
///
/// ```text
/// ghost can_mul = { CanMultiply T.can_mul T.mul_gives T.can_add T.add_gives };
/// ghost mul_gives = { IsProductOf T.mul_gives T.add_gives };
/// ```
/// [Notation](crate::definitions): [`CanMultiply`], [`IsProductOf`]
/// </details>
impl<T: MatrixElement> Mul for Matrix<T> {
    type Output = Matrix<T>;

    #[inline]
    fn mul(self, rhs: Matrix<T>) -> Matrix<T> {
        Matrix {
            xx: self.xx * rhs.xx + self.xy * rhs.yx,
            yx: self.yx * rhs.xx + self.yy * rhs.yx,
            xy: self.xx * rhs.xy + self.xy * rhs.yy,
            yy: self.yx * rhs.xy + self.yy * rhs.yy,
            dx: self.xx * rhs.dx + self.xy * rhs.dy + self.dx,
            dy: self.yx * rhs.dx + self.yy * rhs.dy + self.dy,
        }
    }
}

/// Multiplies as `*` does.
///
/// <details><summary>Contract</summary>
///
/// ```text
/// ghost can_mul_assign = { CanMultiply T.can_mul T.mul_gives T.can_add T.add_gives };
/// ghost mul_assign_gives = { IsProductOf T.mul_gives T.add_gives };
/// ```
/// [Notation](crate::definitions): [`CanMultiply`], [`IsProductOf`]
/// </details>
impl<T: MatrixElement> MulAssign for Matrix<T> {
    #[inline]
    fn mul_assign(&mut self, rhs: Matrix<T>) {
        *self = *self * rhs;
    }
}

/// Transforms a point, as `transform` does.
///
/// <details><summary>Contract</summary>
///
/// ```text
/// ghost can_mul = { λ matrix p.
///     CanTransform T.can_mul T.mul_gives T.can_add T.add_gives matrix p.x p.y };
/// ghost mul_gives = { λ matrix p moved.
///     IsTransformed T.mul_gives T.add_gives matrix p.x p.y moved.x moved.y };
/// ```
/// [Notation](crate::definitions): [`CanTransform`], [`IsTransformed`]
/// </details>
impl<T: MatrixElement> Mul<Point<T>> for Matrix<T> {
    type Output = Point<T>;

    #[inline]
    fn mul(self, rhs: Point<T>) -> Point<T> {
        let (x, y) = self.transform(rhs.x, rhs.y);
        Point::new(x, y)
    }
}
