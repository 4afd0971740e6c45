// @generated from crates/font_geom/src/laws.rt by tools/erase

//! Laws of matrices, as contracts of functions that make the calls and return their results.

#[cfg(doc)]
use crate::definitions::font_base::Wrap_antt::FitsBits;
#[cfg(doc)]
use crate::definitions::font_fixed::{F26Dot6_antt::f26dot6_bits, Fixed_antt::fixed_bits};
#[cfg(doc)]
use crate::definitions::font_geom::{
    FixedMatrix_antt::{
        FitsComposed, FitsInTurn, FitsPoint, IsCloseComposed, IsCloseImage, IsCloseInTurn,
        ProductsAssociate, matrix_bits, point_bits, rounded_product, wrapped_product, wrapped_sum,
    },
    Matrix_antt::{identity_matrix, image_of, matrix_product},
    Scale_antt::{IsCloseScaled, factor_of},
};

use crate::font_fixed::{F26Dot6, Fixed};
use crate::font_geom::{Matrix, Point, RingElement, Scale};

/// Returns `(a * b) * c` and `a * (b * c)`, which are equal.
///
/// <details><summary>Contract</summary>
///
/// ```text
/// ensures first { result.0 ≡ matrix_product T.plus T.times (matrix_product T.plus T.times a b) c }
/// ensures second { result.1
///     ≡ matrix_product T.plus T.times a (matrix_product T.plus T.times b c) }
/// ensures equal { result.0 ≡ result.1 }
/// ```
/// [Notation](crate::definitions): [`matrix_product`]
/// </details>
#[must_use]
#[inline]
pub fn associative<T: RingElement>(
    a: Matrix<T>,
    b: Matrix<T>,
    c: Matrix<T>,
) -> (Matrix<T>, Matrix<T>) {
    ((a * b) * c, a * (b * c))
}

/// Returns `(a * b) * p` and `a * (b * p)`, which are equal.
///
/// <details><summary>Contract</summary>
///
/// ```text
/// ensures first { result.0 ≡ image_of T.plus T.times (matrix_product T.plus T.times a b) p }
/// ensures second { result.1 ≡ image_of T.plus T.times a (image_of T.plus T.times b p) }
/// ensures equal { result.0 ≡ result.1 }
/// ```
/// [Notation](crate::definitions): [`image_of`], [`matrix_product`]
/// </details>
#[must_use]
#[inline]
pub fn action<T: RingElement>(a: Matrix<T>, b: Matrix<T>, p: Point<T>) -> (Point<T>, Point<T>) {
    ((a * b) * p, a * (b * p))
}

/// Returns the identity times `a`, and `a` times the identity: both are `a`.
///
/// <details><summary>Contract</summary>
///
/// ```text
/// ensures first { result.0 ≡ matrix_product T.plus T.times (identity_matrix T.ZERO T.ONE) a }
/// ensures second { result.1 ≡ matrix_product T.plus T.times a (identity_matrix T.ZERO T.ONE) }
/// ensures left { result.0 ≡ a }
/// ensures right { result.1 ≡ a }
/// ```
/// [Notation](crate::definitions): [`matrix_product`], [`identity_matrix`]
/// </details>
#[must_use]
#[inline]
pub fn identity_neutral<T: RingElement>(a: Matrix<T>) -> (Matrix<T>, Matrix<T>) {
    (Matrix::identity() * a, a * Matrix::identity())
}

/// Returns the identity times `a`, and `a` times the identity: both are `a`, even though products
/// round and sums wrap.
///
/// <details><summary>Contract</summary>
///
/// ```text
/// ensures first { matrix_bits result.0 ≡ matrix_product wrapped_sum wrapped_product
///     (identity_matrix (pos 0) (pos 65536)) (matrix_bits a) }
/// ensures second { matrix_bits result.1 ≡ matrix_product wrapped_sum wrapped_product
///     (matrix_bits a) (identity_matrix (pos 0) (pos 65536)) }
/// ensures left { result.0 ≡ a }
/// ensures right { result.1 ≡ a }
/// ```
/// [Notation](crate::definitions): [`matrix_bits`], [`matrix_product`], [`wrapped_sum`], [`wrapped_product`], [`identity_matrix`]
/// </details>
#[must_use]
#[inline]
pub fn fixed_identity(a: Matrix<Fixed>) -> (Matrix<Fixed>, Matrix<Fixed>) {
    let identity = Matrix::identity();
    (identity * a, a * identity)
}

/// Returns `(e * h) * h` and `e * (h * h)` for `e = Fixed::EPSILON` and `h` one half: `e` and zero.
///
/// So products of [`Fixed`] are not associative, and [`Fixed`] is not a [`RingElement`].
///
/// <details><summary>Contract</summary>
///
/// ```text
/// ensures first { fixed_bits result.0 ≡ pos 1 }
/// ensures second { fixed_bits result.1 ≡ pos 0 }
/// ensures apart { ¬ ProductsAssociate }
/// ```
/// [Notation](crate::definitions): [`fixed_bits`], [`ProductsAssociate`]
/// </details>
#[must_use]
#[inline]
pub fn step_and_halves() -> (Fixed, Fixed) {
    let (step, half) = (Fixed::EPSILON, Fixed::from_bits(0x8000));
    (step * half * half, step * (half * half))
}

/// Returns `a * p`, with a bound on the distance from the exact image of `p`.
///
/// If no coordinate of the result overflows 32 bits, each is at most one raw unit from the exact
/// one. Intermediate sums may wrap.
///
/// <details><summary>Contract</summary>
///
/// ```text
/// ensures value { point_bits result
///     ≡ image_of wrapped_sum wrapped_product (matrix_bits a) (point_bits p) }
/// ensures close { FitsPoint (image_of ◌+ℤ◌ rounded_product (matrix_bits a) (point_bits p))
///     → IsCloseImage (matrix_bits a) (point_bits p) (point_bits result) }
/// ```
/// [Notation](crate::definitions): [`point_bits`], [`image_of`], [`wrapped_sum`], [`wrapped_product`], [`matrix_bits`], [`FitsPoint`], [`rounded_product`], [`IsCloseImage`]
/// </details>
#[must_use]
#[inline]
pub fn image(a: Matrix<Fixed>, p: Point<Fixed>) -> Point<Fixed> {
    a * p
}

/// Returns `(a * b) * p`, with a bound on the distance from the exact image of `p`.
///
/// If no entry of `a * b` and no coordinate of the result overflows 32 bits, each coordinate is at
/// most `(|x| + |y|) / 65536 + 2` from the exact one, all as raw values. Intermediate sums may
/// wrap.
///
/// <details><summary>Contract</summary>
///
/// ```text
/// ensures value { point_bits result
///     ≡ image_of wrapped_sum wrapped_product (matrix_product wrapped_sum wrapped_product
///     (matrix_bits a) (matrix_bits b)) (point_bits p) }
/// ensures close { FitsComposed (matrix_bits a) (matrix_bits b) (point_bits p)
///     → IsCloseComposed (matrix_bits a) (matrix_bits b) (point_bits p) (point_bits result) }
/// ```
/// [Notation](crate::definitions): [`point_bits`], [`image_of`], [`wrapped_sum`], [`wrapped_product`], [`matrix_product`], [`matrix_bits`], [`FitsComposed`], [`IsCloseComposed`]
/// </details>
#[must_use]
#[inline]
pub fn composed(a: Matrix<Fixed>, b: Matrix<Fixed>, p: Point<Fixed>) -> Point<Fixed> {
    (a * b) * p
}

/// Returns `a * (b * p)`, with a bound on the distance from the exact image of `p`.
///
/// If no coordinate of `b * p` and none of the result overflows 32 bits, `x` is at most
/// `(|a.xx| + |a.xy|) / 65536 + 1` from the exact one, and `y` at most
/// `(|a.yx| + |a.yy|) / 65536 + 1`, all as raw values. Intermediate sums may wrap.
///
/// <details><summary>Contract</summary>
///
/// ```text
/// ensures value { point_bits result
///     ≡ image_of wrapped_sum wrapped_product (matrix_bits a)
///     (image_of wrapped_sum wrapped_product (matrix_bits b) (point_bits p)) }
/// ensures close { FitsInTurn (matrix_bits a) (matrix_bits b) (point_bits p)
///     → IsCloseInTurn (matrix_bits a) (matrix_bits b) (point_bits p) (point_bits result) }
/// ```
/// [Notation](crate::definitions): [`point_bits`], [`image_of`], [`wrapped_sum`], [`wrapped_product`], [`matrix_bits`], [`FitsInTurn`], [`IsCloseInTurn`]
/// </details>
#[must_use]
#[inline]
pub fn in_turn(a: Matrix<Fixed>, b: Matrix<Fixed>, p: Point<Fixed>) -> Point<Fixed> {
    a * (b * p)
}

/// Returns `(a * b) * p` by the checked calls, or `None` on overflow, with the bound of
/// [`composed`], which has no premise here.
///
/// <details><summary>Contract</summary>
///
/// ```text
/// ensures variant { IsSome result
///     ↔ FitsComposed (matrix_bits a) (matrix_bits b) (point_bits p) }
/// ensures value { IfSome result (λ moved. point_bits moved
///     ≡ image_of wrapped_sum wrapped_product (matrix_product wrapped_sum wrapped_product
///     (matrix_bits a) (matrix_bits b)) (point_bits p)) }
/// ensures close { IfSome result (λ moved.
///     IsCloseComposed (matrix_bits a) (matrix_bits b) (point_bits p) (point_bits moved)) }
/// ```
/// [Notation](crate::definitions): [`FitsComposed`], [`matrix_bits`], [`point_bits`], [`image_of`], [`wrapped_sum`], [`wrapped_product`], [`matrix_product`], [`IsCloseComposed`]
/// </details>
#[must_use]
#[inline]
pub fn checked_composed(
    a: Matrix<Fixed>,
    b: Matrix<Fixed>,
    p: Point<Fixed>,
) -> Option<Point<Fixed>> {
    let (x, y) = a.checked_mul(b)?.checked_transform(p.x, p.y)?;
    Some(Point::new(x, y))
}

/// Returns `a * (b * p)` by the checked calls, or `None` on overflow, with the bound of
/// [`in_turn`], which has no premise here.
///
/// <details><summary>Contract</summary>
///
/// ```text
/// ensures variant { IsSome result ↔ FitsInTurn (matrix_bits a) (matrix_bits b) (point_bits p) }
/// ensures value { IfSome result (λ moved. point_bits moved
///     ≡ image_of wrapped_sum wrapped_product (matrix_bits a)
///     (image_of wrapped_sum wrapped_product (matrix_bits b) (point_bits p))) }
/// ensures close { IfSome result (λ moved.
///     IsCloseInTurn (matrix_bits a) (matrix_bits b) (point_bits p) (point_bits moved)) }
/// ```
/// [Notation](crate::definitions): [`FitsInTurn`], [`matrix_bits`], [`point_bits`], [`image_of`], [`wrapped_sum`], [`wrapped_product`], [`IsCloseInTurn`]
/// </details>
#[must_use]
#[inline]
pub fn checked_in_turn(
    a: Matrix<Fixed>,
    b: Matrix<Fixed>,
    p: Point<Fixed>,
) -> Option<Point<Fixed>> {
    let (x, y) = b.checked_transform(p.x, p.y)?;
    let (x, y) = a.checked_transform(x, y)?;
    Some(Point::new(x, y))
}

/// Returns `u` and `v`, two numbers of font units, at one size, or `None` if there is no scale.
///
/// In `1 / 64` pixel, the first is at most `1 / 2 + |u| / 2^17` from `u * size / units_per_em`. If
/// the size is not negative, the greater number never becomes the smaller. Opposite numbers become
/// opposite numbers.
///
/// <details><summary>Contract</summary>
///
/// ```text
/// ensures variant { IsSome result ↔ ((units_per_em ≢ 0)
///     × FitsBits 32 (factor_of (f26dot6_bits size) units_per_em)) }
/// ensures first { IfSome result (λ pair. f26dot6_bits pair.0
///     ≡ rounded_product u (factor_of (f26dot6_bits size) units_per_em)) }
/// ensures second { IfSome result (λ pair. f26dot6_bits pair.1
///     ≡ rounded_product v (factor_of (f26dot6_bits size) units_per_em)) }
/// ensures close { IfSome result (λ pair.
///     IsCloseScaled (f26dot6_bits size) units_per_em u (f26dot6_bits pair.0)) }
/// ensures in_order { pos 0 ≤ℤ f26dot6_bits size → u ≤ℤ v
///     → IfSome result (λ pair. f26dot6_bits pair.0 ≤ℤ f26dot6_bits pair.1) }
/// ensures opposite { u ≡ neg_ℤ v
///     → IfSome result (λ pair. f26dot6_bits pair.0 ≡ neg_ℤ (f26dot6_bits pair.1)) }
/// ```
/// [Notation](crate::definitions): [`FitsBits`], [`factor_of`], [`f26dot6_bits`], [`rounded_product`], [`IsCloseScaled`]
/// </details>
#[must_use]
#[inline]
pub fn scaled(size: F26Dot6, units_per_em: u16, u: i16, v: i16) -> Option<(F26Dot6, F26Dot6)> {
    let scale = Scale::new(size, units_per_em)?;
    Some((scale.apply(u), scale.apply(v)))
}
