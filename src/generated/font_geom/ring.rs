// @generated from crates/font_geom/src/ring.rt by tools/erase

//! Matrix elements that form a ring.

#[cfg(doc)]
use crate::definitions::font_geom::Ring_antt::RingLaws;

use crate::font_geom::MatrixElement;

/// A matrix element whose `+` and `*` accept all values and form a ring.
///
/// Products of matrices over such elements are associative, and `(a * b) * p` equals `a * (b * p)`.
/// `Fixed` is not one, because its products are rounded.
///
/// The numbers modulo 2 are a ring:
///
/// ```
/// use font_types_proved::{Matrix, MatrixElement, RingElement};
/// use std::ops::{Add, Mul};
///
/// #[derive(Clone, Copy, Debug, PartialEq)]
/// struct Bit(bool);
///
/// impl Add for Bit {
///     type Output = Bit;
///     fn add(self, other: Bit) -> Bit { Bit(self.0 ^ other.0) }
/// }
///
/// impl Mul for Bit {
///     type Output = Bit;
///     fn mul(self, other: Bit) -> Bit { Bit(self.0 & other.0) }
/// }
///
/// impl MatrixElement for Bit {
///     const ZERO: Bit = Bit(false);
///     const ONE: Bit = Bit(true);
/// }
///
/// impl RingElement for Bit {}
///
/// let exchange = Matrix::from_elements([false, true, true, false, false, false].map(Bit));
/// assert_eq!(exchange * exchange, Matrix::identity());
/// ```
///
/// # Laws
///
/// Rattle proves these of every implementation; rustc checks none of them.
///
/// - `+` and `*` accept all values: they do not panic.
/// - `+` is associative and commutative, and `x + ZERO` is `x`.
/// - `*` is associative and distributes over `+` on both sides. On both sides a product with `ONE`
///   is the other factor, and one with `ZERO` is `ZERO`.
///
/// The source and its contracts: `crates/font_geom/src/ring.rt`.
///
/// <details><summary>Contract</summary>
///
/// ```text
/// // the result of `x + y`
/// ghost plus: { Self → Self → Self };
/// // the result of `x * y`
/// ghost times: { Self → Self → Self };
/// // Both accept all values, and have no other results.
/// ghost can_add_all: { (x y : Self) → Self.can_add x y };
/// ghost can_multiply_all: { (x y : Self) → Self.can_mul x y };
/// ghost sum_is: { (x y r : Self) → Self.add_gives x y r → r ≡ plus x y };
/// ghost product_is: { (x y r : Self) → Self.mul_gives x y r → r ≡ times x y };
/// ghost ring: { RingLaws Self.ZERO Self.ONE plus times };
/// ```
/// [Notation](crate::definitions): [`RingLaws`]
/// </details>
pub trait RingElement: MatrixElement {}
