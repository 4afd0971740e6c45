// @generated from crates/font_geom/src/point.rt by tools/erase

//! Two-dimensional points.

#[cfg(doc)]
use crate::definitions::font_base::Wrap_antt::FitsBits;
#[cfg(doc)]
use crate::definitions::font_fixed::FixedI32_antt::bits_of;
#[cfg(doc)]
use crate::definitions::font_geom::Calls_antt::{CallsEach, CanCallEach};

use crate::font_fixed::FixedI32;
use core::ops::{Add, AddAssign, Div, DivAssign, Mul, MulAssign, Neg, Sub, SubAssign};

/// A two-dimensional point.
///
/// Each operator applies that of the coordinates. So over fixed-point numbers a sum wraps on
/// overflow, and a product or a quotient is rounded and wraps. Over those of 32 bits, `checked_add`
/// and `checked_sub` return `None` in place of a wrapped sum or difference. Over std's integers, an
/// overflow panics in a debug build and wraps in a release build, and a division by zero panics.
///
/// ```
/// use font_types_proved::Point;
/// assert_eq!(Point::new(3, 4) - Point::broadcast(1), Point::new(2, 3));
/// ```
///
/// The source and its contracts: `crates/font_geom/src/point.rt`.
#[derive(Clone, Copy, PartialEq, Eq, Default, Debug)]
pub struct Point<T> {
    /// The x coordinate.
    pub x: T,
    /// The y coordinate.
    pub y: T,
}

impl<T> Point<T> {
    /// Creates a point.
    ///
    /// <details><summary>Contract</summary>
    ///
    /// ```text
    /// ensures { result ≡ record { x = x; y = y } }
    /// ```
    /// [Notation](crate::definitions)
    /// </details>
    #[must_use]
    #[inline(always)]
    pub const fn new(x: T, y: T) -> Self {
        Self { x, y }
    }

    /// Creates a point with both coordinates equal to `xy`.
    ///
    /// <details><summary>Contract</summary>
    ///
    /// ```text
    /// ensures { result ≡ record { x = xy; y = xy } }
    /// ```
    /// [Notation](crate::definitions)
    /// </details>
    #[must_use]
    #[inline]
    pub const fn broadcast(xy: T) -> Self
    where
        T: Copy,
    {
        Self { x: xy, y: xy }
    }

    /// Applies a function to each coordinate, x first.
    ///
    /// `point.map(|n| n / 2)` halves both.
    ///
    /// # Panics
    ///
    /// Panics if the function does.
    ///
    /// <details><summary>Contract</summary>
    ///
    /// ```text
    /// requires { CanCallEach F.pre F.step f (self.x ∷ self.y ∷ []) }
    /// ensures { CallsEach F.step f (self.x ∷ self.y ∷ []) (result.x ∷ result.y ∷ []) }
    /// ```
    /// [Notation](crate::definitions): [`CanCallEach`], [`CallsEach`]
    /// </details>
    #[must_use]
    #[inline(always)]
    pub fn map<U, F: FnMut(T) -> U>(self, mut f: F) -> Point<U> {
        Point { x: f(self.x), y: f(self.y) }
    }
}

impl<const F: u32> Point<FixedI32<F>> {
    /// Adds coordinate by coordinate, or returns `None` if one overflows.
    ///
    /// <details><summary>Contract</summary>
    ///
    /// ```text
    /// ensures variant { IsSome result
    ///     ↔ (FitsBits 32 (bits_of self.entry.x +ℤ bits_of other.entry.x)
    ///     × FitsBits 32 (bits_of self.entry.y +ℤ bits_of other.entry.y)) }
    /// ensures value { IfSome result (λ sum.
    ///     (bits_of sum.x ≡ (bits_of self.entry.x +ℤ bits_of other.entry.x))
    ///     × (bits_of sum.y ≡ (bits_of self.entry.y +ℤ bits_of other.entry.y))) }
    /// ```
    /// [Notation](crate::definitions): [`FitsBits`], [`bits_of`]
    /// </details>
    #[must_use]
    #[inline]
    pub const fn checked_add(self, other: Self) -> Option<Self> {
        match (self.x.checked_add(other.x), self.y.checked_add(other.y)) {
            (Some(x), Some(y)) => Some(Self::new(x, y)),
            _ => None,
        }
    }

    /// Subtracts coordinate by coordinate, or returns `None` if one overflows.
    ///
    /// <details><summary>Contract</summary>
    ///
    /// ```text
    /// ensures variant { IsSome result
    ///     ↔ (FitsBits 32 (bits_of self.entry.x -ℤ bits_of other.entry.x)
    ///     × FitsBits 32 (bits_of self.entry.y -ℤ bits_of other.entry.y)) }
    /// ensures value { IfSome result (λ rest.
    ///     (bits_of rest.x ≡ (bits_of self.entry.x -ℤ bits_of other.entry.x))
    ///     × (bits_of rest.y ≡ (bits_of self.entry.y -ℤ bits_of other.entry.y))) }
    /// ```
    /// [Notation](crate::definitions): [`FitsBits`], [`bits_of`]
    /// </details>
    #[must_use]
    #[inline]
    pub const fn checked_sub(self, other: Self) -> Option<Self> {
        match (self.x.checked_sub(other.x), self.y.checked_sub(other.y)) {
            (Some(x), Some(y)) => Some(Self::new(x, y)),
            _ => None,
        }
    }
}

/// Adds coordinate by coordinate.
///
/// <details><summary>Contract</summary>
///
/// ```text
/// ghost can_add = { λ p q. T.can_add p.x q.x × T.can_add p.y q.y };
/// ghost add_gives = { λ p q sum. T.add_gives p.x q.x sum.x × T.add_gives p.y q.y sum.y };
/// ```
/// [Notation](crate::definitions)
/// </details>
impl<T: Add<Output = T>> Add for Point<T> {
    type Output = Point<T>;

    #[inline(always)]
    fn add(self, rhs: Point<T>) -> Point<T> {
        Point { x: self.x + rhs.x, y: self.y + rhs.y }
    }
}

/// Adds coordinate by coordinate.
///
/// <details><summary>Contract</summary>
///
/// ```text
/// ghost can_add_assign = { λ p q. T.can_add_assign p.x q.x × T.can_add_assign p.y q.y };
/// ghost add_assign_gives = { λ p q sum. T.add_assign_gives p.x q.x sum.x
///     × T.add_assign_gives p.y q.y sum.y };
/// ```
/// [Notation](crate::definitions)
/// </details>
impl<T: AddAssign> AddAssign for Point<T> {
    #[inline(always)]
    fn add_assign(&mut self, rhs: Point<T>) {
        self.x += rhs.x;
        self.y += rhs.y;
    }
}

/// Subtracts coordinate by coordinate.
///
/// <details><summary>Contract</summary>
///
/// ```text
/// ghost can_sub = { λ p q. T.can_sub p.x q.x × T.can_sub p.y q.y };
/// ghost sub_gives = { λ p q rest. T.sub_gives p.x q.x rest.x × T.sub_gives p.y q.y rest.y };
/// ```
/// [Notation](crate::definitions)
/// </details>
impl<T: Sub<Output = T>> Sub for Point<T> {
    type Output = Point<T>;

    #[inline(always)]
    fn sub(self, rhs: Point<T>) -> Point<T> {
        Point { x: self.x - rhs.x, y: self.y - rhs.y }
    }
}

/// Subtracts coordinate by coordinate.
///
/// <details><summary>Contract</summary>
///
/// ```text
/// ghost can_sub_assign = { λ p q. T.can_sub_assign p.x q.x × T.can_sub_assign p.y q.y };
/// ghost sub_assign_gives = { λ p q rest. T.sub_assign_gives p.x q.x rest.x
///     × T.sub_assign_gives p.y q.y rest.y };
/// ```
/// [Notation](crate::definitions)
/// </details>
impl<T: SubAssign> SubAssign for Point<T> {
    #[inline(always)]
    fn sub_assign(&mut self, rhs: Point<T>) {
        self.x -= rhs.x;
        self.y -= rhs.y;
    }
}

/// Multiplies coordinate by coordinate.
///
/// <details><summary>Contract</summary>
///
/// ```text
/// ghost can_mul = { λ p q. T.can_mul p.x q.x × T.can_mul p.y q.y };
/// ghost mul_gives = { λ p q product. T.mul_gives p.x q.x product.x
///     × T.mul_gives p.y q.y product.y };
/// ```
/// [Notation](crate::definitions)
/// </details>
impl<T: Mul<Output = T>> Mul for Point<T> {
    type Output = Point<T>;

    #[inline(always)]
    fn mul(self, rhs: Point<T>) -> Point<T> {
        Point { x: self.x * rhs.x, y: self.y * rhs.y }
    }
}

/// Multiplies each coordinate by a number.
///
/// <details><summary>Contract</summary>
///
/// ```text
/// ghost can_mul = { λ p factor. T.can_mul p.x factor × T.can_mul p.y factor };
/// ghost mul_gives = { λ p factor product. T.mul_gives p.x factor product.x
///     × T.mul_gives p.y factor product.y };
/// ```
/// [Notation](crate::definitions)
/// </details>
impl<T: Mul<Output = T> + Copy> Mul<T> for Point<T> {
    type Output = Point<T>;

    #[inline(always)]
    fn mul(self, rhs: T) -> Point<T> {
        Point { x: self.x * rhs, y: self.y * rhs }
    }
}

/// Multiplies coordinate by coordinate.
///
/// <details><summary>Contract</summary>
///
/// ```text
/// ghost can_mul_assign = { λ p q. T.can_mul_assign p.x q.x × T.can_mul_assign p.y q.y };
/// ghost mul_assign_gives = { λ p q product. T.mul_assign_gives p.x q.x product.x
///     × T.mul_assign_gives p.y q.y product.y };
/// ```
/// [Notation](crate::definitions)
/// </details>
impl<T: MulAssign> MulAssign for Point<T> {
    #[inline(always)]
    fn mul_assign(&mut self, rhs: Point<T>) {
        self.x *= rhs.x;
        self.y *= rhs.y;
    }
}

/// Multiplies each coordinate by a number.
///
/// <details><summary>Contract</summary>
///
/// ```text
/// ghost can_mul_assign = { λ p factor. T.can_mul_assign p.x factor
///     × T.can_mul_assign p.y factor };
/// ghost mul_assign_gives = { λ p factor product. T.mul_assign_gives p.x factor product.x
///     × T.mul_assign_gives p.y factor product.y };
/// ```
/// [Notation](crate::definitions)
/// </details>
impl<T: MulAssign + Copy> MulAssign<T> for Point<T> {
    #[inline(always)]
    fn mul_assign(&mut self, rhs: T) {
        self.x *= rhs;
        self.y *= rhs;
    }
}

/// Divides coordinate by coordinate.
///
/// <details><summary>Contract</summary>
///
/// ```text
/// ghost can_div = { λ p q. T.can_div p.x q.x × T.can_div p.y q.y };
/// ghost div_gives = { λ p q quotient. T.div_gives p.x q.x quotient.x
///     × T.div_gives p.y q.y quotient.y };
/// ```
/// [Notation](crate::definitions)
/// </details>
impl<T: Div<Output = T>> Div for Point<T> {
    type Output = Point<T>;

    #[inline(always)]
    fn div(self, rhs: Point<T>) -> Point<T> {
        Point { x: self.x / rhs.x, y: self.y / rhs.y }
    }
}

/// Divides each coordinate by a number.
///
/// <details><summary>Contract</summary>
///
/// ```text
/// ghost can_div = { λ p divisor. T.can_div p.x divisor × T.can_div p.y divisor };
/// ghost div_gives = { λ p divisor quotient. T.div_gives p.x divisor quotient.x
///     × T.div_gives p.y divisor quotient.y };
/// ```
/// [Notation](crate::definitions)
/// </details>
impl<T: Div<Output = T> + Copy> Div<T> for Point<T> {
    type Output = Point<T>;

    #[inline(always)]
    fn div(self, rhs: T) -> Point<T> {
        Point { x: self.x / rhs, y: self.y / rhs }
    }
}

/// Divides coordinate by coordinate.
///
/// <details><summary>Contract</summary>
///
/// ```text
/// ghost can_div_assign = { λ p q. T.can_div_assign p.x q.x × T.can_div_assign p.y q.y };
/// ghost div_assign_gives = { λ p q quotient. T.div_assign_gives p.x q.x quotient.x
///     × T.div_assign_gives p.y q.y quotient.y };
/// ```
/// [Notation](crate::definitions)
/// </details>
impl<T: DivAssign> DivAssign for Point<T> {
    #[inline(always)]
    fn div_assign(&mut self, rhs: Point<T>) {
        self.x /= rhs.x;
        self.y /= rhs.y;
    }
}

/// Divides each coordinate by a number.
///
/// <details><summary>Contract</summary>
///
/// ```text
/// ghost can_div_assign = { λ p divisor. T.can_div_assign p.x divisor
///     × T.can_div_assign p.y divisor };
/// ghost div_assign_gives = { λ p divisor quotient. T.div_assign_gives p.x divisor quotient.x
///     × T.div_assign_gives p.y divisor quotient.y };
/// ```
/// [Notation](crate::definitions)
/// </details>
impl<T: DivAssign + Copy> DivAssign<T> for Point<T> {
    #[inline(always)]
    fn div_assign(&mut self, rhs: T) {
        self.x /= rhs;
        self.y /= rhs;
    }
}

/// Negates each coordinate.
///
/// <details><summary>Contract</summary>
///
/// ```text
/// ghost can_neg = { λ p. T.can_neg p.x × T.can_neg p.y };
/// ghost neg_gives = { λ p opposite. T.neg_gives p.x opposite.x × T.neg_gives p.y opposite.y };
/// ```
/// [Notation](crate::definitions)
/// </details>
impl<T: Neg<Output = T>> Neg for Point<T> {
    type Output = Point<T>;

    #[inline]
    fn neg(self) -> Point<T> {
        Point { x: -self.x, y: -self.y }
    }
}
