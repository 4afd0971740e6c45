// @generated from crates/font_geom/src/bbox.rt by tools/erase

//! Axis-aligned bounding boxes.

#[cfg(doc)]
use crate::definitions::font_geom::BoundingBox_antt::{
    CanScale, Compares, HasSamePairs, IsScaled, is_normalized, normalized_box,
};

use core::ops::Mul;

/// The minimum and maximum coordinates of a region.
///
/// ```
/// use font_types_proved::BoundingBox;
/// let region = BoundingBox { x_min: 3, y_min: 0, x_max: 1, y_max: 2 };
/// assert_eq!(region.normalize(), BoundingBox { x_min: 1, y_min: 0, x_max: 3, y_max: 2 });
/// assert_eq!(region.scale(2).y_max, 4);
/// ```
///
/// The source and its contracts: `crates/font_geom/src/bbox.rt`.
#[derive(Clone, Copy, PartialEq, Eq, Default, Debug)]
pub struct BoundingBox<T> {
    /// The minimum x coordinate.
    pub x_min: T,
    /// The minimum y coordinate.
    pub y_min: T,
    /// The maximum x coordinate.
    pub x_max: T,
    /// The maximum y coordinate.
    pub y_max: T,
}

impl<T: Mul<Output = T> + Copy> BoundingBox<T> {
    /// Multiplies each coordinate by `factor`.
    ///
    /// A negative factor swaps minimum and maximum: call `normalize` afterwards. Each product
    /// rounds and wraps as `*` of the type does: over `Fixed`, a coordinate that leaves 32 bits
    /// wraps.
    ///
    /// # Panics
    ///
    /// Panics if `*` of the type does, such as that of `i32` on overflow in a debug build.
    ///
    /// <details><summary>Contract</summary>
    ///
    /// ```text
    /// requires { CanScale T.can_mul self.now factor }
    /// ensures { IsScaled T.mul_gives self.now factor result }
    /// ```
    /// [Notation](crate::definitions): [`CanScale`], [`IsScaled`]
    /// </details>
    #[must_use]
    #[inline]
    pub fn scale(&self, factor: T) -> Self {
        Self {
            x_min: self.x_min * factor,
            y_min: self.y_min * factor,
            x_max: self.x_max * factor,
            y_max: self.y_max * factor,
        }
    }
}

impl<T: PartialOrd + Copy> BoundingBox<T> {
    /// Returns `true` if `x_min <= x_max` and `y_min <= y_max`.
    ///
    /// <details><summary>Contract</summary>
    ///
    /// ```text
    /// ensures { result ≡ is_normalized (partial_le T.partial_cmp) self.now }
    /// ```
    /// [Notation](crate::definitions): [`mod@is_normalized`]
    /// </details>
    #[must_use]
    #[inline]
    pub fn is_normalized(&self) -> bool {
        self.x_min <= self.x_max && self.y_min <= self.y_max
    }

    /// Swaps each pair unless `min <= max`.
    ///
    /// A pair that does not compare is swapped too, and then the box is not normalized.
    ///
    /// ```
    /// use font_types_proved::BoundingBox;
    /// let (x_min, y_min, x_max, y_max) = (5, 5, 10, 10);
    /// let mirrored = BoundingBox { x_min, y_min, x_max, y_max }.scale(-2).normalize();
    /// assert_eq!((mirrored.x_min, mirrored.x_max), (-20, -10));
    /// ```
    ///
    /// <details><summary>Contract</summary>
    ///
    /// ```text
    /// ensures value { result ≡ normalized_box (partial_le T.partial_cmp) self.now }
    /// ensures pairs { HasSamePairs self.now result }
    /// ensures in_order { Compares (partial_le T.partial_cmp) self.now
    ///     → IsTrue (is_normalized (partial_le T.partial_cmp) result) }
    /// ensures once { Compares (partial_le T.partial_cmp) self.now
    ///     → normalized_box (partial_le T.partial_cmp) result ≡ result }
    /// ```
    /// [Notation](crate::definitions): [`normalized_box`], [`HasSamePairs`], [`Compares`], [`mod@is_normalized`]
    /// </details>
    #[must_use]
    #[inline]
    pub fn normalize(&self) -> Self {
        let (x_min, x_max) = if self.x_min <= self.x_max {
            (self.x_min, self.x_max)
        } else {
            (self.x_max, self.x_min)
        };
        let (y_min, y_max) = if self.y_min <= self.y_max {
            (self.y_min, self.y_max)
        } else {
            (self.y_max, self.y_min)
        };
        Self { x_min, y_min, x_max, y_max }
    }
}
