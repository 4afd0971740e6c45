// @generated from crates/font_fixed/src/laws/fixed.rt by tools/erase

//! Laws of [`Fixed`], as contracts of functions.

#[cfg(doc)]
use crate::definitions::font_base::Wrap_antt::{FitsBits, wrap};
#[cfg(doc)]
use crate::definitions::font_decimal::Near_antt::Up as up;
#[cfg(doc)]
use crate::definitions::font_fixed::{
    F48Dot16_antt::f48dot16_bits,
    Fixed_antt::fixed_bits,
    NumberLaws_antt::{OnFour, ProductInOneStep, ProductLaws, QuotientInOneStep, QuotientLaws},
    Operations_antt::{IsMulDiv, rounded_mul_div},
};

use crate::font_fixed::{F48Dot16, Fixed};

/// Returns `x * y`, `y * x`, `x * ONE` and `x.mul_div(y, ONE)`: the third is `x`, and the others
/// are equal.
///
/// <details><summary>Contract</summary>
///
/// ```text
/// ensures laws { OnFour result (λ product flipped by_one in_one_step.
///     ProductLaws 32 16 (fixed_bits x) (fixed_bits y)
///     (fixed_bits product) (fixed_bits flipped) (fixed_bits by_one)) }
/// ensures in_one_step { OnFour result (λ product flipped by_one in_one_step.
///     ProductInOneStep 32 16 (fixed_bits x) (fixed_bits y)
///     (fixed_bits product) (fixed_bits in_one_step)) }
/// ```
/// [Notation](crate::definitions): [`OnFour`], [`ProductLaws`], [`fixed_bits`], [`ProductInOneStep`]
/// </details>
#[must_use]
#[inline]
pub fn product_laws(x: Fixed, y: Fixed) -> [Fixed; 4] {
    [x * y, y * x, x * Fixed::ONE, x.mul_div(y, Fixed::ONE)]
}

/// Returns `x / y`, `x.mul_div(ONE, y)`, `x / ONE` and `x / x`.
///
/// The first two are equal, even if `y` is zero; the third is `x`, and the last is `ONE` unless `x`
/// is zero.
///
/// <details><summary>Contract</summary>
///
/// ```text
/// ensures laws { OnFour result (λ quotient in_one_step by_one by_itself.
///     QuotientLaws 32 16 (fixed_bits x) (fixed_bits y)
///     (fixed_bits quotient) (fixed_bits by_one) (fixed_bits by_itself)) }
/// ensures in_one_step { OnFour result (λ quotient in_one_step by_one by_itself.
///     QuotientInOneStep 32 16 (fixed_bits x) (fixed_bits y)
///     (fixed_bits quotient) (fixed_bits in_one_step)) }
/// ```
/// [Notation](crate::definitions): [`OnFour`], [`QuotientLaws`], [`fixed_bits`], [`QuotientInOneStep`]
/// </details>
#[must_use]
#[inline]
pub fn quotient_laws(x: Fixed, y: Fixed) -> [Fixed; 4] {
    [x / y, x.mul_div(Fixed::ONE, y), x / Fixed::ONE, x / x]
}

/// Returns `x.mul_div(a, c)` and `y.mul_div(a, c)`, two coordinates scaled by one ratio. If `a` is
/// not negative, `c` is positive and neither overflows, the greater never becomes the smaller.
///
/// <details><summary>Contract</summary>
///
/// ```text
/// ensures first { IsMulDiv 32 (fixed_bits x) (fixed_bits a) (fixed_bits c)
///     (fixed_bits result.0) }
/// ensures second { IsMulDiv 32 (fixed_bits y) (fixed_bits a) (fixed_bits c)
///     (fixed_bits result.1) }
/// ensures in_order { pos 0 ≤ℤ fixed_bits a → pos 0 <ℤ fixed_bits c
///     → fixed_bits x ≤ℤ fixed_bits y
///     → FitsBits 32 (rounded_mul_div (fixed_bits x) (fixed_bits a) (fixed_bits c))
///     → FitsBits 32 (rounded_mul_div (fixed_bits y) (fixed_bits a) (fixed_bits c))
///     → fixed_bits result.0 ≤ℤ fixed_bits result.1 }
/// ```
/// [Notation](crate::definitions): [`IsMulDiv`], [`fixed_bits`], [`FitsBits`], [`rounded_mul_div`]
/// </details>
#[must_use]
#[inline]
pub fn scaled_in_order(x: Fixed, y: Fixed, a: Fixed, c: Fixed) -> (Fixed, Fixed) {
    (x.mul_div(a, c), y.mul_div(a, c))
}

/// Returns `x.mul_div(a, c)`, `y.mul_div(a, c)` and `(x - y).mul_div(a, c)`: two coordinates and
/// their distance, scaled by one ratio. If `c` is not zero and nothing overflows, the difference of
/// the first two is within one raw unit of the third.
///
/// <details><summary>Contract</summary>
///
/// ```text
/// ensures first { IsMulDiv 32 (fixed_bits x) (fixed_bits a) (fixed_bits c)
///     (fixed_bits result.0) }
/// ensures second { IsMulDiv 32 (fixed_bits y) (fixed_bits a) (fixed_bits c)
///     (fixed_bits result.1) }
/// ensures third { IsMulDiv 32 (wrap 32 (fixed_bits x -ℤ fixed_bits y)) (fixed_bits a)
///     (fixed_bits c) (fixed_bits result.2) }
/// ensures close { fixed_bits c ≢ pos 0 → FitsBits 32 (fixed_bits x -ℤ fixed_bits y)
///     → FitsBits 32 (rounded_mul_div (fixed_bits x) (fixed_bits a) (fixed_bits c))
///     → FitsBits 32 (rounded_mul_div (fixed_bits y) (fixed_bits a) (fixed_bits c))
///     → FitsBits 32
///     (rounded_mul_div (fixed_bits x -ℤ fixed_bits y) (fixed_bits a) (fixed_bits c))
///     → unsigned_abs ((fixed_bits result.0 -ℤ fixed_bits result.1) -ℤ fixed_bits result.2) ≤ 1 }
/// ```
/// [Notation](crate::definitions): [`IsMulDiv`], [`fixed_bits`], [`wrap`], [`FitsBits`], [`rounded_mul_div`]
/// </details>
#[must_use]
#[inline]
pub fn scaled_distance(x: Fixed, y: Fixed, a: Fixed, c: Fixed) -> (Fixed, Fixed, Fixed) {
    (x.mul_div(a, c), y.mul_div(a, c), (x - y).mul_div(a, c))
}

/// Returns `x.mul_div(a, c)`, and that result by `mul_div(c, a)`: up and back. If `0 < c <= a` and
/// the first does not overflow, the second is `x`.
///
/// <details><summary>Contract</summary>
///
/// ```text
/// ensures first { IsMulDiv 32 (fixed_bits x) (fixed_bits a) (fixed_bits c)
///     (fixed_bits result.0) }
/// ensures second { IsMulDiv 32 (fixed_bits result.0) (fixed_bits c) (fixed_bits a)
///     (fixed_bits result.1) }
/// ensures back { pos 0 <ℤ fixed_bits c → fixed_bits c ≤ℤ fixed_bits a
///     → FitsBits 32 (rounded_mul_div (fixed_bits x) (fixed_bits a) (fixed_bits c))
///     → fixed_bits result.1 ≡ fixed_bits x }
/// ```
/// [Notation](crate::definitions): [`IsMulDiv`], [`fixed_bits`], [`FitsBits`], [`rounded_mul_div`]
/// </details>
#[must_use]
#[inline]
pub fn scaled_back(x: Fixed, a: Fixed, c: Fixed) -> (Fixed, Fixed) {
    let scaled = x.mul_div(a, c);
    (scaled, scaled.mul_div(c, a))
}

/// Returns `x.checked_add_delta(delta)`, and `x.apply_delta(delta)` rounded half up, which are
/// equal.
///
/// <details><summary>Contract</summary>
///
/// ```text
/// ensures variant { IsSome result.0
///     ↔ FitsBits 32 (up (fixed_bits x *ℤ pos 65536 +ℤ f48dot16_bits delta) 65536) }
/// ensures value { IfSome result.0 (λ moved. fixed_bits moved
///     ≡ up (fixed_bits x *ℤ pos 65536 +ℤ f48dot16_bits delta) 65536) }
/// ensures equal { result.0 ≡ result.1 }
/// ```
/// [Notation](crate::definitions): [`FitsBits`], [`up`], [`fixed_bits`], [`f48dot16_bits`]
/// </details>
#[must_use]
#[inline]
pub fn delta_in_steps(x: Fixed, delta: F48Dot16) -> (Option<Fixed>, Option<Fixed>) {
    (x.checked_add_delta(delta), Fixed::round_delta(x.apply_delta(delta)))
}

/// Returns `x.checked_add_delta(first)` and `y.checked_add_delta(second)`. If `x <= y` and
/// `first <= second`, and neither overflows, the second result is not less than the first.
///
/// <details><summary>Contract</summary>
///
/// ```text
/// ensures variant { IsSome result.0
///     ↔ FitsBits 32 (up (fixed_bits x *ℤ pos 65536 +ℤ f48dot16_bits first) 65536) }
/// ensures value { IfSome result.0 (λ moved. fixed_bits moved
///     ≡ up (fixed_bits x *ℤ pos 65536 +ℤ f48dot16_bits first) 65536) }
/// ensures variant_too { IsSome result.1
///     ↔ FitsBits 32 (up (fixed_bits y *ℤ pos 65536 +ℤ f48dot16_bits second) 65536) }
/// ensures value_too { IfSome result.1 (λ moved. fixed_bits moved
///     ≡ up (fixed_bits y *ℤ pos 65536 +ℤ f48dot16_bits second) 65536) }
/// ensures in_order { fixed_bits x ≤ℤ fixed_bits y → f48dot16_bits first ≤ℤ f48dot16_bits second
///     → IfSome result.0 (λ a. IfSome result.1 (λ b. fixed_bits a ≤ℤ fixed_bits b)) }
/// ```
/// [Notation](crate::definitions): [`FitsBits`], [`up`], [`fixed_bits`], [`f48dot16_bits`]
/// </details>
#[must_use]
#[inline]
pub fn deltas_in_order(
    x: Fixed,
    y: Fixed,
    first: F48Dot16,
    second: F48Dot16,
) -> (Option<Fixed>, Option<Fixed>) {
    (x.checked_add_delta(first), y.checked_add_delta(second))
}
