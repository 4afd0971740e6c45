// @generated from crates/font_types/src/laws.rt by tools/erase

//! Laws, as contracts of functions.

#[cfg(doc)]
use crate::definitions::font_base::Wrap_antt::{FitsBits, wrap};
#[cfg(doc)]
use crate::definitions::font_fixed::{
    F48Dot16_antt::f48dot16_bits,
    Fixed_antt::fixed_bits,
    Operations_antt::{IsMulDiv, rounded_mul_div},
};
#[cfg(doc)]
use crate::definitions::font_types::{
    Delta_antt::{exact_sum, scaled, total},
    DeltaSum_antt::steps_of,
};

pub use crate::font_decimal::laws::{printed_again, prints_in_order, reads_in_order};
pub use crate::font_fixed::laws::{f26dot6, fixed};
use crate::font_fixed::{F48Dot16, Fixed};
pub use crate::font_geom::laws::{
    action, associative, checked_composed, checked_in_turn, composed, fixed_identity,
    identity_neutral, image, in_turn, scaled, step_and_halves,
};
use crate::font_types::delta::sum_of;
use crate::font_types::{DeltaSum, delta_sum};

/// Returns the sum of two lists of terms, each summed apart, by `delta_sum` and by `DeltaSum`. Both
/// are the sum of the joined list.
///
/// <details><summary>Contract</summary>
///
/// ```text
/// ensures wrapped { f48dot16_bits result.0 ≡ wrap 64 (exact_sum (first.now ++ second.now)) }
/// ensures accumulated { steps_of result.1 ≡ wrap 128 (exact_sum (first.now ++ second.now)) }
/// ```
/// [Notation](crate::definitions): [`f48dot16_bits`], [`wrap`], [`exact_sum`], [`steps_of`]
/// </details>
#[must_use]
#[inline]
pub fn sum_in_parts(first: &[(Fixed, i32)], second: &[(Fixed, i32)]) -> (F48Dot16, DeltaSum) {
    let mut sum = sum_of(first);
    sum += sum_of(second);
    (delta_sum(first) + delta_sum(second), sum)
}

/// Returns the sum of numbers that are each scaled by `mul_div(a, c)`, and their sum scaled once.
/// If `c` is positive, and neither the sums nor the second result overflow, the two differ by at
/// most `(n + 1) / 2` raw units, for `n` numbers.
///
/// <details><summary>Contract</summary>
///
/// ```text
/// ensures first { fixed_bits result.0
///     ≡ wrap 32 (total (scaled (fixed_bits a) (fixed_bits c)) numbers.now) }
/// ensures second { IsMulDiv 32 (wrap 32 (total fixed_bits numbers.now)) (fixed_bits a)
///     (fixed_bits c) (fixed_bits result.1) }
/// ensures close { pos 0 <ℤ fixed_bits c
///     → FitsBits 32 (total (scaled (fixed_bits a) (fixed_bits c)) numbers.now)
///     → FitsBits 32 (total fixed_bits numbers.now)
///     → FitsBits 32
///     (rounded_mul_div (total fixed_bits numbers.now) (fixed_bits a) (fixed_bits c))
///     → 2 * unsigned_abs (fixed_bits result.0 -ℤ fixed_bits result.1)
///     ≤ length numbers.now + 1 }
/// ```
/// [Notation](crate::definitions): [`fixed_bits`], [`wrap`], [`total`], [`scaled`], [`IsMulDiv`], [`FitsBits`], [`rounded_mul_div`]
/// </details>
#[must_use]
#[inline]
pub fn scaled_in_parts(numbers: &[Fixed], a: Fixed, c: Fixed) -> (Fixed, Fixed) {
    (scaled_sum(numbers, a, c), plain_sum(numbers).mul_div(a, c))
}

// Returns the sum of numbers that are each scaled.
#[inline]
fn scaled_sum(numbers: &[Fixed], a: Fixed, c: Fixed) -> Fixed {
    let mut sum = Fixed::ZERO;
    for number in numbers {
        sum += number.mul_div(a, c);
    }
    sum
}

// Returns the sum of numbers.
#[inline]
fn plain_sum(numbers: &[Fixed]) -> Fixed {
    let mut sum = Fixed::ZERO;
    for number in numbers {
        sum += *number;
    }
    sum
}
