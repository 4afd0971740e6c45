// @generated from crates/font_fixed/src/laws/f26dot6.rt by tools/erase

//! Laws of [`F26Dot6`], as contracts of functions.

#[cfg(doc)]
use crate::definitions::font_fixed::{
    F26Dot6_antt::f26dot6_bits,
    NumberLaws_antt::{OnThree, ProductLaws, QuotientLaws},
};

use crate::font_fixed::F26Dot6;

/// Returns `x * y`, `y * x` and `x * ONE`: the first two are equal, and the third is `x`.
///
/// <details><summary>Contract</summary>
///
/// ```text
/// ensures { OnThree result (λ product flipped by_one.
///     ProductLaws 32 6 (f26dot6_bits x) (f26dot6_bits y)
///     (f26dot6_bits product) (f26dot6_bits flipped) (f26dot6_bits by_one)) }
/// ```
/// [Notation](crate::definitions): [`OnThree`], [`ProductLaws`], [`f26dot6_bits`]
/// </details>
#[must_use]
#[inline]
pub fn product_laws(x: F26Dot6, y: F26Dot6) -> [F26Dot6; 3] {
    [x * y, y * x, x * F26Dot6::ONE]
}

/// Returns `x / y`, `x / ONE` and `x / x`: the second is `x`, and the last is `ONE` unless `x` is
/// zero.
///
/// <details><summary>Contract</summary>
///
/// ```text
/// ensures { OnThree result (λ quotient by_one by_itself.
///     QuotientLaws 32 6 (f26dot6_bits x) (f26dot6_bits y)
///     (f26dot6_bits quotient) (f26dot6_bits by_one) (f26dot6_bits by_itself)) }
/// ```
/// [Notation](crate::definitions): [`OnThree`], [`QuotientLaws`], [`f26dot6_bits`]
/// </details>
#[must_use]
#[inline]
pub fn quotient_laws(x: F26Dot6, y: F26Dot6) -> [F26Dot6; 3] {
    [x / y, x / F26Dot6::ONE, x / x]
}
