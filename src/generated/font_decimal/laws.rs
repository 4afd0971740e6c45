// @generated from crates/font_decimal/src/laws.rt by tools/erase

//! Laws of parsing and printing, as contracts of functions.

#[cfg(doc)]
use crate::definitions::font_decimal::{
    Grammar_antt::Tidy,
    Reading_antt::{IsAtMost, Parses, Reads},
    Shortest_antt::shortest_text,
    Shown_antt::shown,
};

use crate::font_decimal::{DecimalFault, Shortest, read_decimal};

/// Parses both texts by `read_decimal`. If both are accepted, the greater decimal never gives the
/// smaller value.
///
/// # Panics
///
/// Panics in Rust as `read_decimal` does.
///
/// <details><summary>Contract</summary>
///
/// ```text
/// requires bits_of_fraction { (6 ≤ f) × (f ≤ 30) }
/// ensures first { Parses s.now f min max result.0 }
/// ensures second { Parses t.now f min max result.1 }
/// ensures in_order { (a b : ℤ) → result.0 ≡ Ok a → result.1 ≡ Ok b → IsAtMost s.now t.now
///     → a ≤ℤ b }
/// ```
/// [Notation](crate::definitions): [`Parses`], [`IsAtMost`]
/// </details>
#[inline]
pub fn reads_in_order(
    s: &str,
    t: &str,
    f: u32,
    min: i64,
    max: i64,
) -> (Result<i64, DecimalFault>, Result<i64, DecimalFault>) {
    (read_decimal(s, f, min, max), read_decimal(t, f, min, max))
}

/// Formats both raw values by `Shortest::new`. The greater value never prints the smaller decimal.
///
/// # Panics
///
/// Panics in Rust as `Shortest::new` does.
///
/// <details><summary>Contract</summary>
///
/// ```text
/// requires bits_of_fraction { f ≤ 30 }
/// ensures first { shown result.0 ≡ shortest_text a f }
/// ensures second { shown result.1 ≡ shortest_text b f }
/// ensures in_order { a ≤ℤ b → IsAtMost (shown result.0) (shown result.1) }
/// ```
/// [Notation](crate::definitions): [`shown`], [`shortest_text`], [`IsAtMost`]
/// </details>
#[must_use]
#[inline]
pub fn prints_in_order(a: i64, b: i64, f: u32) -> (Shortest, Shortest) {
    (Shortest::new(a, f), Shortest::new(b, f))
}

/// Parses a decimal by `read_decimal`, and formats the value by `Shortest::new`. A decimal without
/// unnecessary zeros, and with `k` digits after the point for `10^k < 2^f`, is printed again as it
/// is.
///
/// # Errors
///
/// Returns the errors of `read_decimal`.
///
/// # Panics
///
/// Panics in Rust as `read_decimal` does.
///
/// <details><summary>Contract</summary>
///
/// ```text
/// requires bits_of_fraction { (6 ≤ f) × (f ≤ 30) }
/// ensures printed { IfOk result (λ s. (b : ℤ) × Reads text.now f min max b
///     × (shown s ≡ shortest_text b f)) }
/// ensures refused { IfErr result (λ fault. Parses text.now f min max (Err fault)) }
/// ensures again { (n : ℤ) (k : ℕ) → Tidy text.now n k → 10 ^ k < 2 ^ f
///     → IfOk result (λ s. shown s ≡ text.now) }
/// ```
/// [Notation](crate::definitions): [`Reads`], [`shown`], [`shortest_text`], [`Parses`], [`Tidy`]
/// </details>
#[inline]
pub fn printed_again(text: &str, f: u32, min: i64, max: i64) -> Result<Shortest, DecimalFault> {
    let bits = read_decimal(text, f, min, max)?;
    Ok(Shortest::new(bits, f))
}
