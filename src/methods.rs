//! Constants and functions of types that Rattle cannot have: decimal literals, which the compiler
//! checks, constants that are functions in Rattle, and an iterator of std over arrays.

use crate::{DecimalFault, FixedI16, FixedI32, FixedI64, Format, Matrix, MatrixElement};
use crate::{Scalar, ScalarArray};
use core::iter::FusedIterator;

macro_rules! literal {
    ($($Type:ident, $width:literal;)*) => {$(
        impl<const F: u32> $Type<F>
        where
            Self: Format<$width, F>,
        {
            /// The length of the longest text of the format: a sign, a point, and the digits before
            /// and after it.
            pub const MAX_TEXT_LEN: usize = Self::max_text_len();

            /// Returns the value of a decimal literal, as `from_decimal` does. In a constant, what
            /// `from_decimal` refuses does not compile.
            ///
            /// # Panics
            ///
            /// Panics if `from_decimal` returns an error.
            ///
            /// # Examples
            ///
            /// ```
            /// use font_types_proved::Fixed;
            /// const HALF: Fixed = Fixed::lit("0.5");
            /// assert_eq!(HALF.to_bits(), 0x8000);
            /// ```
            ///
            /// ```compile_fail,E0080
            /// use font_types_proved::Fixed;
            /// const HALF: Fixed = Fixed::lit(".5");
            /// ```
            #[doc(alias = "from_f64")]
            #[must_use]
            #[inline]
            #[track_caller]
            pub const fn lit(decimal: &str) -> Self {
                let (value, fault) = match Self::from_decimal(decimal) {
                    Ok(value) => (Some(value), ""),
                    Err(DecimalFault::Syntax) => (None, "not a decimal number"),
                    Err(DecimalFault::OutOfRange) => (None, "number out of range"),
                };
                value.expect(fault)
            }
        }
    )*};
}

literal! { FixedI16, 16; FixedI32, 32; FixedI64, 64; }

impl<T: MatrixElement> Matrix<T> {
    /// The identity matrix, as [`Matrix::identity`] returns it.
    pub const IDENTITY: Self = Self::identity();
}

impl<'a, T: Scalar> ScalarArray<'a, T> {
    /// Returns an iterator over the elements, from either end.
    ///
    /// It is std's over [`as_raw`](Self::as_raw), decoded: call it before `map`, `rev`, `zip`,
    /// `collect` or `extend`. `into_iter` returns the named
    /// [`ScalarArrayIter`](crate::ScalarArrayIter), which yields the same elements.
    ///
    /// In both, `nth`, `skip` and `step_by` decode each element that they pass:
    /// [`slice`](Self::slice) the array first, or decode what `as_raw().iter().step_by(n)` yields.
    ///
    /// ```
    /// # use font_types_proved::ScalarArray;
    /// let words = ScalarArray::<u16>::new(&[0, 1, 0, 4, 0, 9]).unwrap();
    /// let doubled: Vec<u16> = words.iter().rev().map(|word| 2 * word).collect();
    /// assert_eq!(doubled, [18, 8, 2]);
    /// ```
    ///
    /// It borrows the bytes, and not the array:
    ///
    /// ```
    /// # use font_types_proved::ScalarArray;
    /// fn words(bytes: &[u8]) -> Option<impl Iterator<Item = u16>> {
    ///     Some(ScalarArray::<u16>::new(bytes)?.iter())
    /// }
    /// assert!(words(&[0, 1, 0, 4]).unwrap().eq([1, 4]));
    /// ```
    #[inline]
    #[must_use]
    pub fn iter(
        &self,
    ) -> impl ExactSizeIterator<Item = T> + DoubleEndedIterator + FusedIterator + Clone + use<'a, T>
    {
        self.as_raw().iter().map(|raw| T::from_raw(*raw))
    }
}
