//! A macro for records of tables, and arrays as fields.

use crate::font_base::SplitsBytes;
use crate::{BeByteArray, ByteChunks, FixedSize, Scalar};

/// The raw bytes of an array: those of each element.
impl<const S: usize, const N: usize> BeByteArray for [[u8; S]; N] {
    const LEN: usize = S * N;

    #[inline]
    fn from_slice(slice: &[u8]) -> Option<Self> {
        let mut raw = [[0; S]; N];
        (slice.len() == Self::LEN).then(|| raw.as_flattened_mut().copy_from_slice(slice))?;
        Some(raw)
    }

    #[inline]
    fn as_slice(&self) -> &[u8] {
        self.as_flattened()
    }
}

impl<const S: usize, const N: usize> SplitsBytes for [[u8; S]; N] {}

impl<const S: usize, const N: usize> ByteChunks for [[u8; S]; N] {
    #[inline]
    fn as_chunks(bytes: &[u8]) -> (&[Self], &[u8]) {
        if Self::LEN == 0 {
            return (&[], bytes);
        }
        let (arrays, rest) = bytes.split_at(bytes.len() - bytes.len() % Self::LEN);
        (arrays.as_chunks().0.as_chunks().0, rest)
    }

    #[inline]
    fn as_flattened(arrays: &[Self]) -> &[u8] {
        arrays.as_flattened().as_flattened()
    }
}

impl<T: FixedSize, const N: usize> FixedSize for [T; N] {
    const RAW_BYTE_LEN: usize = N * T::RAW_BYTE_LEN;
}

/// An array of a length that is no count in the table, such as the ten bytes `panose` of `OS/2`.
///
/// ```
/// use font_types_proved::{F2Dot14, Scalar};
/// let pair = <[F2Dot14; 2]>::read(&[0x40, 0, 0xC0, 0]);
/// assert_eq!(pair, Some([F2Dot14::ONE, F2Dot14::NEG_ONE]));
/// ```
impl<T: Scalar<Raw = [u8; S]>, const S: usize, const N: usize> Scalar for [T; N] {
    type Raw = [[u8; S]; N];

    #[inline]
    fn from_raw(raw: Self::Raw) -> Self {
        raw.map(T::from_raw)
    }

    #[inline]
    fn to_raw(self) -> Self::Raw {
        self.map(T::to_raw)
    }
}

/// What a field of a [`record!`](crate::record!) may be: a scalar. Its functions move `next`, the
/// start of the field, to its end: rustc takes longer for a record that does so itself.
#[doc(hidden)]
#[diagnostic::on_unimplemented(
    message = "`{Self}` cannot be a field of a record",
    label = "neither a scalar, nor an array of scalars",
    note = "a field is a scalar, such as `u16`, a record, or an array of either, such as `[u8; 10]`"
)]
pub trait RecordField: Sized {
    const FIELD_LEN: usize;

    fn read_field(bytes: &[u8], next: &mut usize) -> Self;

    fn write_field(self, bytes: &mut [u8], next: &mut usize);
}

#[diagnostic::do_not_recommend]
impl<T: Scalar> RecordField for T {
    const FIELD_LEN: usize = {
        assert!(T::RAW_BYTE_LEN == <T::Raw as BeByteArray>::LEN);
        T::RAW_BYTE_LEN
    };

    #[inline]
    fn read_field(bytes: &[u8], next: &mut usize) -> Self {
        let start = *next;
        *next += T::RAW_BYTE_LEN;
        T::read(&bytes[start..*next]).unwrap()
    }

    #[inline]
    fn write_field(self, bytes: &mut [u8], next: &mut usize) {
        let start = *next;
        *next += T::RAW_BYTE_LEN;
        bytes[start..*next].copy_from_slice(self.to_raw().as_slice());
    }
}

/// Implements [`FixedSize`](crate::FixedSize), [`Scalar`](crate::Scalar) and
/// [`TableHeader`](crate::TableHeader) for a struct whose fields, stored one after another, are
/// scalars, arrays of scalars, and other records. The struct has named fields, and neither
/// lifetimes nor other parameters.
///
/// ```
/// use font_types_proved::{FWord, ScalarArray, UfWord, record};
///
/// record! {
///     /// The metrics of a glyph in `hmtx`.
///     #[derive(Clone, Copy, Debug, PartialEq)]
///     pub struct LongMetric {
///         pub advance: UfWord,
///         pub bearing: FWord,
///     }
/// }
///
/// let metrics = ScalarArray::<LongMetric>::new(&[2, 88, 0, 7, 1, 244, 255, 249]).unwrap();
/// let last = LongMetric { advance: UfWord::new(500), bearing: FWord::new(-7) };
/// assert_eq!(metrics.last(), Some(last));
/// ```
///
/// The start of a table, and the bytes after it:
///
/// ```
/// use font_types_proved::{MajorMinor, TableDataRef, record};
///
/// record! {
///     struct AvarHeader {
///         version: MajorMinor,
///         reserved: u16,
///         axis_count: u16,
///     }
/// }
///
/// let avar = [0, 1, 0, 0, 0, 0, 0, 1, 0, 0];
/// let (header, maps) = TableDataRef::<AvarHeader>::new(&avar).unwrap().split();
/// assert_eq!((header.axis_count, maps), (1, &[0, 0][..]));
/// ```
#[macro_export]
macro_rules! record {
    (
        $(#[$of_struct:meta])*
        $public:vis struct $Name:ident {
            $($(#[$of_field:meta])* $field_public:vis $field:ident: $Field:ty),+ $(,)?
        }
    ) => {
        $(#[$of_struct])*
        $public struct $Name {
            $($(#[$of_field])* $field_public $field: $Field,)+
        }

        impl $crate::FixedSize for $Name {
            const RAW_BYTE_LEN: usize = 0 $(+ <$Field as $crate::RecordField>::FIELD_LEN)+;
        }

        impl $crate::Scalar for $Name {
            type Raw = [u8; <$Name as $crate::FixedSize>::RAW_BYTE_LEN];

            #[inline]
            fn from_raw(raw: Self::Raw) -> Self {
                let mut next = 0;
                Self {
                    $($field: <$Field as $crate::RecordField>::read_field(&raw, &mut next),)+
                }
            }

            #[inline]
            fn to_raw(self) -> Self::Raw {
                let (mut raw, mut next) = ([0; <$Name as $crate::FixedSize>::RAW_BYTE_LEN], 0);
                $(
                    <$Field as $crate::RecordField>::write_field(
                        self.$field, &mut raw, &mut next,
                    );
                )+
                raw
            }
        }

        impl $crate::TableHeader for $Name {
            const BYTE_LEN: usize = <$Name as $crate::FixedSize>::RAW_BYTE_LEN;

            #[inline]
            fn decode(bytes: &[u8]) -> Self {
                $crate::Scalar::read(bytes).unwrap()
            }
        }
    };
}
