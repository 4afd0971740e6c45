// @generated from crates/font_base/src/raw.rt by tools/erase

//! Scalars and their big-endian bytes.

#[cfg(doc)]
use crate::definitions::font_base::{
    Bytes_antt::{are_bytes, bytes_of, numeral, signed_numeral},
    Elements_antt::AreRaw,
    Scalar_antt::{IsValueOf, ScalarLaws},
    Wrap_antt::fits_bits,
};

/// A fixed-size big-endian byte array.
///
/// ```
/// use font_types_proved::BeByteArray;
/// let raw = <[u8; 2]>::from_slice(&[1, 2]).unwrap();
/// assert_eq!(raw.as_slice(), [1, 2]);
/// assert!(<[u8; 2]>::from_slice(&[1, 2, 3]).is_none());
/// ```
///
/// # Laws
///
/// Rattle proves these of every implementation; rustc checks none of them.
///
/// - `from_slice` accepts exactly the slices of `LEN` bytes.
/// - `as_slice` returns the `LEN` bytes that `from_slice` was given.
/// - Arrays with equal bytes are the same value.
///
/// The source and its contracts: `crates/font_base/src/raw.rt`.
///
/// <details><summary>Contract</summary>
///
/// ```text
/// // the bytes, in order
/// ghost bytes: { Self → List ℕ };
/// // it has `LEN` bytes, each below 256
/// ghost is_value: { Self → Bool };
/// // Every value has `LEN` bytes.
/// ghost length_is: { (a : Self) → IsTrue (is_value a) → length (bytes a) ≡ LEN };
/// // Equal bytes mean equal values.
/// ghost same_bytes: { (a b : Self) → IsTrue (is_value a) → IsTrue (is_value b) → bytes a ≡ bytes b
///     → a ≡ b };
/// ```
/// [Notation](crate::definitions)
/// </details>
pub trait BeByteArray: Copy {
    /// The number of bytes.
    const LEN: usize;

    /// Copies a slice, or returns `None` unless its length is `LEN`.
    ///
    /// <details><summary>Contract</summary>
    ///
    /// ```text
    /// ensures variant { IsSome result ↔ (length slice.now ≡ LEN) }
    /// ensures value { IfSome result (λ array. IsTrue (is_value array)) }
    /// ensures bytes { IfSome result (λ array. bytes array ≡ slice.now) }
    /// ```
    /// [Notation](crate::definitions)
    /// </details>
    #[must_use]
    fn from_slice(slice: &[u8]) -> Option<Self>;

    /// Returns the bytes as a slice.
    ///
    /// <details><summary>Contract</summary>
    ///
    /// ```text
    /// ensures bytes { result.now ≡ bytes self.now }
    /// ensures length { length result.now ≡ LEN }
    /// ensures value { IsTrue (is_value self.now) }
    /// ```
    /// [Notation](crate::definitions)
    /// </details>
    #[must_use]
    fn as_slice(&self) -> &[u8];

    /// Returns `true` if both arrays have the same bytes.
    ///
    /// <details><summary>Contract</summary>
    ///
    /// ```text
    /// ensures { result ≡ pointwise nat_eq (bytes self.now) (bytes other.now) }
    /// ```
    /// [Notation](crate::definitions)
    /// </details>
    #[must_use]
    #[inline]
    fn eq_array(&self, other: &Self) -> bool {
        self.as_slice() == other.as_slice()
    }
}

/// <details><summary>Contract</summary>
///
/// ```text
/// ghost bytes = { λ a. a };
/// ghost is_value = { are_bytes N };
/// ```
/// [Notation](crate::definitions): [`are_bytes`]
/// </details>
impl<const N: usize> BeByteArray for [u8; N] {
    const LEN: usize = N;

    #[inline]
    fn from_slice(slice: &[u8]) -> Option<[u8; N]> {
        if slice.len() != N {
            return None;
        }
        Some(*slice.first_chunk()?)
    }

    #[inline]
    fn as_slice(&self) -> &[u8] {
        self
    }

    #[inline]
    fn eq_array(&self, other: &[u8; N]) -> bool {
        self == other
    }
}

/// Byte arrays that a slice of bytes can be split into, without a copy: `[u8; N]`.
///
/// A [`ScalarArray`](crate::ScalarArray) is made of bytes, compared and shown as bytes if the raw
/// bytes of its scalar are such arrays. Generic functions that do so name the bound.
///
/// ```
/// use font_types_proved::{ByteChunks, Scalar, ScalarArray};
/// fn first<T: Scalar<Raw: ByteChunks>>(data: &[u8]) -> Option<T> {
///     ScalarArray::<T>::new(data)?.first()
/// }
/// assert_eq!(first::<u16>(&[1, 0, 2, 0]), Some(256));
/// ```
///
/// # Laws
///
/// Rattle proves these of every implementation; rustc checks none of them.
///
/// - `as_chunks` splits a slice into as many arrays as it has bytes for, and the bytes after them.
///   If `LEN` is 0, there are no arrays, and all bytes are left.
/// - `as_flattened` returns the bytes of the arrays, in order.
///
/// No other crate can implement it:
///
/// ```compile_fail,E0277
/// # use font_types_proved::{BeByteArray, ByteChunks};
/// # #[derive(Clone, Copy)]
/// # struct Mine([u8; 2]);
/// # impl BeByteArray for Mine {
/// #     const LEN: usize = 2;
/// #     fn from_slice(slice: &[u8]) -> Option<Self> { slice.try_into().ok().map(Self) }
/// #     fn as_slice(&self) -> &[u8] { &self.0 }
/// #     fn eq_array(&self, other: &Self) -> bool { self.0 == other.0 }
/// # }
/// impl ByteChunks for Mine {
/// #   fn as_chunks(bytes: &[u8]) -> (&[Self], &[u8]) { (&[], bytes) }
/// #   fn as_flattened(_: &[Self]) -> &[u8] { &[] }
///     // ..
/// }
/// ```
///
/// The source and its contracts: `crates/font_base/src/raw.rt`.
pub trait ByteChunks: BeByteArray + SplitsBytes {
    /// Splits a slice into arrays, from its start, and the bytes that are left.
    ///
    /// <details><summary>Contract</summary>
    ///
    /// ```text
    /// ensures are_raw { AreRaw Self.is_value Self.bytes Self.LEN result.0.now }
    /// ensures bytes { flat_map Self.bytes result.0.now ++ result.1.now ≡ bytes.now }
    /// ensures left { length result.1.now ≡ length bytes.now % Self.LEN }
    /// ```
    /// [Notation](crate::definitions): [`AreRaw`]
    /// </details>
    #[must_use]
    fn as_chunks(bytes: &[u8]) -> (&[Self], &[u8]);

    /// Returns the bytes of the arrays.
    ///
    /// <details><summary>Contract</summary>
    ///
    /// ```text
    /// ensures { result.now ≡ flat_map Self.bytes arrays.now }
    /// ```
    /// [Notation](crate::definitions)
    /// </details>
    #[must_use]
    fn as_flattened(arrays: &[Self]) -> &[u8];
}

// The package does not export it.
pub trait SplitsBytes {}

impl<const N: usize> SplitsBytes for [u8; N] {}

impl<const N: usize> ByteChunks for [u8; N] {
    #[inline]
    fn as_chunks(bytes: &[u8]) -> (&[[u8; N]], &[u8]) {
        if N == 0 {
            return (&[], bytes);
        }
        bytes.as_chunks()
    }

    #[inline]
    fn as_flattened(arrays: &[[u8; N]]) -> &[u8] {
        arrays.as_flattened()
    }
}

/// A type with a fixed encoded size.
///
/// ```
/// use font_types_proved::{FixedSize, Offset24};
/// assert_eq!(Offset24::RAW_BYTE_LEN, 3);
/// ```
///
/// # Laws
///
/// Rattle proves this of every [`Scalar`]; rustc does not check it.
///
/// - A value has `RAW_BYTE_LEN` raw bytes.
///
/// The source and its contracts: `crates/font_base/src/raw.rt`.
pub trait FixedSize: Sized {
    /// The encoded size, in bytes.
    const RAW_BYTE_LEN: usize;
}

/// A type that is encoded as a fixed number of big-endian bytes.
///
/// A value and its raw bytes determine each other.
///
/// ```
/// use font_types_proved::Scalar;
/// assert_eq!(u16::read(&[0x01, 0x00]), Some(256));
/// assert_eq!(u16::read(&[0x01]), None);
/// ```
///
/// # Laws
///
/// Rattle proves these of every implementation; rustc checks none of them.
///
/// - `from_raw(value.to_raw())` is `value`, and `from_raw(raw).to_raw()` is `raw`.
/// - `Raw::LEN` equals `RAW_BYTE_LEN`.
///
/// The source and its contracts: `crates/font_base/src/raw.rt`.
///
/// <details><summary>Contract</summary>
///
/// ```text
/// // it is a value of the type
/// ghost is_scalar: { Self → Bool };
/// // the value with these raw bytes
/// ghost of_raw: { Self.Raw → Self };
/// // the raw bytes of a value
/// ghost raw_of: { Self → Self.Raw };
/// // Encoding and decoding are inverse, and the encoded size is `RAW_BYTE_LEN`.
/// ghost laws: { ScalarLaws is_scalar Self.Raw.is_value of_raw raw_of
///     Self.Raw.LEN Self.RAW_BYTE_LEN };
/// ```
/// [Notation](crate::definitions): [`ScalarLaws`]
/// </details>
#[diagnostic::on_unimplemented(note = "`record!` makes a scalar of a `struct` of scalars")]
pub trait Scalar: FixedSize {
    /// The raw bytes.
    type Raw: BeByteArray;

    /// Decodes a value from its raw bytes.
    ///
    /// <details><summary>Contract</summary>
    ///
    /// ```text
    /// ensures { result ≡ of_raw raw }
    /// ```
    /// [Notation](crate::definitions)
    /// </details>
    #[must_use]
    fn from_raw(raw: Self::Raw) -> Self;

    /// Encodes the value as raw bytes.
    ///
    /// <details><summary>Contract</summary>
    ///
    /// ```text
    /// ensures raw { result ≡ raw_of self }
    /// ensures value { IsTrue (is_scalar self) }
    /// ```
    /// [Notation](crate::definitions)
    /// </details>
    #[must_use]
    fn to_raw(self) -> Self::Raw;

    /// Reads a value from a slice, or returns `None` unless its length is `RAW_BYTE_LEN`.
    ///
    /// <details><summary>Contract</summary>
    ///
    /// ```text
    /// ensures variant { IsSome result ↔ (length slice.now ≡ Self.RAW_BYTE_LEN) }
    /// ensures bytes { IfSome result (λ v. Self.Raw.bytes (raw_of v) ≡ slice.now) }
    /// ensures reads { IfSome result (λ v. IsValueOf Self.Raw.bytes of_raw slice.now v) }
    /// ensures value { IfSome result (λ v. IsTrue (is_scalar v)) }
    /// ```
    /// [Notation](crate::definitions): [`IsValueOf`]
    /// </details>
    #[must_use]
    #[inline]
    fn read(slice: &[u8]) -> Option<Self> {
        let raw = Self::Raw::from_slice(slice)?;
        Some(Self::from_raw(raw))
    }

    /// Reads the value at `offset`, or returns `None` if fewer than `RAW_BYTE_LEN` bytes are left
    /// there.
    ///
    /// ```
    /// use font_types_proved::{Scalar, Tag};
    /// let head = b"\x00\x01\x00\x00head";
    /// assert_eq!(Tag::read_at(head, 4), Some(Tag::new(b"head")));
    /// assert_eq!(Tag::read_at(head, 5), None);
    /// ```
    ///
    /// <details><summary>Contract</summary>
    ///
    /// ```text
    /// ensures variant { IsSome result ↔ (offset + Self.RAW_BYTE_LEN ≤ length bytes.now) }
    /// ensures bytes { IfSome result (λ v.
    ///     Self.Raw.bytes (raw_of v) ≡ take Self.RAW_BYTE_LEN (drop offset bytes.now)) }
    /// ensures reads { IfSome result (λ v.
    ///     IsValueOf Self.Raw.bytes of_raw (take Self.RAW_BYTE_LEN (drop offset bytes.now)) v) }
    /// ensures value { IfSome result (λ v. IsTrue (is_scalar v)) }
    /// ```
    /// [Notation](crate::definitions): [`IsValueOf`]
    /// </details>
    #[must_use]
    #[inline]
    fn read_at(bytes: &[u8], offset: usize) -> Option<Self> {
        Self::read(bytes.get(offset..offset.checked_add(Self::RAW_BYTE_LEN)?)?)
    }

    /// Reads the value at the start of `bytes`, and moves `bytes` to what is after it, or returns
    /// `None` and moves nothing if fewer than `RAW_BYTE_LEN` bytes are left.
    ///
    /// ```
    /// use font_types_proved::{Scalar, Tag};
    /// let mut rest = &b"wght\x01\xF4\x02"[..];
    /// assert_eq!(Tag::take_from(&mut rest), Some(Tag::new(b"wght")));
    /// assert_eq!(u16::take_from(&mut rest), Some(500));
    /// assert_eq!((u16::take_from(&mut rest), rest), (None, &[2][..]));
    /// ```
    ///
    /// <details><summary>Contract</summary>
    ///
    /// ```text
    /// ensures variant { IsSome result ↔ (Self.RAW_BYTE_LEN ≤ length bytes.old.now) }
    /// ensures bytes { IfSome result (λ v.
    ///     Self.Raw.bytes (raw_of v) ≡ take Self.RAW_BYTE_LEN bytes.old.now) }
    /// ensures reads { IfSome result (λ v.
    ///     IsValueOf Self.Raw.bytes of_raw (take Self.RAW_BYTE_LEN bytes.old.now) v) }
    /// ensures value { IfSome result (λ v. IsTrue (is_scalar v)) }
    /// ensures rest { IfSome result (λ _.
    ///     bytes.new.now ≡ drop Self.RAW_BYTE_LEN bytes.old.now) }
    /// ensures kept { IfNone result (bytes.new ≡ bytes.old) }
    /// ```
    /// [Notation](crate::definitions): [`IsValueOf`]
    /// </details>
    #[must_use]
    #[inline]
    fn take_from(bytes: &mut &[u8]) -> Option<Self> {
        let (value, rest) = bytes.split_at_checked(Self::RAW_BYTE_LEN)?;
        let value = Self::read(value)?;
        *bytes = rest;
        Some(value)
    }

    /// Writes the raw bytes at `offset`, or returns `None` and writes nothing if fewer than
    /// `RAW_BYTE_LEN` bytes are left there.
    ///
    /// ```
    /// use font_types_proved::{Scalar, Tag};
    /// let mut head = *b"\x00\x01\x00\x00....";
    /// assert_eq!(Tag::new(b"head").write_at(&mut head, 4), Some(()));
    /// assert_eq!(head, *b"\x00\x01\x00\x00head");
    /// assert_eq!(Tag::new(b"hhea").write_at(&mut head, 5), None);
    /// ```
    ///
    /// <details><summary>Contract</summary>
    ///
    /// ```text
    /// ensures variant { IsSome result ↔ (offset + Self.RAW_BYTE_LEN ≤ length bytes.old) }
    /// ensures before { take offset bytes.new ≡ take offset bytes.old }
    /// ensures bytes { IfSome result (λ _.
    ///     take Self.RAW_BYTE_LEN (drop offset bytes.new) ≡ Self.Raw.bytes (raw_of self)) }
    /// ensures after { drop (offset + Self.RAW_BYTE_LEN) bytes.new
    ///     ≡ drop (offset + Self.RAW_BYTE_LEN) bytes.old }
    /// ensures kept { IfNone result (bytes.new ≡ bytes.old) }
    /// ```
    /// [Notation](crate::definitions)
    /// </details>
    #[must_use]
    #[inline]
    fn write_at(self, bytes: &mut [u8], offset: usize) -> Option<()> {
        const { assert!(Self::RAW_BYTE_LEN == <Self::Raw as BeByteArray>::LEN) };
        let raw = self.to_raw();
        let end = offset.checked_add(Self::RAW_BYTE_LEN)?;
        if bytes.len() < end {
            return None;
        }
        bytes[offset..end].copy_from_slice(raw.as_slice());
        Some(())
    }
}

/// A scalar whose `==` is identity.
///
/// Fields of such a scalar are ordered by value:
///
/// ```
/// use font_types_proved::{BigEndian, IdentityEq, Scalar};
/// fn least<T: Scalar + Copy + Ord + IdentityEq>(a: BigEndian<T>, b: BigEndian<T>) -> T {
///     a.min(b).get()
/// }
/// assert_eq!(least(BigEndian::from(1_i16), BigEndian::from(-1)), -1);
/// ```
///
/// # Laws
///
/// Rattle proves this of every implementation; rustc does not check it.
///
/// - `a == b` if and only if they are the same value, with the same raw bytes.
///
/// The source and its contracts: `crates/font_base/src/raw.rt`.
///
/// <details><summary>Contract</summary>
///
/// ```text
/// ghost identity: { (a b : Self) → Decides (Self.eq a b) (a ≡ b) };
/// ```
/// [Notation](crate::definitions)
/// </details>
pub trait IdentityEq: Eq {}

impl FixedSize for u8 {
    const RAW_BYTE_LEN: usize = 1;
}

/// <details><summary>Contract</summary>
///
/// ```text
/// ghost is_scalar = { λ n. nat_lt n (2 ^ 8) };
/// ghost of_raw = { numeral };
/// ghost raw_of = { λ n. bytes_of 1 (pos n) };
/// ```
/// [Notation](crate::definitions): [`numeral`], [`bytes_of`]
/// </details>
impl Scalar for u8 {
    type Raw = [u8; 1];

    #[inline]
    fn from_raw(raw: [u8; 1]) -> u8 {
        u8::from_be_bytes(raw)
    }

    #[inline]
    fn to_raw(self) -> [u8; 1] {
        self.to_be_bytes()
    }
}

impl IdentityEq for u8 {}

impl FixedSize for u16 {
    const RAW_BYTE_LEN: usize = 2;
}

/// <details><summary>Contract</summary>
///
/// ```text
/// ghost is_scalar = { λ n. nat_lt n (2 ^ 16) };
/// ghost of_raw = { numeral };
/// ghost raw_of = { λ n. bytes_of 2 (pos n) };
/// ```
/// [Notation](crate::definitions): [`numeral`], [`bytes_of`]
/// </details>
impl Scalar for u16 {
    type Raw = [u8; 2];

    #[inline]
    fn from_raw(raw: [u8; 2]) -> u16 {
        u16::from_be_bytes(raw)
    }

    #[inline]
    fn to_raw(self) -> [u8; 2] {
        self.to_be_bytes()
    }
}

impl IdentityEq for u16 {}

impl FixedSize for u32 {
    const RAW_BYTE_LEN: usize = 4;
}

/// <details><summary>Contract</summary>
///
/// ```text
/// ghost is_scalar = { λ n. nat_lt n (2 ^ 32) };
/// ghost of_raw = { numeral };
/// ghost raw_of = { λ n. bytes_of 4 (pos n) };
/// ```
/// [Notation](crate::definitions): [`numeral`], [`bytes_of`]
/// </details>
impl Scalar for u32 {
    type Raw = [u8; 4];

    #[inline]
    fn from_raw(raw: [u8; 4]) -> u32 {
        u32::from_be_bytes(raw)
    }

    #[inline]
    fn to_raw(self) -> [u8; 4] {
        self.to_be_bytes()
    }
}

impl IdentityEq for u32 {}

impl FixedSize for i8 {
    const RAW_BYTE_LEN: usize = 1;
}

/// <details><summary>Contract</summary>
///
/// ```text
/// ghost is_scalar = { fits_bits 8 };
/// ghost of_raw = { signed_numeral 1 };
/// ghost raw_of = { bytes_of 1 };
/// ```
/// [Notation](crate::definitions): [`fits_bits`], [`signed_numeral`], [`bytes_of`]
/// </details>
impl Scalar for i8 {
    type Raw = [u8; 1];

    #[inline]
    fn from_raw(raw: [u8; 1]) -> i8 {
        u8::from_be_bytes(raw).cast_signed()
    }

    #[inline]
    fn to_raw(self) -> [u8; 1] {
        self.to_be_bytes()
    }
}

impl IdentityEq for i8 {}

impl FixedSize for i16 {
    const RAW_BYTE_LEN: usize = 2;
}

/// <details><summary>Contract</summary>
///
/// ```text
/// ghost is_scalar = { fits_bits 16 };
/// ghost of_raw = { signed_numeral 2 };
/// ghost raw_of = { bytes_of 2 };
/// ```
/// [Notation](crate::definitions): [`fits_bits`], [`signed_numeral`], [`bytes_of`]
/// </details>
impl Scalar for i16 {
    type Raw = [u8; 2];

    #[inline]
    fn from_raw(raw: [u8; 2]) -> i16 {
        u16::from_be_bytes(raw).cast_signed()
    }

    #[inline]
    fn to_raw(self) -> [u8; 2] {
        self.to_be_bytes()
    }
}

impl IdentityEq for i16 {}

impl FixedSize for i32 {
    const RAW_BYTE_LEN: usize = 4;
}

/// <details><summary>Contract</summary>
///
/// ```text
/// ghost is_scalar = { fits_bits 32 };
/// ghost of_raw = { signed_numeral 4 };
/// ghost raw_of = { bytes_of 4 };
/// ```
/// [Notation](crate::definitions): [`fits_bits`], [`signed_numeral`], [`bytes_of`]
/// </details>
impl Scalar for i32 {
    type Raw = [u8; 4];

    #[inline]
    fn from_raw(raw: [u8; 4]) -> i32 {
        u32::from_be_bytes(raw).cast_signed()
    }

    #[inline]
    fn to_raw(self) -> [u8; 4] {
        self.to_be_bytes()
    }
}

impl IdentityEq for i32 {}

impl FixedSize for i64 {
    const RAW_BYTE_LEN: usize = 8;
}

/// <details><summary>Contract</summary>
///
/// ```text
/// ghost is_scalar = { fits_bits 64 };
/// ghost of_raw = { signed_numeral 8 };
/// ghost raw_of = { bytes_of 8 };
/// ```
/// [Notation](crate::definitions): [`fits_bits`], [`signed_numeral`], [`bytes_of`]
/// </details>
impl Scalar for i64 {
    type Raw = [u8; 8];

    #[inline]
    fn from_raw(raw: [u8; 8]) -> i64 {
        u64::from_be_bytes(raw).cast_signed()
    }

    #[inline]
    fn to_raw(self) -> [u8; 8] {
        self.to_be_bytes()
    }
}

impl IdentityEq for i64 {}
