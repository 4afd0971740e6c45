// @generated from crates/font_base/src/big_endian.rt by tools/erase

//! Big-endian fields.

#[cfg(doc)]
use crate::definitions::font_base::BigEndian_antt::raw_value;

use crate::font_base::raw::{BeByteArray, FixedSize, IdentityEq, Scalar};
use core::cmp::Ordering;
use core::fmt;
use core::hash::{Hash, Hasher};
use core::marker::PhantomData;

/// A scalar as stored in a font file: its raw big-endian bytes.
///
/// Two fields are equal if their bytes are, and are ordered by their values. The second parameter
/// is the byte array and is always left out: `BigEndian<u16>` holds a `[u8; 2]`.
///
/// ```
/// use font_types_proved::{BigEndian, FWord};
/// let field = BigEndian::<FWord>::from_slice(&[0xFF, 0xFE]).unwrap();
/// assert_eq!(field.get(), FWord::new(-2));
/// ```
///
/// The source and its contracts: `crates/font_base/src/big_endian.rt`.
///
/// <details><summary>Contract</summary>
///
/// ```text
/// ghost value: { IsTrue (R.is_value raw) },
/// ```
/// [Notation](crate::definitions)
/// </details>
pub struct BigEndian<T: Scalar, R: BeByteArray = <T as Scalar>::Raw> {
    raw: R,
    scalar: PhantomData<T>,
}

impl<T: Scalar> BigEndian<T> {
    /// Creates a field from its raw bytes.
    ///
    /// <details><summary>Contract</summary>
    ///
    /// ```text
    /// ensures { raw_value result ≡ raw }
    /// ```
    /// [Notation](crate::definitions): [`raw_value`]
    /// </details>
    #[must_use]
    #[inline]
    pub fn new(raw: T::Raw) -> BigEndian<T> {
        const { assert!(T::RAW_BYTE_LEN == <T::Raw as BeByteArray>::LEN) };
        BigEndian { raw, scalar: PhantomData }
    }

    /// Creates a field from a slice, or returns `None` unless its length is `RAW_BYTE_LEN`.
    ///
    /// <details><summary>Contract</summary>
    ///
    /// ```text
    /// ensures variant { IsSome result ↔ (length slice.now ≡ T.RAW_BYTE_LEN) }
    /// ensures bytes { IfSome result (λ field. T.Raw.bytes (raw_value field) ≡ slice.now) }
    /// ```
    /// [Notation](crate::definitions): [`raw_value`]
    /// </details>
    #[must_use]
    #[inline]
    pub fn from_slice(slice: &[u8]) -> Option<BigEndian<T>> {
        const { assert!(T::RAW_BYTE_LEN == <T::Raw as BeByteArray>::LEN) };
        let raw = T::Raw::from_slice(slice)?;
        Some(BigEndian { raw, scalar: PhantomData })
    }

    /// Reads the field at `offset`, or returns `None` if fewer than `RAW_BYTE_LEN` bytes are left
    /// there.
    ///
    /// ```
    /// use font_types_proved::BigEndian;
    /// let field = BigEndian::<u16>::read_at(&[9, 1, 2], 1).unwrap();
    /// assert_eq!(field.get(), 0x0102);
    /// assert!(BigEndian::<u16>::read_at(&[9, 1, 2], 2).is_none());
    /// ```
    ///
    /// <details><summary>Contract</summary>
    ///
    /// ```text
    /// ensures variant { IsSome result ↔ (offset + T.RAW_BYTE_LEN ≤ length bytes.now) }
    /// ensures bytes { IfSome result (λ field.
    ///     T.Raw.bytes (raw_value field) ≡ take T.RAW_BYTE_LEN (drop offset bytes.now)) }
    /// ```
    /// [Notation](crate::definitions): [`raw_value`]
    /// </details>
    #[must_use]
    #[inline]
    pub fn read_at(bytes: &[u8], offset: usize) -> Option<BigEndian<T>> {
        BigEndian::from_slice(bytes.get(offset..offset.checked_add(T::RAW_BYTE_LEN)?)?)
    }

    /// Writes the field's bytes at `offset`, or returns `None` and writes nothing if fewer than
    /// `RAW_BYTE_LEN` bytes are left there.
    ///
    /// ```
    /// use font_types_proved::BigEndian;
    /// let (field, mut bytes) = (BigEndian::<u16>::from(0x0102), [9; 3]);
    /// assert_eq!(field.write_at(&mut bytes, 1), Some(()));
    /// assert_eq!(bytes, [9, 1, 2]);
    /// assert_eq!(field.write_at(&mut bytes, 2), None);
    /// ```
    ///
    /// <details><summary>Contract</summary>
    ///
    /// ```text
    /// ensures variant { IsSome result ↔ (offset + T.RAW_BYTE_LEN ≤ length bytes.old) }
    /// ensures before { take offset bytes.new ≡ take offset bytes.old }
    /// ensures bytes { IfSome result (λ _. take T.RAW_BYTE_LEN (drop offset bytes.new)
    ///     ≡ T.Raw.bytes (raw_value self.now)) }
    /// ensures after { drop (offset + T.RAW_BYTE_LEN) bytes.new
    ///     ≡ drop (offset + T.RAW_BYTE_LEN) bytes.old }
    /// ensures kept { IfNone result (bytes.new ≡ bytes.old) }
    /// ```
    /// [Notation](crate::definitions): [`raw_value`]
    /// </details>
    #[must_use]
    #[inline]
    pub fn write_at(&self, bytes: &mut [u8], offset: usize) -> Option<()> {
        self.get().write_at(bytes, offset)
    }

    /// Decodes the value.
    ///
    /// <details><summary>Contract</summary>
    ///
    /// ```text
    /// ensures value { result ≡ T.of_raw (raw_value self.now) }
    /// ensures back { T.raw_of result ≡ raw_value self.now }
    /// ```
    /// [Notation](crate::definitions): [`raw_value`]
    /// </details>
    #[must_use]
    #[inline(always)]
    pub fn get(&self) -> T {
        T::from_raw(self.raw)
    }

    /// Overwrites the field with the bytes of `value`.
    ///
    /// <details><summary>Contract</summary>
    ///
    /// ```text
    /// ensures bytes { raw_value self.new ≡ T.raw_of value }
    /// ensures back { T.of_raw (raw_value self.new) ≡ value }
    /// ```
    /// [Notation](crate::definitions): [`raw_value`]
    /// </details>
    #[inline]
    pub fn set(&mut self, value: T) {
        self.raw = value.to_raw();
    }

    /// Returns the raw big-endian bytes.
    ///
    /// <details><summary>Contract</summary>
    ///
    /// ```text
    /// ensures { result.now ≡ T.Raw.bytes (raw_value self.now) }
    /// ```
    /// [Notation](crate::definitions): [`raw_value`]
    /// </details>
    #[must_use]
    #[inline]
    pub fn be_bytes(&self) -> &[u8] {
        self.raw.as_slice()
    }
}

/// The named form of `==` across types, which Rattle needs.
#[doc(hidden)]
impl<T: Scalar> BigEndian<T> {
    /// Returns `true` if the decoded value equals `other`, as `==` does.
    ///
    /// <details><summary>Contract</summary>
    ///
    /// ```text
    /// ensures { result ≡ T.eq (T.of_raw (raw_value self.now)) other.now }
    /// ```
    /// [Notation](crate::definitions): [`raw_value`]
    /// </details>
    #[must_use]
    #[inline]
    pub fn eq_value(&self, other: &T) -> bool
    where
        T: Copy + PartialEq,
    {
        self.get() == *other
    }
}

impl<T: Scalar, R: BeByteArray> Clone for BigEndian<T, R> {
    #[inline]
    fn clone(&self) -> BigEndian<T, R> {
        BigEndian { raw: self.raw, scalar: PhantomData }
    }
}

impl<T: Scalar, R: BeByteArray> Copy for BigEndian<T, R> {}

impl<T: Scalar> FixedSize for BigEndian<T> {
    const RAW_BYTE_LEN: usize = T::RAW_BYTE_LEN;
}

/// <details><summary>Contract</summary>
///
/// ```text
/// ghost from_gives = { λ value field. (raw_value field ≡ T.raw_of value)
///     × (T.of_raw (raw_value field) ≡ value) };
/// ```
/// [Notation](crate::definitions): [`raw_value`]
/// </details>
impl<T: Scalar> From<T> for BigEndian<T> {
    #[inline]
    fn from(value: T) -> BigEndian<T> {
        BigEndian::new(value.to_raw())
    }
}

/// <details><summary>Contract</summary>
///
/// ```text
/// ghost eq = { on (λ field. T.Raw.bytes (raw_value field)) (pointwise nat_eq) };
/// ```
/// [Notation](crate::definitions): [`raw_value`]
/// </details>
impl<T: Scalar> PartialEq for BigEndian<T> {
    #[inline]
    fn eq(&self, other: &BigEndian<T>) -> bool {
        self.raw.eq_array(&other.raw)
    }
}

impl<T: Scalar> Eq for BigEndian<T> {}

/// <details><summary>Contract</summary>
///
/// ```text
/// ghost hash_input = { λ field. fed.slice fed.u8 (T.Raw.bytes (raw_value field)) };
/// ```
/// [Notation](crate::definitions): [`raw_value`]
/// </details>
impl<T: Scalar> Hash for BigEndian<T> {
    #[inline]
    fn hash<H: Hasher>(&self, state: &mut H) {
        self.be_bytes().hash(state);
    }
}

/// <details><summary>Contract</summary>
///
/// ```text
/// ghost partial_cmp = { λ a b. Some (T.cmp (T.of_raw (raw_value a)) (T.of_raw (raw_value b))) };
/// ```
/// [Notation](crate::definitions): [`raw_value`]
/// </details>
impl<T: Scalar + Copy + Ord + IdentityEq> PartialOrd for BigEndian<T> {
    #[inline]
    fn partial_cmp(&self, other: &BigEndian<T>) -> Option<Ordering> {
        Some(self.cmp(other))
    }
}

/// <details><summary>Contract</summary>
///
/// ```text
/// ghost cmp = { on (λ field. T.of_raw (raw_value field)) T.cmp };
/// ```
/// [Notation](crate::definitions): [`raw_value`]
/// </details>
impl<T: Scalar + Copy + Ord + IdentityEq> Ord for BigEndian<T> {
    #[inline]
    fn cmp(&self, other: &BigEndian<T>) -> Ordering {
        self.get().cmp(&other.get())
    }
}

/// <details><summary>Contract</summary>
///
/// ```text
/// ghost is_default = { λ field. T.is_default (T.of_raw (raw_value field)) };
/// ```
/// [Notation](crate::definitions): [`raw_value`]
/// </details>
impl<T: Scalar + Default> Default for BigEndian<T> {
    #[inline]
    fn default() -> BigEndian<T> {
        BigEndian::from(T::default())
    }
}

/// <details><summary>Contract</summary>
///
/// ```text
/// ghost output = { λ field. T.output (T.of_raw (raw_value field)) };
/// ghost styled_output = { λ field. T.styled_output (T.of_raw (raw_value field)) };
/// ```
/// [Notation](crate::definitions): [`raw_value`]
/// </details>
impl<T: Scalar + Copy + fmt::Display> fmt::Display for BigEndian<T> {
    fn fmt(&self, f: &mut fmt::Formatter<'_>) -> fmt::Result {
        fmt::Display::fmt(&self.get(), f)
    }
}

/// <details><summary>Contract</summary>
///
/// ```text
/// ghost debug_output = { λ field. T.debug_output (T.of_raw (raw_value field)) };
/// ```
/// [Notation](crate::definitions): [`raw_value`]
/// </details>
impl<T: Scalar + Copy + fmt::Debug> fmt::Debug for BigEndian<T> {
    fn fmt(&self, f: &mut fmt::Formatter<'_>) -> fmt::Result {
        fmt::Debug::fmt(&self.get(), f)
    }
}
