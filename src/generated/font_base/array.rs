// @generated from crates/font_base/src/array.rt by tools/erase

//! Borrowed arrays of big-endian scalars.

#[cfg(doc)]
use crate::definitions::font_base::{
    Array_antt::{
        IsPartitionPoint, IsSearched, array_bytes, array_elements, array_len, element_bytes,
        elements_left,
    },
    Elements_antt::AreRaw,
};

use crate::font_base::raw::{BeByteArray, ByteChunks, Scalar};
use core::cmp::Ordering;
use core::iter::FusedIterator;
use core::ops::Range;
use core::slice::Iter;

/// A borrowed, big-endian array of scalars.
///
/// Elements are decoded on access. A record type that implements [`Scalar`] can be an element too,
/// if its raw bytes are a `[u8; N]`.
///
/// ```
/// use font_types_proved::ScalarArray;
/// let ends = ScalarArray::<u16>::new(&[0x00, 0x5A, 0x00, 0x7A, 0xFF, 0xFF]).unwrap();
/// assert_eq!((ends.len(), ends.get(1)), (3, Some(0x7A)));
/// assert_eq!(ends.binary_search(&0x60), Err(1));
/// assert_eq!(ends.into_iter().next_back(), Some(0xFFFF));
/// assert!(ScalarArray::<u16>::new(&[0x00]).is_none());
/// ```
///
/// The source and its contracts: `crates/font_base/src/array.rt`.
///
/// <details><summary>Contract</summary>
///
/// ```text
/// ghost are_raw: { AreRaw T.Raw.is_value T.Raw.bytes T.RAW_BYTE_LEN raw.now },
/// ```
/// [Notation](crate::definitions): [`AreRaw`]
/// </details>
pub struct ScalarArray<'a, T: Scalar> {
    raw: &'a [T::Raw],
}

impl<'a, T: Scalar> ScalarArray<'a, T> {
    /// Creates an array over `data`, or returns `None` if its length is not a multiple of
    /// `RAW_BYTE_LEN`.
    ///
    /// If `RAW_BYTE_LEN` is 0, only empty data is an array, and it is empty.
    ///
    /// <details><summary>Contract</summary>
    ///
    /// ```text
    /// ensures variant { IsSome result ↔ (length «data».now % T.RAW_BYTE_LEN ≡ 0) }
    /// ensures bytes { IfSome result (λ array. array_bytes array ≡ «data».now) }
    /// ```
    /// [Notation](crate::definitions): [`array_bytes`]
    /// </details>
    #[must_use]
    #[inline]
    pub fn new(data: &'a [u8]) -> Option<ScalarArray<'a, T>>
    where
        T::Raw: ByteChunks,
    {
        const { assert!(T::RAW_BYTE_LEN == <T::Raw as BeByteArray>::LEN) };
        let (raw, left) = T::Raw::as_chunks(data);
        if !left.is_empty() {
            return None;
        }
        Some(ScalarArray { raw })
    }

    /// Reads an array of `count` elements at `offset`, or returns `None` if the bytes end before it
    /// does.
    ///
    /// If `RAW_BYTE_LEN` is 0, the array is empty.
    ///
    /// ```
    /// use font_types_proved::ScalarArray;
    /// let table = [0, 2, 0x00, 0x5A, 0x00, 0x7A, 0xFF];
    /// let ends = ScalarArray::<u16>::read_at(&table, 2, 2).unwrap();
    /// assert_eq!((ends.len(), ends.last()), (2, Some(0x7A)));
    /// assert!(ScalarArray::<u16>::read_at(&table, 2, 3).is_none());
    /// ```
    ///
    /// <details><summary>Contract</summary>
    ///
    /// ```text
    /// ensures variant { IsSome result ↔ (offset + count * T.RAW_BYTE_LEN ≤ length bytes.now) }
    /// ensures bytes { IfSome result (λ array.
    ///     array_bytes array ≡ take (count * T.RAW_BYTE_LEN) (drop offset bytes.now)) }
    /// ensures len { 0 < T.RAW_BYTE_LEN → IfSome result (λ array. array_len array ≡ count) }
    /// ensures elements { IfSome result (λ array. (i : ℕ) → i < count → element_bytes array i
    ///     ≡ take T.RAW_BYTE_LEN (drop (offset + i * T.RAW_BYTE_LEN) bytes.now)) }
    /// ```
    /// [Notation](crate::definitions): [`array_bytes`], [`array_len`], [`element_bytes`]
    /// </details>
    #[must_use]
    #[inline]
    pub fn read_at(bytes: &'a [u8], offset: usize, count: usize) -> Option<ScalarArray<'a, T>>
    where
        T::Raw: ByteChunks,
    {
        const { assert!(T::RAW_BYTE_LEN == <T::Raw as BeByteArray>::LEN) };
        let (raw, _) = T::Raw::as_chunks(bytes.get(offset..)?);
        // Scalars of no bytes make an empty array, whatever their number.
        if T::RAW_BYTE_LEN == 0 {
            return Some(ScalarArray { raw });
        }
        Some(ScalarArray { raw: raw.get(..count)? })
    }

    /// Reads an array of `count` elements from the start of `bytes`, and moves `bytes` to what is
    /// after it, or returns `None` and moves nothing if the bytes end before it does.
    ///
    /// If `RAW_BYTE_LEN` is 0, the array is empty.
    ///
    /// ```
    /// use font_types_proved::{Scalar, ScalarArray};
    /// let mut rest = &[0, 2, 0x00, 0x5A, 0x00, 0x7A, 0xFF][..];
    /// let count = u16::take_from(&mut rest).unwrap();
    /// let ends = ScalarArray::<u16>::take_from(&mut rest, count.into()).unwrap();
    /// assert_eq!((ends.len(), ends.last(), rest), (2, Some(0x7A), &[0xFF][..]));
    /// assert!(ScalarArray::<u16>::take_from(&mut rest, 1).is_none());
    /// assert_eq!(rest, [0xFF]);
    /// ```
    ///
    /// <details><summary>Contract</summary>
    ///
    /// ```text
    /// ensures variant { IsSome result ↔ (count * T.RAW_BYTE_LEN ≤ length bytes.old.now) }
    /// ensures bytes { IfSome result (λ array.
    ///     array_bytes array ≡ take (count * T.RAW_BYTE_LEN) bytes.old.now) }
    /// ensures len { 0 < T.RAW_BYTE_LEN → IfSome result (λ array. array_len array ≡ count) }
    /// ensures elements { IfSome result (λ array. (i : ℕ) → i < count → element_bytes array i
    ///     ≡ take T.RAW_BYTE_LEN (drop (i * T.RAW_BYTE_LEN) bytes.old.now)) }
    /// ensures rest { IfSome result (λ _.
    ///     bytes.new.now ≡ drop (count * T.RAW_BYTE_LEN) bytes.old.now) }
    /// ensures kept { IfNone result (bytes.new ≡ bytes.old) }
    /// ```
    /// [Notation](crate::definitions): [`array_bytes`], [`array_len`], [`element_bytes`]
    /// </details>
    #[must_use]
    #[inline]
    pub fn take_from(bytes: &mut &'a [u8], count: usize) -> Option<ScalarArray<'a, T>>
    where
        T::Raw: ByteChunks,
    {
        let array = ScalarArray::read_at(bytes, 0, count)?;
        *bytes = &bytes[count * T::RAW_BYTE_LEN..];
        Some(array)
    }

    /// Returns the number of elements.
    ///
    /// <details><summary>Contract</summary>
    ///
    /// ```text
    /// ensures value { result ≡ array_len self.now }
    /// ensures bytes { result * T.RAW_BYTE_LEN ≡ length (array_bytes self.now) }
    /// ```
    /// [Notation](crate::definitions): [`array_len`], [`array_bytes`]
    /// </details>
    #[must_use]
    #[inline]
    pub const fn len(&self) -> usize {
        self.raw.len()
    }

    /// Returns `true` if the array has no elements.
    ///
    /// <details><summary>Contract</summary>
    ///
    /// ```text
    /// ensures { IsTrue result ↔ (array_len self.now ≡ 0) }
    /// ```
    /// [Notation](crate::definitions): [`array_len`]
    /// </details>
    #[must_use]
    #[inline]
    pub fn is_empty(&self) -> bool {
        self.len() == 0
    }

    /// Returns the underlying bytes.
    ///
    /// <details><summary>Contract</summary>
    ///
    /// ```text
    /// ensures { result.now ≡ array_bytes self.now }
    /// ```
    /// [Notation](crate::definitions): [`array_bytes`]
    /// </details>
    #[must_use]
    #[inline]
    pub fn as_bytes(&self) -> &'a [u8]
    where
        T::Raw: ByteChunks,
    {
        T::Raw::as_flattened(self.raw)
    }

    /// Returns the raw bytes of each element, as a slice, which has the iterators and searches of
    /// std.
    ///
    /// ```
    /// use font_types_proved::{Scalar, ScalarArray};
    /// let ends = ScalarArray::<u16>::new(&[0x00, 0x5A, 0x00, 0x7A, 0xFF, 0xFF]).unwrap();
    /// assert_eq!(ends.as_raw()[1], [0x00, 0x7A]);
    /// let ends = ends.as_raw().iter().map(|raw| u16::from_raw(*raw));
    /// assert!(ends.rev().eq([0xFFFF, 0x7A, 0x5A]));
    /// ```
    ///
    /// <details><summary>Contract</summary>
    ///
    /// ```text
    /// ensures { map T.Raw.bytes result.now ≡ array_elements self.now }
    /// ```
    /// [Notation](crate::definitions): [`array_elements`]
    /// </details>
    #[must_use]
    #[inline]
    pub const fn as_raw(&self) -> &'a [T::Raw] {
        self.raw
    }

    /// Returns the element at `index`, or `None` if out of bounds.
    ///
    /// <details><summary>Contract</summary>
    ///
    /// ```text
    /// ensures variant { IsSome result ↔ (index < array_len self.now) }
    /// ensures stored { IfSome result (λ v.
    ///     T.Raw.bytes (T.raw_of v) ≡ element_bytes self.now index) }
    /// ```
    /// [Notation](crate::definitions): [`array_len`], [`element_bytes`]
    /// </details>
    #[must_use]
    #[inline]
    pub fn get(&self, index: usize) -> Option<T> {
        let raw = self.raw.get(index)?;
        Some(T::from_raw(*raw))
    }

    /// Returns the first element, or `None` if there is none.
    ///
    /// <details><summary>Contract</summary>
    ///
    /// ```text
    /// ensures variant { IsSome result ↔ (0 < array_len self.now) }
    /// ensures stored { IfSome result (λ v.
    ///     T.Raw.bytes (T.raw_of v) ≡ element_bytes self.now 0) }
    /// ```
    /// [Notation](crate::definitions): [`array_len`], [`element_bytes`]
    /// </details>
    #[must_use]
    #[inline]
    pub fn first(&self) -> Option<T> {
        self.get(0)
    }

    /// Returns the last element, or `None` if there is none.
    ///
    /// <details><summary>Contract</summary>
    ///
    /// ```text
    /// ensures variant { IsSome result ↔ (0 < array_len self.now) }
    /// ensures stored { IfSome result (λ v.
    ///     T.Raw.bytes (T.raw_of v) ≡ element_bytes self.now (array_len self.now - 1)) }
    /// ```
    /// [Notation](crate::definitions): [`array_len`], [`element_bytes`]
    /// </details>
    #[must_use]
    #[inline]
    pub fn last(&self) -> Option<T> {
        self.get(self.len().checked_sub(1)?)
    }

    /// Returns the elements of a range of indices, as an array, or `None` unless
    /// `range.start <= range.end` and `range.end <= len()`.
    ///
    /// ```
    /// use font_types_proved::ScalarArray;
    /// let array = ScalarArray::<u16>::new(&[0, 1, 0, 2, 0, 3]).unwrap();
    /// assert_eq!(array.slice(1..3).unwrap().as_bytes(), [0, 2, 0, 3]);
    /// assert!(array.slice(1..4).is_none());
    /// ```
    ///
    /// <details><summary>Contract</summary>
    ///
    /// ```text
    /// ensures variant { IsSome result
    ///     ↔ ((range.start ≤ range.end) × (range.end ≤ array_len self.now)) }
    /// ensures elements { IfSome result (λ part. array_elements part
    ///     ≡ take (range.end - range.start) (drop range.start (array_elements self.now))) }
    /// ensures bytes { IfSome result (λ part. array_bytes part
    ///     ≡ take ((range.end - range.start) * T.RAW_BYTE_LEN)
    ///     (drop (range.start * T.RAW_BYTE_LEN) (array_bytes self.now))) }
    /// ```
    /// [Notation](crate::definitions): [`array_len`], [`array_elements`], [`array_bytes`]
    /// </details>
    #[must_use]
    #[inline]
    pub fn slice(&self, range: Range<usize>) -> Option<ScalarArray<'a, T>> {
        Some(ScalarArray { raw: self.raw.get(range)? })
    }

    // Returns the named iterator over the elements.
    #[inline]
    fn elements(&self) -> ScalarArrayIter<'a, T> {
        ScalarArrayIter { rest: self.raw.iter() }
    }
}

impl<'a, T: Scalar> Clone for ScalarArray<'a, T> {
    #[inline]
    fn clone(&self) -> ScalarArray<'a, T> {
        ScalarArray { raw: self.raw }
    }
}

impl<'a, T: Scalar> Copy for ScalarArray<'a, T> {}

/// Returns an empty array.
///
/// <details><summary>Contract</summary>
///
/// ```text
/// ghost is_default = { λ array. array_bytes array ≡ [] };
/// ```
/// [Notation](crate::definitions): [`array_bytes`]
/// </details>
impl<'a, T: Scalar> Default for ScalarArray<'a, T> {
    #[inline]
    fn default() -> ScalarArray<'a, T> {
        const { assert!(T::RAW_BYTE_LEN == <T::Raw as BeByteArray>::LEN) };
        ScalarArray { raw: &[] }
    }
}

/// Two arrays are equal if their bytes are.
///
/// <details><summary>Contract</summary>
///
/// ```text
/// ghost eq = { on array_bytes (pointwise nat_eq) };
/// ```
/// [Notation](crate::definitions): [`array_bytes`]
/// </details>
impl<'a, T: Scalar> PartialEq for ScalarArray<'a, T>
where
    T::Raw: ByteChunks,
{
    #[inline]
    fn eq(&self, other: &ScalarArray<'a, T>) -> bool {
        self.as_bytes() == other.as_bytes()
    }
}

impl<'a, T: Scalar> Eq for ScalarArray<'a, T> where T::Raw: ByteChunks {}

impl<'a, T: Scalar> ScalarArray<'a, T> {
    /// Searches an array by a comparison of each element with the wanted place: elements that
    /// compare as `Less` come first, then those that compare as `Equal`, then those that compare as
    /// `Greater`. Returns the index of an element that compares as `Equal`. If there are several,
    /// any of them may be returned. If the closure changes what it captures, search
    /// [`as_raw`](Self::as_raw).
    ///
    /// ```
    /// use font_types_proved::ScalarArray;
    /// let ends = ScalarArray::<u16>::new(&[0x00, 0x5A, 0x00, 0x7A, 0xFF, 0xFF]).unwrap();
    /// assert_eq!(ends.binary_search_by(|end| end.cmp(&0x7A)), Ok(1));
    /// assert_eq!(ends.binary_search_by(|end| end.cmp(&0x60)), Err(1));
    /// ```
    ///
    /// # Errors
    ///
    /// If there is none, returns the index at which it could be inserted.
    ///
    /// # Panics
    ///
    /// Panics if the closure does.
    ///
    /// <details><summary>Contract</summary>
    ///
    /// ```text
    /// requires { F.IsAlwaysCallable compare }
    /// ensures found { IfOk result (λ i. i < array_len self.now) }
    /// ensures absent { IfErr result (λ i. i ≤ array_len self.now) }
    /// ensures place { (answer : T → Ordering)
    ///     → ((v : T) (o : Ordering) → F.post compare v o → o ≡ answer v)
    ///     → IsSearched self.now answer result }
    /// ```
    /// [Notation](crate::definitions): [`array_len`], [`IsSearched`]
    /// </details>
    #[inline]
    pub fn binary_search_by<F: Fn(T) -> Ordering>(&self, compare: F) -> Result<usize, usize> {
        self.raw.binary_search_by(|raw| compare(T::from_raw(*raw)))
    }

    /// Searches an array that is sorted by a key, and returns the index of an element with that
    /// key. If there are several, any of them may be returned.
    ///
    /// # Errors
    ///
    /// If there is none, returns the index at which it could be inserted.
    ///
    /// # Panics
    ///
    /// Panics if the closure does.
    ///
    /// ```
    /// use font_types_proved::ScalarArray;
    /// let ends = ScalarArray::<u16>::new(&[0, 9, 0, 5, 0, 1]).unwrap();
    /// assert_eq!(ends.binary_search_by_key(&-5, |end| -i32::from(end)), Ok(1));
    /// ```
    ///
    /// <details><summary>Contract</summary>
    ///
    /// ```text
    /// requires { F.IsAlwaysCallable key_of }
    /// ensures found { IfOk result (λ i. i < array_len self.now) }
    /// ensures absent { IfErr result (λ i. i ≤ array_len self.now) }
    /// ensures place { (of : T → K) → ((v : T) (k : K) → F.post key_of v k → k ≡ of v)
    ///     → IsSearched self.now (λ v. K.cmp (of v) key.now) result }
    /// ```
    /// [Notation](crate::definitions): [`array_len`], [`IsSearched`]
    /// </details>
    #[inline]
    pub fn binary_search_by_key<K: Ord, F: Fn(T) -> K>(
        &self,
        key: &K,
        key_of: F,
    ) -> Result<usize, usize> {
        self.raw.binary_search_by_key(key, |raw| key_of(T::from_raw(*raw)))
    }

    /// Returns the number of elements at the front for which `is_before` returns `true`. The array
    /// must have all of them before the others, as if sorted by it.
    ///
    /// ```
    /// use font_types_proved::ScalarArray;
    /// let ends = ScalarArray::<u16>::new(&[0x00, 0x5A, 0x00, 0x7A, 0xFF, 0xFF]).unwrap();
    /// assert_eq!(ends.partition_point(|end| end < 0x7A), 1);
    /// ```
    ///
    /// # Panics
    ///
    /// Panics if the closure does.
    ///
    /// <details><summary>Contract</summary>
    ///
    /// ```text
    /// requires { F.IsAlwaysCallable is_before }
    /// ensures within { result ≤ array_len self.now }
    /// ensures place { (before : T → Bool)
    ///     → ((v : T) (b : Bool) → F.post is_before v b → b ≡ before v)
    ///     → IsPartitionPoint self.now before result }
    /// ```
    /// [Notation](crate::definitions): [`array_len`], [`IsPartitionPoint`]
    /// </details>
    #[must_use]
    #[inline]
    pub fn partition_point<F: Fn(T) -> bool>(&self, is_before: F) -> usize {
        self.raw.partition_point(|raw| is_before(T::from_raw(*raw)))
    }

    /// Searches a sorted array, and returns the index of an element equal to `key`. If there are
    /// several, any of them may be returned.
    ///
    /// # Errors
    ///
    /// If there is none, returns the index at which it could be inserted.
    ///
    /// <details><summary>Contract</summary>
    ///
    /// ```text
    /// ensures { IsSearched self.now (λ v. T.cmp v key.now) result }
    /// ```
    /// [Notation](crate::definitions): [`IsSearched`]
    /// </details>
    #[inline]
    pub fn binary_search(&self, key: &T) -> Result<usize, usize>
    where
        T: Ord + Copy,
    {
        self.binary_search_by_key(key, |value| value)
    }
}

/// An iterator over the elements of a [`ScalarArray`].
///
/// `nth`, `skip` and `step_by` decode each element that they pass: [`slice`](ScalarArray::slice)
/// the array first. To fill a `Vec` in Rust, collect [`ScalarArray::iter`] instead.
///
/// ```
/// use font_types_proved::ScalarArray;
/// let mut words = ScalarArray::<u16>::new(&[0, 1, 0, 4, 0, 9]).unwrap().into_iter();
/// assert_eq!([words.next(), words.next_back()], [Some(1), Some(9)]);
/// assert_eq!(words.as_array().as_bytes(), [0, 4]);
/// ```
///
/// The source and its contracts: `crates/font_base/src/array.rt`.
///
/// <details><summary>Contract</summary>
///
/// ```text
/// ghost are_raw: { AreRaw T.Raw.is_value T.Raw.bytes T.RAW_BYTE_LEN (iter_rest rest) },
/// ```
/// [Notation](crate::definitions): [`AreRaw`]
/// </details>
pub struct ScalarArrayIter<'a, T: Scalar> {
    rest: Iter<'a, T::Raw>,
}

impl<'a, T: Scalar> ScalarArrayIter<'a, T> {
    /// Returns the elements that are left, as an array.
    ///
    /// <details><summary>Contract</summary>
    ///
    /// ```text
    /// ensures { array_elements result ≡ elements_left self.now }
    /// ```
    /// [Notation](crate::definitions): [`array_elements`], [`elements_left`]
    /// </details>
    #[must_use]
    #[inline]
    pub fn as_array(&self) -> ScalarArray<'a, T> {
        ScalarArray { raw: self.rest.as_slice() }
    }
}

/// <details><summary>Contract</summary>
///
/// ```text
/// ghost next_gives = { YieldsFirstBy (λ v. T.Raw.bytes (T.raw_of v)) elements_left };
/// ghost remaining = { item_count elements_left };
/// ```
/// [Notation](crate::definitions): [`elements_left`]
/// </details>
impl<'a, T: Scalar> Iterator for ScalarArrayIter<'a, T> {
    type Item = T;

    #[inline]
    fn next(&mut self) -> Option<T> {
        match self.rest.next() {
            Some(raw) => Some(T::from_raw(*raw)),
            None => None,
        }
    }

    #[inline]
    fn size_hint(&self) -> (usize, Option<usize>) {
        let left = self.rest.len();
        (left, Some(left))
    }
}

/// <details><summary>Contract</summary>
///
/// ```text
/// ghost next_back_gives = { YieldsLastBy (λ v. T.Raw.bytes (T.raw_of v)) elements_left };
/// ```
/// [Notation](crate::definitions): [`elements_left`]
/// </details>
impl<'a, T: Scalar> DoubleEndedIterator for ScalarArrayIter<'a, T> {
    #[inline]
    fn next_back(&mut self) -> Option<T> {
        match self.rest.next_back() {
            Some(raw) => Some(T::from_raw(*raw)),
            None => None,
        }
    }
}

impl<'a, T: Scalar> ExactSizeIterator for ScalarArrayIter<'a, T> {
    #[inline]
    fn len(&self) -> usize {
        self.rest.len()
    }
}

impl<'a, T: Scalar> FusedIterator for ScalarArrayIter<'a, T> {}

impl<'a, T: Scalar> Clone for ScalarArrayIter<'a, T> {
    #[inline]
    fn clone(&self) -> ScalarArrayIter<'a, T> {
        ScalarArrayIter { rest: self.rest.as_slice().iter() }
    }
}

/// <details><summary>Contract</summary>
///
/// ```text
/// ghost into_iter_gives = { λ array iter. elements_left iter ≡ array_elements array };
/// ```
/// [Notation](crate::definitions): [`elements_left`], [`array_elements`]
/// </details>
impl<'a, T: Scalar> IntoIterator for ScalarArray<'a, T> {
    type Item = T;

    type IntoIter = ScalarArrayIter<'a, T>;

    #[inline]
    fn into_iter(self) -> ScalarArrayIter<'a, T> {
        self.elements()
    }
}

/// <details><summary>Contract</summary>
///
/// ```text
/// ghost into_iter_gives = { λ array iter. elements_left iter ≡ array_elements array.now };
/// ```
/// [Notation](crate::definitions): [`elements_left`], [`array_elements`]
/// </details>
impl<'a, T: Scalar> IntoIterator for &ScalarArray<'a, T> {
    type Item = T;

    type IntoIter = ScalarArrayIter<'a, T>;

    #[inline]
    fn into_iter(self) -> ScalarArrayIter<'a, T> {
        self.elements()
    }
}
