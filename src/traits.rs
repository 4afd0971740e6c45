//! Impls of traits that Rattle does not have, or that derives would write otherwise.

use crate::{BigEndian, DeltaSum, Fixed, GlyphId, GlyphId16, Nullable, Offset16, Offset24};
use crate::{Offset32, OffsetValue, Predefined, Scalar, ScalarArray, ScalarArrayIter, Shortest};
use crate::{TableDataRef, TableHeader, Tag};
use core::borrow::Borrow;
use core::cmp::Ordering;
use core::fmt::{Debug, Formatter, Result};
use core::hash::{Hash, Hasher};
use core::iter::FusedIterator;

// ---- `Debug`, `==` and `Hash` of what a text, an array or an iterator has

impl Debug for Shortest {
    fn fmt(&self, f: &mut Formatter<'_>) -> Result {
        f.debug_tuple("Shortest").field(&self.as_str()).finish()
    }
}

impl PartialEq for Shortest {
    fn eq(&self, other: &Self) -> bool {
        self.as_str() == other.as_str()
    }
}

impl Eq for Shortest {}

impl Hash for Shortest {
    fn hash<H: Hasher>(&self, state: &mut H) {
        self.as_str().hash(state);
    }
}

impl Debug for Predefined {
    fn fmt(&self, f: &mut Formatter<'_>) -> Result {
        f.debug_list().entries(self.clone()).finish()
    }
}

impl<H: TableHeader> Debug for TableDataRef<'_, H> {
    fn fmt(&self, f: &mut Formatter<'_>) -> Result {
        f.debug_tuple("TableDataRef").field(&self.data()).finish()
    }
}

impl<T: Scalar + Debug> Debug for ScalarArray<'_, T> {
    fn fmt(&self, f: &mut Formatter<'_>) -> Result {
        f.debug_list().entries(self.iter()).finish()
    }
}

impl<T: Scalar + Debug> Debug for ScalarArrayIter<'_, T> {
    fn fmt(&self, f: &mut Formatter<'_>) -> Result {
        f.debug_list().entries(self.clone()).finish()
    }
}

// ---- `==` and `<` of two types, and the bytes of a tag, as `font-types` has them

impl PartialEq<GlyphId16> for GlyphId {
    fn eq(&self, other: &GlyphId16) -> bool {
        self.eq_gid16(other)
    }
}

impl PartialEq<GlyphId> for GlyphId16 {
    fn eq(&self, other: &GlyphId) -> bool {
        self.eq_gid(other)
    }
}

impl PartialEq<u32> for Offset16 {
    fn eq(&self, other: &u32) -> bool {
        self.eq_u32(other)
    }
}

impl PartialEq<u32> for Offset24 {
    fn eq(&self, other: &u32) -> bool {
        self.eq_u32(other)
    }
}

impl PartialEq<u32> for Offset32 {
    fn eq(&self, other: &u32) -> bool {
        self.eq_u32(other)
    }
}

impl PartialEq<[u8; 4]> for Tag {
    fn eq(&self, other: &[u8; 4]) -> bool {
        self.eq_bytes(other)
    }
}

impl PartialEq<&[u8; 4]> for Tag {
    fn eq(&self, other: &&[u8; 4]) -> bool {
        self.eq_bytes(other)
    }
}

impl PartialEq<Tag> for &[u8; 4] {
    fn eq(&self, tag: &Tag) -> bool {
        tag.eq_bytes(self)
    }
}

impl PartialEq<str> for Tag {
    fn eq(&self, other: &str) -> bool {
        self.eq_str(other)
    }
}

impl PartialEq<&str> for Tag {
    fn eq(&self, other: &&str) -> bool {
        self.eq_str(other)
    }
}

impl PartialEq<&[u8]> for Tag {
    fn eq(&self, other: &&[u8]) -> bool {
        self.eq_slice(other)
    }
}

impl<T: OffsetValue> PartialEq<u32> for Nullable<T> {
    fn eq(&self, other: &u32) -> bool {
        self.eq_u32(other)
    }
}

impl<T: Scalar + Copy + PartialEq> PartialEq<T> for BigEndian<T> {
    fn eq(&self, other: &T) -> bool {
        self.eq_value(other)
    }
}

impl PartialOrd<GlyphId16> for GlyphId {
    fn partial_cmp(&self, other: &GlyphId16) -> Option<Ordering> {
        Some(self.cmp_gid16(other))
    }
}

impl PartialOrd<GlyphId> for GlyphId16 {
    fn partial_cmp(&self, other: &GlyphId) -> Option<Ordering> {
        Some(self.cmp_gid(other))
    }
}

impl AsRef<[u8]> for Tag {
    fn as_ref(&self) -> &[u8] {
        self.as_bytes()
    }
}

/// A tag hashes and is ordered as its bytes are, so that a map finds it by them.
impl Borrow<[u8; 4]> for Tag {
    fn borrow(&self) -> &[u8; 4] {
        self.as_bytes()
    }
}

// ---- what std has for texts, sums and iterators

impl AsRef<str> for Shortest {
    fn as_ref(&self) -> &str {
        self.as_str()
    }
}

/// Adds the product of each term, a scalar and a delta in font units.
///
/// ```
/// # use font_types_proved::{DeltaSum, Fixed};
/// let terms = [(Fixed::from_bits(0x8000), 3), (Fixed::NEG_ONE, 2)];
/// assert_eq!(DeltaSum::from_iter(terms).finish().to_string(), "-0.5");
/// ```
impl Extend<(Fixed, i32)> for DeltaSum {
    fn extend<I: IntoIterator<Item = (Fixed, i32)>>(&mut self, terms: I) {
        for (scalar, delta) in terms {
            self.add_product(scalar, delta);
        }
    }
}

/// Sums the products of terms, as `extend` does.
impl FromIterator<(Fixed, i32)> for DeltaSum {
    fn from_iter<I: IntoIterator<Item = (Fixed, i32)>>(terms: I) -> Self {
        let mut sum = Self::new();
        sum.extend(terms);
        sum
    }
}

/// `size_hint` is exact.
impl ExactSizeIterator for Predefined {}

impl FusedIterator for Predefined {}
