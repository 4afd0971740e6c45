// @generated from crates/rows/src/tests/base/traits.rt by tools/erase

//! What no clause says: the traits of each type, by functions with bounds.

use crate::font_base::{
    BigEndian, FixedSize, IdentityEq, Int24, SampleHeader, Scalar, ScalarArray, TableDataRef,
    Uint24,
};
use crate::std_for_tests::fmt::{Debug, Display};
use crate::std_for_tests::hash::Hash;

fn is_integer<T: Copy + Ord + Hash + Default + Display + Debug + Scalar + IdentityEq>() {}

fn is_field<T: Copy + Ord + Hash + Default + Display + Debug + FixedSize>() {}

fn is_view<T: Copy>() {}

fn is_array<T: Copy + Default + Eq>() {}

#[test]
fn traits() {
    let _rt = crate::std_for_tests::Host;
    is_integer::<Uint24>();
    is_integer::<Int24>();
    is_field::<BigEndian<u16>>();
    is_field::<BigEndian<Int24>>();
    is_view::<TableDataRef<SampleHeader>>();
    is_array::<ScalarArray<u16>>();
}
