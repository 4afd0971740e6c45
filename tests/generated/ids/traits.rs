// @generated from crates/rows/src/tests/ids/traits.rt by tools/erase

//! What no clause says: the traits of each type, by functions with bounds, and that a set finds
//! equal values.

use crate::font_base::{IdentityEq, Scalar};
use crate::font_ids::{
    FWord, GlyphId, GlyphId16, GlyphId24, NameId, Nullable, Offset16, Offset24, Offset32,
    OffsetValue, UfWord,
};
use crate::std_for_tests::alloc::{AllocError, Global};
use crate::std_for_tests::collections::HashSet;
use crate::std_for_tests::fmt::{Debug, Display};
use crate::std_for_tests::hash::Hash;
use crate::std_for_tests::test::Fail;

fn is_identifier<T: Copy + Ord + Hash + Default + Display + Debug>() {}

fn is_number<T: Copy + Ord + Hash + Default + Display + Debug + Scalar + IdentityEq>() {}

fn is_offset<T: Copy + Ord + Debug + Scalar + IdentityEq + OffsetValue>() {}

fn is_nullable<T: Copy + Eq + Default + Debug + Scalar>() {}

#[test]
fn traits() {
    let _rt = crate::std_for_tests::Host;
    is_number::<FWord>();
    is_number::<UfWord>();
    is_number::<GlyphId16>();
    is_number::<GlyphId24>();
    is_number::<NameId>();
    is_identifier::<GlyphId>();
    is_offset::<Offset16>();
    is_offset::<Offset24>();
    is_offset::<Offset32>();
    is_nullable::<Nullable<Offset24>>();
}

// Returns whether a set of one value has an equal value, and not another.
fn is_found<T: Copy + Eq + Hash>(
    alloc: Global,
    value: T,
    equal: T,
    other: T,
) -> Result<bool, AllocError> {
    let mut set = HashSet::new(alloc);
    set.insert(value)?;
    Ok(set.contains(&equal) && !set.contains(&other))
}

#[test]
fn hash() -> Result<(), Fail> {
    let rt = crate::std_for_tests::Host;
    let (alloc, wide) = (rt.alloc(), GlyphId24::new(70000));
    assert!(rt;
        is_found(
            alloc,
            GlyphId::new(70000),
            GlyphId::from(wide),
            GlyphId::new(4464)
        )?
    );
    assert!(rt; is_found(alloc, NameId::FAMILY_NAME, NameId::new(1), NameId::new(2))?);
    assert!(rt; is_found(alloc, FWord::new(-1), FWord::new(-1), FWord::new(1))?);
    assert!(rt;
        is_found(
            alloc,
            UfWord::new(65535),
            UfWord::new(65535),
            UfWord::new(1)
        )?
    );
    Ok(())
}
