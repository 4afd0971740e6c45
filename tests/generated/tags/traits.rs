// @generated from crates/rows/src/tests/tags/traits.rt by tools/erase

//! What no clause says: the traits of each type, by functions with bounds, and that a set finds
//! equal values.

use crate::font_base::{IdentityEq, Scalar};
use crate::font_tags::{Compatible, InvalidTag, LongDateTime, MajorMinor, Tag, Version16Dot16};
use crate::std_for_tests::alloc::{AllocError, Global};
use crate::std_for_tests::collections::HashSet;
use crate::std_for_tests::fmt::{Debug, Display};
use crate::std_for_tests::hash::Hash;
use crate::std_for_tests::str::FromStr;
use crate::std_for_tests::test::Fail;

/// Returns whether a set of one value has an equal value, and not another.
fn is_scalar<T>(alloc: Global, value: T, equal: T, other: T) -> Result<bool, AllocError>
where
    T: Copy + Ord + Hash + Default + Debug + Scalar + IdentityEq,
{
    let mut set = HashSet::new(alloc);
    set.insert(value)?;
    Ok(set.contains(&equal) && !set.contains(&other))
}

fn is_display<T: Display>() {}

fn is_version<T: Display + Compatible<T> + Compatible<(u16, u16)>>() {}

fn is_from_str<T: FromStr>() {}

fn is_error<T: Clone + Eq + Debug + Display>() {}

#[test]
fn traits() -> Result<(), Fail> {
    let rt = crate::std_for_tests::Host;
    is_display::<Tag>();
    is_from_str::<Tag>();
    is_error::<InvalidTag>();
    is_version::<Version16Dot16>();
    is_version::<MajorMinor>();
    let alloc = rt.alloc();
    assert!(rt;
        is_scalar(
            alloc,
            Tag::new(b"head"),
            Tag::from_u32(0x6865_6164),
            Tag::default()
        )?
    );
    let [date, same, other] = [-1, -1, 1].map(LongDateTime::new);
    assert!(rt; is_scalar(alloc, date, same, other)?);
    let (packed, other) = (Version16Dot16::VERSION_1_0, Version16Dot16::VERSION_1_1);
    assert!(rt; is_scalar(alloc, packed, Version16Dot16::new(1, 0), other)?);
    let (pair, other) = (MajorMinor::VERSION_1_0, MajorMinor::VERSION_1_1);
    assert!(rt; is_scalar(alloc, pair, MajorMinor::new(1, 0), other)?);
    Ok(())
}
