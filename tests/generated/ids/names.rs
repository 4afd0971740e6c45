// @generated from crates/rows/src/tests/ids/names.rt by tools/erase

//! Whether name ids have the numbers and names of OpenType.

use crate::font_ids::NameId;
use crate::std_for_tests::alloc::{AllocError, Global};
use crate::std_for_tests::test::Fail;

// The constants, each with its number and its text, of `{}` and `{:?}`.
macro_rules! named {
    ($($name:ident $number:literal)*) => {
        [$((NameId::$name, $number, stringify!($name)),)*]
    };
}

const NAMED: [(NameId, u16, &str); 25] = named! {
    COPYRIGHT_NOTICE 0
    FAMILY_NAME 1
    SUBFAMILY_NAME 2
    UNIQUE_ID 3
    FULL_NAME 4
    VERSION_STRING 5
    POSTSCRIPT_NAME 6
    TRADEMARK 7
    MANUFACTURER 8
    DESIGNER 9
    DESCRIPTION 10
    VENDOR_URL 11
    DESIGNER_URL 12
    LICENSE_DESCRIPTION 13
    LICENSE_URL 14
    TYPOGRAPHIC_FAMILY_NAME 16
    TYPOGRAPHIC_SUBFAMILY_NAME 17
    COMPATIBLE_FULL_NAME 18
    SAMPLE_TEXT 19
    POSTSCRIPT_CID_NAME 20
    WWS_FAMILY_NAME 21
    WWS_SUBFAMILY_NAME 22
    LIGHT_BACKGROUND_PALETTE 23
    DARK_BACKGROUND_PALETTE 24
    VARIATIONS_POSTSCRIPT_NAME_PREFIX 25
};

const UNNAMED: [(NameId, u16, &str); 2] = [
    (NameId::LAST_RESERVED_NAME_ID, 255, "NameId 255"),
    (NameId::LAST_ALLOWED_NAME_ID, 32767, "NameId 32767"),
];

fn is_shown(alloc: Global, id: NameId, text: &str) -> Result<bool, AllocError> {
    let (shown, debug) = (format!(in alloc; "{id}")?, format!(in alloc; "{id:?}")?);
    Ok(shown.as_str() == text && debug.as_str() == text)
}

#[test]
fn named() -> Result<(), Fail> {
    let rt = crate::std_for_tests::Host;
    for &(id, number, name) in NAMED.iter().chain(&UNNAMED) {
        let is = id.to_u16() == number && is_shown(rt.alloc(), id, name)?;
        assert!(rt; is, "{name}");
    }
    Ok(())
}

#[test]
fn texts_of_other_numbers() -> Result<(), Fail> {
    let rt = crate::std_for_tests::Host;
    assert!(rt; is_shown(rt.alloc(), NameId::new(15), "NameId 15")?);
    assert!(rt; is_shown(rt.alloc(), NameId::new(26), "NameId 26")?);
    assert!(rt; is_shown(rt.alloc(), NameId::default(), "NameId 65535")?);
    Ok(())
}

#[test]
fn predefined() {
    let rt = crate::std_for_tests::Host;
    assert!(rt; NameId::predefined().count() == 25);
    let mut left = NameId::predefined();
    for count in [25, 24, 23] {
        assert!(rt;
            left.size_hint() == (count, Some(count)),
            "{count} are left"
        );
        left.next();
    }
    assert!(rt; left.nth(11) == Some(NameId::LICENSE_URL) && left.size_hint() == (10, Some(10)));
    assert!(rt; left.nth(9).is_some() && left.size_hint() == (0, Some(0)));
    for (id, row) in NameId::predefined().zip(&NAMED) {
        assert!(rt; id == row.0, "{}", row.2);
    }
}

#[test]
fn checked_sums() {
    let rt = crate::std_for_tests::Host;
    for &(number, more, sum) in &[(40000, 0, None), (32766, 1, Some(32767))] {
        let found = NameId::new(number).checked_add(more);
        assert!(rt; found.map(NameId::to_u16) == sum, "{number} + {more}");
    }
}
