// @generated from crates/rows/src/tests/tags/compatible.rt by tools/erase

//! What no clause of one call says: `compatible` is reflexive and transitive, proved of the
//! contract of each impl.

use crate::font_tags::{Compatible, MajorMinor, Version16Dot16};

fn packed_is_reflexive(version: Version16Dot16) -> bool {
    version.compatible(version)
}

fn packed_is_transitive(
    first: Version16Dot16,
    second: Version16Dot16,
    third: Version16Dot16,
) -> bool {
    if first.compatible(second) && second.compatible(third) {
        first.compatible(third)
    } else {
        true
    }
}

fn pair_is_reflexive(version: MajorMinor) -> bool {
    version.compatible(version)
}

fn pair_is_transitive(first: MajorMinor, second: MajorMinor, third: MajorMinor) -> bool {
    if first.compatible(second) && second.compatible(third) {
        first.compatible(third)
    } else {
        true
    }
}

fn number_is_reflexive(number: u16) -> bool {
    number.compatible(number)
}

fn number_is_transitive(first: u16, second: u16, third: u16) -> bool {
    if first.compatible(second) && second.compatible(third) {
        first.compatible(third)
    } else {
        true
    }
}

#[test]
fn compatible_is_reflexive() {
    let rt = crate::std_for_tests::Host;
    assert!(rt; packed_is_reflexive(Version16Dot16::VERSION_1_1));
    assert!(rt; pair_is_reflexive(MajorMinor::VERSION_1_2) && number_is_reflexive(3));
}

#[test]
fn compatible_is_transitive() {
    let rt = crate::std_for_tests::Host;
    let [packed, lower, lowest] = [9, 5, 1].map(|minor| Version16Dot16::new(1, minor));
    assert!(rt; packed_is_transitive(packed, lower, lowest) && number_is_transitive(3, 2, 1));
    let [pair, lower, lowest] = [3, 2, 1].map(|minor| MajorMinor::new(1, minor));
    assert!(rt; pair_is_transitive(pair, lower, lowest));
}
