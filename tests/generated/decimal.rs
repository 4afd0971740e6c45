// @generated from crates/rows/src/tests/decimal.rt by tools/erase

//! What no clause says: the texts and the numbers of the errors, and which types are `Copy`.

use crate::font_decimal::{Align, DecimalFault, Pad, Shortest};
use crate::std_for_tests::fmt::{Debug, Display};
use crate::std_for_tests::test::Fail;

#[test]
fn error_texts_and_discriminants() -> Result<(), Fail> {
    let rt = crate::std_for_tests::Host;
    let (syntax, range) = (DecimalFault::Syntax, DecimalFault::OutOfRange);
    let text = format!(in rt.alloc(); "{syntax} {syntax:?}, {range} {range:?}")?;
    assert!(rt; text.as_str() == "not a decimal number Syntax, number out of range OutOfRange");
    assert!(rt; syntax.clone() == syntax);
    assert!(rt; DecimalFault::Syntax as u8 == 1 && DecimalFault::OutOfRange as u8 == 2);
    Ok(())
}

fn is_error<T: Clone + Eq + Debug + Display>() {}

fn is_copy<T: Copy>() {}

#[test]
fn traits() -> Result<(), Fail> {
    let rt = crate::std_for_tests::Host;
    is_error::<DecimalFault>();
    is_copy::<Shortest>();
    is_copy::<Pad>();
    is_copy::<Align>();
    let shown = format!(in rt.alloc(); "{}", Shortest::new(-10139, 14))?;
    assert!(rt; shown.as_str() == "-0.61884");
    Ok(())
}
