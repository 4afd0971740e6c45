//! What rustdoc does not say of types: the threads and the lives that they may be used in.

use core::panic::{RefUnwindSafe, UnwindSafe};
use font_types_proved::*;

/// Compiles if an iterator without a name can be sent, shared and moved, also past a panic, as types
/// with names can.
#[test]
fn iter_in_any_thread() {
    fn is_in_any_thread<T: Send + Sync + Unpin + UnwindSafe + RefUnwindSafe>(_: T) {}
    is_in_any_thread(ScalarArray::<Tag>::default().iter());
}

/// Compiles if a longer life is taken for a shorter one.
#[test]
fn lives_get_shorter() {
    type Views<'a> =
        (ScalarArray<'a, Tag>, ScalarArrayIter<'a, Tag>, TableDataRef<'a, SampleHeader>);
    fn shorter<'a>(views: Views<'static>, _: &'a [u8]) -> Views<'a> {
        views
    }
    let (array, table) = (ScalarArray::default(), TableDataRef::new(&[0; 6]).unwrap());
    let bytes = Vec::new();
    assert!(shorter((array, array.into_iter(), table), &bytes).0.is_empty());
}
