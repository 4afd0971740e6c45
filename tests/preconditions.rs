//! Calls that break a precondition, or the precondition of a callback: they panic or return. Decimals
//! of each allowed number of fraction bits.

mod exact;

use exact::{Type, read, shortest};
use font_types_proved::{BoundingBox, Fixed, Matrix, Point, ScalarArray};
use font_types_proved::{DecimalFault, SampleHeader, Shortest, TableHeader};
use font_types_proved::{laws, read_decimal, read_decimal_bytes};
use std::panic::{AssertUnwindSafe, catch_unwind};

/// Fraction bits that are allowed, and others.
fn fraction_bits(least: u32) -> impl Iterator<Item = (u32, bool)> {
    let all = (0..=255).chain([u32::MAX]);
    all.map(move |f| (f, (least..=30).contains(&f)))
}

/// Returns what a call returns, or `None` if it panics.
fn returned<T>(call: impl FnOnce() -> T) -> Option<T> {
    catch_unwind(AssertUnwindSafe(call)).ok()
}

#[test]
fn printed_with_any_fraction_bits() {
    let ends = [i64::MAX, i64::MAX - 1, 1 << 62, (1 << 62) + 1, 10_i64.pow(18), i64::MIN];
    for (f, is_allowed) in fraction_bits(0) {
        let near = if is_allowed { 400 } else { 1 };
        for bits in (-near..=near).chain(ends) {
            let text = returned(|| Shortest::new(bits, f).to_string());
            let right = is_allowed.then(|| shortest(bits.into(), f));
            let both = returned(|| laws::prints_in_order(bits, 0, f).0.to_string());
            assert_eq!([text, both], [right.clone(), right], "{bits} {f}");
        }
    }
    assert_eq!(Shortest::new(i64::MIN, 0).as_str(), i64::MIN.to_string());
}

/// Returns the nearest value, if it is in the range.
fn parsed(text: &str, fraction: u32, min: i64, max: i64) -> Result<i64, DecimalFault> {
    let width = 127;
    let nearest = read(text.as_bytes(), Type { width, fraction });
    let nearest = nearest.map_err(|_| DecimalFault::Syntax)?;
    let is_in_range = (i128::from(min)..=i128::from(max)).contains(&nearest);
    let found = is_in_range.then_some(nearest as i64);
    found.ok_or(DecimalFault::OutOfRange)
}

#[test]
fn parsed_with_any_fraction_bits_and_range() {
    let ranges = [(0, 0), (1, -1), (5, 10), (-10, -5), (i64::MAX, i64::MIN)];
    for (f, is_allowed) in fraction_bits(6) {
        for (min, max) in ranges {
            for text in ["0.5", "-3", "1e3", "", "99999999999999999999.99999999999999999999"] {
                let row = format!("{text} {f} {min} {max}");
                let right = is_allowed.then(|| parsed(text, f, min, max));
                let found = returned(|| read_decimal(text, f, min, max));
                assert_eq!(found, right, "{row}");
                let found = returned(|| read_decimal_bytes(text.as_bytes(), f, min, max));
                assert_eq!(found, right, "{row}");
                let found = returned(|| laws::printed_again(text, f, min, max).map(|_| ()));
                assert_eq!(found, right.map(|right| right.map(|_| ())), "{row}");
                let found = returned(|| laws::reads_in_order("0.5", text, f, min, max));
                let right = right.map(|right| (parsed("0.5", f, min, max), right));
                assert_eq!(found, right, "{row}");
            }
        }
    }
}

#[test]
fn headers_of_any_length() {
    for len in 0..9 {
        let found = returned(|| SampleHeader::decode(&[7; 9][..len]).a.get());
        assert_eq!(found, (len == 6).then_some(0x707), "{len}");
    }
}

// A call panics if its callback does, or the operator of an element.
#[test]
fn callbacks_and_operators_that_panic() {
    let point = Point::new(i32::MAX, 1);
    let refuses = |x: i32| if x == 1 { panic!("refused") } else { x };
    assert!(returned(|| point.map(refuses)).is_none());
    let matrix = Matrix::from_elements([Fixed::ONE; 6]);
    assert!(returned(|| matrix.map(|_| -> Fixed { panic!("refused") })).is_none());
    let array = ScalarArray::<u16>::new(&[0, 1, 0, 2, 0, 3]).unwrap();
    assert!(
        returned(|| array.binary_search_by_key(&2, |_| -> u16 { panic!("refused") })).is_none()
    );
    assert!(returned(|| array.binary_search_by(|_| panic!("refused"))).is_none());
    assert!(returned(|| array.partition_point(|_| panic!("refused"))).is_none());
    // An overflow panics in a debug build, and wraps in a release build.
    let kept = if cfg!(debug_assertions) { None } else { Some(i32::MIN) };
    assert_eq!(returned(|| point + Point::broadcast(1)).map(|sum| sum.x), kept);
    let (x_min, y_min, x_max, y_max) = (i32::MIN, 0, 1, 2);
    let sides = BoundingBox { x_min, y_min, x_max, y_max };
    assert_eq!(returned(|| sides.scale(-1)).map(|sides| sides.x_min), kept);
    assert!(returned(|| point / Point::broadcast(0)).is_none());
}

#[test]
fn literals_name_the_fault() {
    for (text, fault) in [(".5", DecimalFault::Syntax), ("32768", DecimalFault::OutOfRange)] {
        let message = catch_unwind(|| Fixed::lit(text)).unwrap_err();
        assert_eq!(message.downcast_ref(), Some(&fault.to_string()), "{text}");
    }
}
