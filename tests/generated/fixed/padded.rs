// @generated from crates/rows/src/tests/fixed/padded.rt by tools/erase

//! Whether the definition of padding gives the texts of requirements.md.

use crate::font_decimal::Align::{Center, Left, Right};
use crate::font_decimal::Pad;
use crate::font_fixed::*;

/// Checks rows of a raw value, a width, a fill, an alignment, `plus` and `zeros`, each beside the
/// text that `write_padded` leaves in a buffer of `~` as long as that text, and the length that it
/// returns, 0 for `None`.
macro_rules! check_padded {
    ($rt:ident, $Number:ident, $rows:expr) => {
        for &(bits, width, fill, align, plus, zeros, text, len) in $rows {
            let mut out = [b'~'; 24];
            assert!($rt; fill < 128 && text.len() <= 24, "row of {text}");
            let pad = Pad { width, fill, align, plus, zeros };
            let written = $Number::from_bits(bits).write_padded(&mut out[..text.len()], &pad);
            assert!($rt; written.unwrap_or(0) == len, "length of {text}");
            assert!($rt; out.starts_with(text.as_bytes()), "{text}");
        }
    };
}

#[test]
fn padded_2_14() {
    let rt = crate::std_for_tests::Host;
    let rows = &[
        (9830, 8, b'*', Center, false, false, "**0.6***~", 8),
        (9830, 9, b'*', Center, false, false, "***0.6***", 9),
        (9830, 8, b' ', Left, false, false, "0.6     ~", 8),
        (9830, 8, b' ', Right, false, false, "     0.6~", 8),
        (9830, 8, b' ', Left, false, true, "000000.6~", 8),
        (9830, 0, b' ', Left, true, false, "+0.6~~~", 4),
        (16384, 9, b' ', Left, true, true, "+00000001", 9),
        (16384, 8, b' ', Right, false, false, "       1~", 8),
        (-24576, 8, b' ', Right, false, false, "    -1.5~", 8),
        (-24576, 8, b' ', Left, false, false, "-1.5    ~", 8),
        (-24576, 8, b' ', Left, false, true, "-00001.5~", 8),
        (-24576, 9, b' ', Left, true, true, "-000001.5", 9),
        (-24576, 8, b' ', Left, false, true, "~~~~~~~", 0),
        (32767, 0, b' ', Left, true, false, "+1.99994", 8),
    ];
    check_padded!(rt, F2Dot14, rows);
}

#[test]
fn padded_6_10() {
    let rt = crate::std_for_tests::Host;
    let rows = &[
        (-614, 0, b' ', Right, false, false, "-0.6~~", 4),
        (0x7C40, 0, b' ', Right, true, false, "+31.0625", 8),
    ];
    check_padded!(rt, F6Dot10, rows);
}
