//! Reference fixed-point arithmetic on `i128`, and decimals digit by digit: the second method of
//! the tests here, and of `compare`.
#![allow(dead_code)]

/// The width and the fraction bits of a fixed-point type.
#[derive(Clone, Copy)]
pub struct Type {
    pub width: u32,
    pub fraction: u32,
}

/// An error of parsing.
#[derive(Clone, Copy, PartialEq, Eq)]
pub enum Fault {
    Syntax = 1,
    OutOfRange = 2,
}

/// Returns whether `width` bits in two's complement hold the number.
pub fn fits(width: u32, number: i128) -> bool {
    let half = 1i128 << (width - 1);
    -half <= number && number < half
}

/// Wraps a number to `width` bits in two's complement.
pub fn wrap(width: u32, number: i128) -> i128 {
    let half = 1i128 << (width - 1);
    (number + half).rem_euclid(1 << width) - half
}

/// Returns the integer nearest to `n / d`, half away from zero.
pub fn near(n: i128, d: i128) -> i128 {
    let magnitude = (2 * n.abs() + d.abs()) / (2 * d.abs());
    magnitude * n.signum() * d.signum()
}

/// Returns the integer nearest to `n / d`, half up.
pub fn up(n: i128, d: i128) -> i128 {
    (2 * n + d).div_euclid(2 * d)
}

/// Parses a decimal as the nearest raw value, half away from zero.
pub fn read(text: &[u8], kind: Type) -> Result<i128, Fault> {
    let (negative, digits) = match text.strip_prefix(b"-") {
        Some(digits) => (true, digits),
        None => (false, text),
    };
    let (whole, fraction) = match digits.iter().position(|byte| *byte == b'.') {
        Some(point) if point + 1 < digits.len() => (&digits[..point], &digits[point + 1..]),
        Some(_) => return Err(Fault::Syntax),
        None => (digits, &[][..]),
    };
    let is_digits = |text: &[u8]| text.iter().all(u8::is_ascii_digit);
    if whole.is_empty() || !is_digits(whole) || !is_digits(fraction) {
        return Err(Fault::Syntax);
    }
    let magnitude = number(whole).ok_or(Fault::OutOfRange)? << (kind.fraction + 1);
    let half_units = magnitude + half_units(fraction, kind.fraction + 1);
    let units = (half_units + 1) / 2;
    let bits = if negative { -units } else { units };
    let in_range = fits(kind.width, bits).then_some(bits);
    in_range.ok_or(Fault::OutOfRange)
}

// Returns the value of digits, or `None` if more than 20 follow the leading zeros.
fn number(digits: &[u8]) -> Option<i128> {
    let digits: Vec<&u8> = digits.iter().skip_while(|digit| **digit == b'0').collect();
    let number = |n, digit: &&u8| 10 * n + i128::from(**digit - b'0');
    (digits.len() <= 20).then(|| digits.iter().fold(0, number))
}

// Returns the first `places` binary digits of a decimal fraction, by doubling it `places` times.
fn half_units(fraction: &[u8], places: u32) -> i128 {
    let mut digits: Vec<u8> = fraction.iter().map(|digit| digit - b'0').collect();
    let mut found = 0;
    for _ in 0..places {
        let mut carry = 0;
        for digit in digits.iter_mut().rev() {
            let doubled = 2 * *digit + carry;
            *digit = doubled % 10;
            carry = doubled / 10;
        }
        found = 2 * found + i128::from(carry);
    }
    found
}

/// Returns the nearest decimal of the fewest places that parses back.
pub fn shortest(bits: i128, fraction: u32) -> String {
    let sign = if bits < 0 { "-" } else { "" };
    let unit = 1i128 << fraction;
    let mut ten = 1;
    for places in 0.. {
        let numeral = near(bits.abs() * ten, unit);
        if 2 * (numeral * unit - bits.abs() * ten).abs() < ten {
            let (whole, rest) = (numeral / ten, numeral % ten);
            return match places {
                0 => format!("{sign}{whole}"),
                _ => format!("{sign}{whole}.{rest:0places$}"),
            };
        }
        ten *= 10;
    }
    unreachable!("a decimal of as many places as bits of fraction is exact")
}
