//! Decimals: against exact integers, since `font-types` does not parse, and where an f64 holds
//! enough of the decimal, against `from_f64` too.

use compare::Random;
use compare::exact::{self, Fault};
use font_types_proved::DecimalFault;

struct Type {
    name: &'static str,
    exact: exact::Type,
    parse: fn(&str) -> Result<i128, DecimalFault>,
    /// The conversion of `font-types`.
    from_f64: fn(f64) -> i128,
}

fn types() -> [Type; 7] {
    macro_rules! of {
        ($Type:ident $width:literal $fraction:literal $from_f64:expr) => {
            Type {
                name: stringify!($Type),
                exact: exact::Type { width: $width, fraction: $fraction },
                parse: |text| {
                    let x = font_types_proved::$Type::from_decimal(text)?;
                    Ok(x.to_bits().into())
                },
                from_f64: $from_f64,
            }
        };
    }
    [
        of!(F2Dot14 16 14 |x| font_types::F2Dot14::from_f64(x).to_bits().into()),
        of!(F4Dot12 16 12 |x| font_types::F4Dot12::from_f64(x).to_bits().into()),
        of!(F6Dot10 16 10 |x| font_types::F6Dot10::from_f64(x).to_bits().into()),
        of!(Fixed 32 16 |x| font_types::Fixed::from_f64(x).to_bits().into()),
        of!(F26Dot6 32 6 |x| font_types::F26Dot6::from_f64(x).to_bits().into()),
        of!(F48Dot16 64 16 |x| font_types::F48Dot16::from_f64(x).to_bits().into()),
        // `font-types` lacks this type.
        of!(F2Dot30 32 30 |x| (x * f64::from(1 << 30)).round() as i128),
    ]
}

impl Type {
    fn check(&self, text: &str) {
        let expected = exact::read(text.as_bytes(), self.exact).map_err(|fault| match fault {
            Fault::Syntax => DecimalFault::Syntax,
            Fault::OutOfRange => DecimalFault::OutOfRange,
        });
        assert_eq!((self.parse)(text), expected, "{} {text}", self.name);
    }

    fn check_with_f64(&self, text: &str) {
        self.check(text);
        if let Ok(ours) = (self.parse)(text) {
            let theirs = (self.from_f64)(text.parse().expect("a decimal"));
            assert_eq!(ours, theirs, "{} {text}", self.name);
        }
    }

    /// Returns the tie between this raw value and the next, as a numeral and its places.
    fn tie_above(&self, bits: i64) -> (i128, u32) {
        let places = self.exact.fraction + 1;
        ((2 * i128::from(bits) + 1) * 5i128.pow(places), places)
    }
}

/// Returns the text of `numeral / 10^places`, with every place.
fn decimal(numeral: i128, places: u32) -> String {
    let sign = if numeral < 0 { "-" } else { "" };
    let places = places as usize;
    let digits = format!("{:0>width$}", numeral.unsigned_abs(), width = places + 1);
    let (integer, fraction) = digits.split_at(digits.len() - places);
    let point = if places > 0 { "." } else { "" };
    format!("{sign}{integer}{point}{fraction}")
}

#[test]
fn decimals_of_up_to_30_places() {
    let mut random = Random::new(1);
    for of in types() {
        for _ in 0..100_000 {
            of.check_with_f64(&decimal(random.i32().into(), random.below(6) as u32));
            let numeral = i128::from(random.signed(64)) << 30 ^ i128::from(random.i32());
            of.check(&decimal(numeral, random.below(31) as u32));
        }
    }
}

#[test]
fn ties() {
    let mut random = Random::new(2);
    for of in types() {
        // One more on each side, out of range.
        let every = (-(1 << 15) - 1..=1 << 15).filter(|_| of.exact.width == 16);
        let some: Vec<i64> = (0..60_000).map(|_| random.signed(of.exact.width)).collect();
        for bits in every.chain(some) {
            let (numeral, places) = of.tie_above(bits);
            let text = decimal(numeral, places);
            of.check(&text);
            // An f64 holds a tie of up to 52 bits.
            if bits.unsigned_abs() < 1 << 51 {
                of.check_with_f64(&text);
            }
        }
    }
}

/// Ties and the decimals next to them, with zeros in front.
#[test]
fn texts_of_up_to_5000_digits() {
    let mut random = Random::new(3);
    for of in types() {
        for _ in 0..500 {
            let (numeral, places) = of.tie_above(random.signed(of.exact.width));
            let (zeros, digits) = (random.below(100) as usize, random.below(4850) as usize);
            let (zeros, filler) = ("0".repeat(zeros), "0".repeat(digits));
            let tie = decimal(numeral, places);
            let below = decimal(numeral - numeral.signum(), places);
            let text = match random.below(3) {
                0 => format!("{tie}{filler}"),
                1 => format!("{tie}{filler}1"),
                _ => format!("{below}9{}", filler.replace('0', "9")),
            };
            let (sign, text) = text.strip_prefix('-').map_or(("", &*text), |text| ("-", text));
            of.check(&format!("{sign}{zeros}{text}"));
        }
    }
}

#[test]
fn texts_with_characters_replaced() {
    const PIECES: [&str; 10] = ["", ".", "-", "+", "e", " ", "0", "7", "_", "\u{660}"];
    let mut random = Random::new(4);
    for of in types() {
        for _ in 0..100_000 {
            let numeral = i128::from(random.i32() >> 16);
            let mut text: Vec<char> = decimal(numeral, random.below(4) as u32).chars().collect();
            for _ in 0..1 + random.below(3) {
                let at = random.below(text.len() as u64 + 1) as usize;
                let end = text.len().min(at + random.below(2) as usize);
                text.splice(at..end, PIECES[random.below(10) as usize].chars());
            }
            of.check(&text.into_iter().collect::<String>());
        }
    }
}
