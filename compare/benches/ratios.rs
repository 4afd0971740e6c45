//! Prints how long calls of `font-types-proved` take over the same work with `font-types` and with
//! std: below 1, the package is faster. The columns of a row are timed in turn in one run, and the
//! least time of each counts, so that the ratios hold on a busy machine. The first row, a function
//! beside itself, shows how far a ratio can be trusted.

use compare::{Metric, Random};
use font_types as theirs;
use font_types_proved as ours;
use std::fmt::{Display, Write as _};
use std::hint::black_box;
use std::time::{Duration, Instant};

const COUNT: usize = 1024;
const GLYPHS: usize = 6253;
const ROW: Duration = Duration::from_millis(400);
const BATCHES: usize = 10;

/// Work that returns a checksum: the columns of a row return the same.
type Work<'a> = Option<&'a dyn Fn() -> u64>;

/// Prints the time of the first column over that of each other.
fn row(name: &str, columns: [Work; 3]) {
    let mut least = [Duration::MAX; 3];
    let start = Instant::now();
    let mut batch = 0;
    while batch < BATCHES || start.elapsed() < ROW {
        batch += 1;
        for turn in 0..3 {
            let at = (batch + turn) % 3;
            let start = Instant::now();
            for work in [columns[at]; 4].into_iter().flatten() {
                black_box(work());
            }
            least[at] = least[at].min(start.elapsed());
        }
    }
    let ratio = |at: usize| {
        columns[at].map_or(String::from("-"), |work| {
            assert_eq!(columns[0].unwrap()(), work(), "{name}: a checksum");
            format!("{:.2}", least[0].as_secs_f64() / least[at].as_secs_f64())
        })
    };
    println!("{name:34}{:>12}{:>8}", ratio(1), ratio(2));
}

/// Adds up what a closure makes of each item.
fn total<T>(items: &[T], of: impl Fn(&T) -> i64) -> u64 {
    items.iter().fold(0i64, |sum, item| sum.wrapping_add(of(black_box(item)))) as u64
}

fn arithmetic(random: &mut Random) {
    let numbers: Vec<_> = (0..COUNT).map(|_| [(); 12].map(|()| random.i32() | 1)).collect();
    macro_rules! call {
        ($name:literal, |$k:ident, $x:ident| $call:expr) => {{
            macro_rules! of {
                ($crate_:ident) => {
                    Some(&|| {
                        total(&numbers, |$x| {
                            use $crate_ as $k;
                            i64::from($call.to_bits())
                        })
                    })
                };
            }
            row($name, [of!(ours), of!(theirs), None]);
        }};
    }
    let work: Work = Some(&|| total(&numbers, |x| x.iter().map(|x| i64::from(*x)).sum()));
    row("a function beside itself", [work, work, None]);
    call!("Fixed * Fixed", |k, x| k::Fixed::from_bits(x[0]) * k::Fixed::from_bits(x[1]));
    call!("Fixed / Fixed", |k, x| k::Fixed::from_bits(x[0]) / k::Fixed::from_bits(x[1]));
    call!("Fixed::mul_div", |k, x| {
        k::Fixed::from_bits(x[0]).mul_div(k::Fixed::from_bits(x[1]), k::Fixed::from_bits(x[2]))
    });
    call!("Fixed::to_f2dot14", |k, x| k::Fixed::from_bits(x[0]).to_f2dot14());
    call!("Matrix * Matrix", |k, x| {
        let [a, b] = [0, 6].map(|at| std::array::from_fn(|i| k::Fixed::from_bits(x[at + i])));
        let product = k::Matrix::from_elements(a) * k::Matrix::from_elements(b);
        product.elements().into_iter().reduce(|sum, element| sum + element).unwrap()
    });
}

/// Decimals of one length, parsed and printed beside std's `f64`.
fn decimals(random: &mut Random) {
    for (whole, places) in [(1u32, 1u32), (2, 4), (4, 6), (12, 11)] {
        let mut below = |power: u32| random.below(9 * 10u64.pow(power - 1)) + 10u64.pow(power - 1);
        let texts: Vec<_> =
            (0..COUNT).map(|_| format!("{}.{}", below(whole), below(places))).collect();
        let fixed = |text: &String| text.parse::<ours::F48Dot16>().unwrap();
        let float = |text: &String| text.parse::<f64>().unwrap();
        let ours: Work = Some(&|| total(&texts, |text| fixed(text).to_bits().signum()));
        let std: Work = Some(&|| total(&texts, |text| float(text).signum() as i64));
        row(&format!("parse, {} characters", whole + places + 1), [ours, None, std]);
        let values: Vec<_> = texts.iter().map(fixed).collect();
        let floats: Vec<_> = values.iter().map(|value| float(&value.to_string())).collect();
        let [ours, std]: [Work; 2] = [Some(&|| printed(&values)), Some(&|| printed(&floats))];
        row(&format!("print, up to {} characters", whole + places + 1), [ours, None, std]);
    }
}

/// Prints numbers to one buffer, and returns how many there are: an `f64` can have other digits.
fn printed<T: Display>(numbers: &[T]) -> u64 {
    let mut text = String::with_capacity(32 * numbers.len());
    for number in numbers {
        write!(text, "{number}").unwrap();
    }
    black_box(text);
    numbers.len() as u64
}

fn fields(random: &mut Random) {
    let table: Vec<u8> = (0..4 * GLYPHS).map(|_| random.u64() as u8).collect();
    let bytes = &table[..2 * COUNT];
    let offsets: Vec<usize> = (0..bytes.len()).step_by(2).collect();
    let by_ours = |at: &usize| ours::Scalar::read_at(bytes, *at).map_or(0, u16::into);
    let by_theirs = |at: &usize| theirs::Scalar::read(&bytes[*at..][..2]).map_or(0, u16::into);
    let by_std = |at: &usize| u16::from_be_bytes([bytes[*at], bytes[at + 1]]).into();
    let [ours, theirs]: [Work; 2] =
        [Some(&|| total(&offsets, by_ours)), Some(&|| total(&offsets, by_theirs))];
    row("a field at an offset", [ours, theirs, Some(&|| total(&offsets, by_std))]);
    let array = || font_types_proved::ScalarArray::<u16>::new(black_box(bytes)).unwrap();
    let pairs =
        || black_box(bytes).chunks_exact(2).map(|pair| font_types::Scalar::read(pair).unwrap());
    let chunks = || black_box(bytes).as_chunks().0.iter().map(|pair| u16::from_be_bytes(*pair));
    let ours: Work = Some(&|| array().iter().map(u64::from).sum());
    let theirs: Work = Some(&|| pairs().map(|number: u16| u64::from(number)).sum());
    row("an array of 1,024 u16", [ours, theirs, Some(&|| chunks().map(u64::from).sum())]);
    let records = || font_types_proved::ScalarArray::<Metric>::new(black_box(&table)).unwrap();
    let by_hand = |four: &[u8; 4]| u64::from(u16::from_be_bytes([four[0], four[1]]));
    let ours: Work = Some(&|| records().iter().map(|metric| u64::from(metric.advance)).sum());
    let std: Work = Some(&|| black_box(&table).as_chunks().0.iter().map(by_hand).sum());
    row("6,253 records of another crate", [ours, None, std]);
}

fn main() {
    let random = &mut Random::new(2026);
    println!("{:34}{:>12}{:>8}", "time of the package over that of", "font-types", "std");
    arithmetic(random);
    decimals(random);
    fields(random);
}
