//! Products, quotients, conversions and sums of deltas.

use compare::{Random, assert_same, edges, sampled};
use font_types_proved::{DeltaSum, FWord, Fixed, vary};

fn products_of(a: i32, b: i32, c: i32) {
    assert_same!((a, b, c), |k| {
        let [x, y, z] = [a, b, c].map(k::Fixed::from_bits);
        let (mut product, mut quotient) = (x, x);
        product *= y;
        quotient /= y;
        [x * y, product, x / y, quotient, x.mul_div(y, z)].map(k::Fixed::to_bits)
    });
    assert_same!((a, b), |k| k::Fixed::from_bits(a).mul_i32(b).to_bits());
    assert_same!((a, b), |k| {
        let [x, y] = [a, b].map(k::F26Dot6::from_bits);
        let (mut product, mut quotient) = (x, x);
        product *= y;
        quotient /= y;
        [x * y, product, x / y, quotient].map(k::F26Dot6::to_bits)
    });
}

#[test]
fn products() {
    let edges: Vec<i32> = edges(32).into_iter().map(|bits| bits as i32).collect();
    for &a in &edges {
        for &b in &edges {
            edges.iter().for_each(|&c| products_of(a, b, c));
        }
    }
    let mut random = Random::new(1);
    for _ in 0..3_000_000 {
        products_of(random.i32(), random.i32(), random.i32());
    }
}

fn conversions_of(bits: i32) {
    assert_same!(bits, |k| k::Fixed::from_bits(bits).to_i32());
    assert_same!(bits, |k| k::Fixed::from_bits(bits).to_f26dot6().to_bits());
    assert_same!(bits, |k| k::Fixed::from_bits(bits).to_f2dot14().to_bits());
    assert_same!(bits, |k| k::Fixed::from_bits(bits).to_f48dot16().to_bits());
    assert_same!(bits, |k| [k::Fixed::from_i32(bits), bits.into()].map(k::Fixed::to_bits));
    assert_same!(bits, |k| k::F26Dot6::from_bits(bits).to_i32());
    assert_same!(bits, |k| k::F26Dot6::from_i32(bits).to_bits());
    let half = bits as i16;
    assert_same!(half, |k| k::F2Dot14::from_bits(half).to_fixed().to_bits());
}

#[test]
fn conversions() {
    let edges = edges(32).into_iter().map(|bits| bits as i32);
    let low = i16::MIN..=i16::MAX;
    sampled()
        .map(|bits| bits as i32)
        .chain(edges)
        .chain(low.map(i32::from))
        .for_each(conversions_of);
}

#[test]
fn conversions_of_f48dot16() {
    let mut random = Random::new(2);
    let random: Vec<i64> = (0..2_000_000).map(|_| random.signed(64)).collect();
    for bits in edges(64).into_iter().chain(random) {
        assert_same!(bits, |k| k::F48Dot16::from_bits(bits).to_i64());
        assert_same!(bits, |k| k::F48Dot16::from_bits(bits).to_i32());
        assert_same!(bits, |k| k::F48Dot16::from_bits(bits).to_fixed().to_bits());
        assert_same!(bits, |k| k::F48Dot16::from_i64(bits).to_bits());
        assert_same!(bits, |k| k::F48Dot16::from_i32(bits as i32).to_bits());
    }
}

/// `font-types` leaves the sum to the caller: `mul_i32` and a wrapping `+`.
#[test]
fn sums_of_deltas() {
    let mut random = Random::new(4);
    for _ in 0..500_000 {
        // Half of the numbers are ends, so that many sums leave 64 bits.
        let mut number = || match random.below(4) {
            0 => i32::MIN,
            1 => i32::MAX,
            _ => random.i32(),
        };
        let pairs: Vec<[i32; 2]> = (0..16).map(|_| [number(), number()]).collect();
        let pairs = &pairs[..random.below(17) as usize];
        let base = random.u64() as i16;
        let terms = pairs.iter().map(|&[x, delta]| (Fixed::from_bits(x), delta));
        let terms: Vec<(Fixed, i32)> = terms.collect();
        let (mut sum, mut wrapping) = (DeltaSum::new(), font_types::F48Dot16::ZERO);
        for &[x, delta] in pairs {
            sum.add_product(Fixed::from_bits(x), delta);
            wrapping += font_types::Fixed::from_bits(x).mul_i32(delta);
        }
        assert_eq!(sum.finish().to_bits(), wrapping.to_bits(), "{pairs:?}");
        let product = |&[x, delta]: &[i32; 2]| i128::from(x) * i128::from(delta);
        let products = pairs.iter().map(product);
        let exact = Some(products.sum()).filter(|sum: &i128| i64::try_from(*sum).is_ok());
        let checked = sum.checked_finish().map(|sum| i128::from(sum.to_bits()));
        assert_eq!(checked, exact, "{pairs:?}");
        let varied = exact.map(|sum| i128::from(base) * 65536 + sum);
        assert_eq!(vary(FWord::new(base), &terms), varied, "{base} {pairs:?}");
    }
}
