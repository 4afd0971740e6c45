//! Order, equality, copies, defaults and texts of values of each type.

use compare::{Random, assert_same};
use std::cmp::Ordering;
use std::fmt::Debug;
use std::hash::{DefaultHasher, Hash, Hasher};

type Told = (Ordering, Option<Ordering>, bool, u64, String);

fn told<T: Clone + Debug + Default + Hash + Ord>([x, y]: [T; 2]) -> Told {
    let mut hasher = DefaultHasher::new();
    x.hash(&mut hasher);
    let text = format!("{x:?} {y:?} {:?}", T::default());
    (x.cmp(&y), x.clone().partial_cmp(&y), x == y.clone(), hasher.finish(), text)
}

/// Without an order, and without a default.
fn told_of_parts<T: Clone + Debug + PartialEq>([x, y]: [T; 2]) -> (bool, bool, String) {
    (x == y.clone(), x == x.clone(), format!("{x:?} {y:?}"))
}

macro_rules! each_type {
    ($(|$k:ident, $n:ident| $new:expr;)*) => {
        #[test]
        fn ordered() {
            let mut random = Random::new(1);
            for _ in 0..100_000 {
                let pair = pair(&mut random);
                $(assert_same!((stringify!($new), pair), |$k| told(pair.map(|$n| $new)));)*
            }
        }
    };
}

/// Returns two numbers that are often equal, in their upper half at least.
fn pair(random: &mut Random) -> [i64; 2] {
    let n = random.signed(64);
    let other = [random.signed(64), n, n ^ 1, n ^ random.below(1 << 32) as i64];
    [n, other[random.below(4) as usize]]
}

each_type! {
    |k, n| k::Fixed::from_bits(n as i32);
    |k, n| k::F2Dot14::from_bits(n as i16);
    |k, n| k::F4Dot12::from_bits(n as i16);
    |k, n| k::F6Dot10::from_bits(n as i16);
    |k, n| k::F26Dot6::from_bits(n as i32);
    |k, n| k::F48Dot16::from_bits(n);
    |k, n| k::Uint24::new(n as u32);
    |k, n| k::Int24::new(n as i32);
    |k, n| k::FWord::new(n as i16);
    |k, n| k::UfWord::new(n as u16);
    |k, n| k::GlyphId16::new(n as u16);
    |k, n| k::GlyphId24::new(n as u32);
    |k, n| k::GlyphId::new(n as u32);
    |k, n| k::NameId::new(n as u16);
    |k, n| k::LongDateTime::new(n);
    |k, n| <k::Version16Dot16 as k::Scalar>::from_raw((n as u32).to_be_bytes());
    |k, n| k::MajorMinor::new((n >> 16) as u16, n as u16);
    |k, n| k::Tag::from_u32(n as u32);
    |k, n| k::BigEndian::from(k::Fixed::from_bits(n as i32));
}

#[test]
fn not_ordered() {
    let mut random = Random::new(2);
    for _ in 0..100_000 {
        let [a, b] = pair(&mut random).map(|n| n as i32);
        assert_same!((a, b), |k| {
            let [x, y] = [a, b].map(k::Fixed::from_bits);
            let points = [k::Point::new(x, y), k::Point::new(y, y)];
            let of = |y| k::BoundingBox { x_min: x, y_min: y, x_max: x, y_max: y };
            let matrix = |y| k::Matrix::from_elements([x, x, x, x, x, y]);
            let offsets = [a, b].map(|n| k::Offset32::new(n as u32));
            let parts = (told_of_parts(points), told_of_parts([x, y].map(of)));
            let others = (told_of_parts([x, y].map(matrix)), told_of_parts(offsets));
            let nullable = offsets.map(|it| k::Scalar::from_raw(k::Scalar::to_raw(it)));
            let nullable: [k::Nullable<k::Offset32>; 2] = nullable;
            let [m, n] = [a, b].map(|n| k::Offset24::new(k::Uint24::new(n as u32)));
            let [p, q] = [a, b].map(|n| k::Offset16::new(n as u16));
            let order = (m.partial_cmp(&n), p.cmp(&q), offsets[0].partial_cmp(&offsets[1]));
            let order = (order, m.cmp(&n), p.partial_cmp(&q));
            (
                parts,
                others,
                told_of_parts([m, n]),
                told_of_parts([p, q]),
                order,
                told_of_parts(nullable),
            )
        });
    }
    assert_same!((), |k| {
        let (point, of) = (k::Point::<k::Fixed>::default(), k::BoundingBox::<k::Fixed>::default());
        let field = k::BigEndian::<k::Fixed>::default();
        format!("{point:?} {of:?} {:?} {field}", k::Matrix::<k::Fixed>::default())
    });
    assert_same!((), |k| {
        let refused = k::Uint24::try_from(1 << 24).unwrap_err();
        format!("{refused} {refused:?}")
    });
    assert_same!((), |k| {
        let [x, y] = [0, 9].map(|n| k::Tag::new_checked(&b"a b c d e"[..n]).unwrap_err());
        told_of_parts([x, y])
    });
}
