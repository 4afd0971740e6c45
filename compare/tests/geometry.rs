//! Matrices, points and boxes of `Fixed`.

use compare::{Random, assert_same};
use std::array::from_fn;

#[test]
fn matrices() {
    let mut random = Random::new(1);
    for _ in 0..1_000_000 {
        let bits = [0; 14].map(|_| random.i32());
        assert_same!(bits, |k| {
            let x = bits.map(k::Fixed::from_bits);
            let [a, b] = [0, 6].map(|at| k::Matrix::from_elements(from_fn(|n| x[at + n])));
            let p = k::Point::new(x[12], x[13]);
            let mut product = a;
            product *= b;
            let (x, y) = a.transform(p.x, p.y);
            let images = [a * p, k::Point::new(x, y), (a * b) * p, a * (b * p)];
            let products = [a * b, product].map(|it| it.map(k::Fixed::to_bits).elements());
            (products, images.map(|p| p.map(k::Fixed::to_bits)).map(|p| [p.x, p.y]))
        });
    }
}

#[test]
fn points() {
    let mut random = Random::new(2);
    for _ in 0..500_000 {
        let bits = [0; 5].map(|_| random.i32());
        assert_same!(bits, |k| {
            let [a, b, c, d, n] = bits.map(k::Fixed::from_bits);
            let (p, q) = (k::Point::new(a, b), k::Point::new(c, d));
            let mut assigned = [p; 6];
            assigned[0] += q;
            assigned[1] -= q;
            assigned[2] *= q;
            assigned[3] /= q;
            assigned[4] *= n;
            assigned[5] /= n;
            let [sum, difference, product, quotient, more, less] = assigned;
            let assigned = [sum, difference, product, quotient, more, less, k::Point::broadcast(n)];
            let assigned = assigned.map(|p| [p.x, p.y].map(k::Fixed::to_bits));
            let points = [p + q, p - q, p * q, p / q, -p, p * n, p / n];
            (points.map(|p| [p.x, p.y].map(k::Fixed::to_bits)), assigned)
        });
    }
}

#[test]
fn boxes() {
    let mut random = Random::new(3);
    for _ in 0..500_000 {
        let bits = [0; 5].map(|_| random.i32());
        assert_same!(bits, |k| {
            let [x_min, y_min, x_max, y_max, n] = bits.map(k::Fixed::from_bits);
            let of = k::BoundingBox { x_min, y_min, x_max, y_max };
            let boxes = [of.normalize(), of.scale(n), of.scale(n).normalize()];
            let sides = boxes.map(|b| [b.x_min, b.y_min, b.x_max, b.y_max].map(k::Fixed::to_bits));
            (sides, of.is_normalized())
        });
    }
}
