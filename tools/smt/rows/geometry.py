"""Rows of matrices, points and scales."""

from collections.abc import Iterator
from typing import Any

import z3
from z3 import BitVecRef, BoolRef

from integers import subterms
from rows.row import Rule, case, relation

from rows.rules import (
    S, Exact, Products, checked, checked_scaled, fits, near, scaled, some, wrap,
)  # fmt: skip

# fmt: off
# ---------------------------------------------------------------- matrices and points
ENTRIES = "xx yx xy yy dx dy".split()
entries = lambda of: ", ".join(f"{of}{it}: i32" for it in ENTRIES)
matrix = lambda of: "Matrix::from_elements([{}])".format(
    ", ".join(f"Fixed::from_bits({of}{it})" for it in ENTRIES))
SPOTS = [f"Point::new(Fixed::from_bits({x}), Fixed::from_bits({y}))" for x, y in (
    ("x", "y"), ("s", "t"))]
BOTH = "((it.x.to_bits() as u32 as u64) << 32) | it.y.to_bits() as u32 as u64"
ROWS = {"x": ("xx", "xy", "dx"), "y": ("yx", "yy", "dy")}
FROM = "Fixed::from_bits(x), Fixed::from_bits(y)"


def moved(p: Products, *v: Any) -> list[Any]:
    """The coordinates of a point that a matrix moves: "a sum of rounded products"."""
    m = dict(zip([*ENTRIES, "x", "y"], v))
    return [p.rounded(m[s], m["x"]) + p.rounded(m[t], m["y"]) + p.number(m[plus])
            for s, t, plus in ROWS.values()]


def product(p: Products, *v: Any) -> dict[str, Any]:
    """The entries of a product. The columns of b are moved, that of dx and dy as a point."""
    columns = {it: moved(p, *v[:6], *v[6 + i : 8 + i]) for i, it in ((0, "x"), (2, "y"), (4, "d"))}
    a = dict(zip(ENTRIES, v))
    return {name: columns[name[1] if name[0] != "d" else "d"]["xy".index(
        name[0] if name[0] != "d" else name[1])] - (p.number(a["d" + name[0]]) if name[0] != "d" else 0)
            for name in ENTRIES}


# Any entry of a matrix, by an index. From 5 on, it is the last.
ENTRY = "match i {{ {}, _ => it.dy.to_bits() }}".format(
    ", ".join(f"{i} => it.{name}.to_bits()" for i, name in enumerate(ENTRIES[:-1])))


def entry(of: dict[str, Any], i: BitVecRef) -> Any:
    *before, found = of.values()
    for at, it in enumerate(before):
        found = z3.If(i == at, it, found)
    return found


def image(p: Products, *v: Any) -> list[Any]:
    """The coordinates of a point that a matrix moves, and of a point that it moved."""
    return [p.result(it) for it in moved(p, *v)]


def composed(p: Products, *v: Any) -> list[Any]:
    """The image by a product of two matrices."""
    return image(p, *(p.result(it) for it in product(p, *v[:12]).values()), *v[12:])


def in_turn(p: Products, *v: Any) -> list[Any]:
    """The image by a matrix of the image by another."""
    return image(p, *v[:6], *image(p, *v[6:]))


def bounds() -> Iterator[tuple[str, BoolRef]]:
    """How far the results of the rows of laws below are from the exact images, if each number that
    is held in 32 bits fits. Both sides are times 2^16, and of two matrices times 2^32."""
    a, b = (z3.Ints(" ".join(of + it for it in ENTRIES)) for of in "ab")
    x, y = z3.Ints("x y")
    m, by_b = dict(zip(ENTRIES, a)), list[z3.ArithRef]()
    size = lambda n: z3.If(n < 0, -n, n)
    # A product of numbers that are not negative is not negative.
    product_of = lambda n, k: z3.Implies(z3.And(n >= 0, k >= 0), n * k >= 0)
    yield "PRODUCT", product_of(x, y)
    # By PRODUCT, if |e| is at most 2^16, then |e n| is at most 2^16 |n|.
    share = lambda e, n: z3.And([product_of(2**16 + f, k) for f in (e, -e) for k in (n, -n)])
    of_b = dict(zip(ENTRIES, b))
    for s, t, plus in ROWS.values():
        by_b.append(of_b[s] * x + of_b[t] * y + of_b[plus] * 2**16)
    for i, (s, t, plus) in enumerate(ROWS.values()):
        u, v, d = m[s], m[t], m[plus]
        twice = u * by_b[0] + v * by_b[1] + d * 2**32
        for name, by, exact, bound, law, of in (
            ("IMAGE", 16, u * x + v * y + d * 2**16, 2**16, image, a),
            ("COMPOSED", 32, twice, 2**16 * (size(x) + size(y)) + 2 * 2**32, composed, a + b),
            ("IN TURN", 32, twice, 2**16 * (size(u) + size(v)) + 2**32, in_turn, a + b),
        ):
            p = Exact()
            error = law(p, *of, x, y)[i] * 2**by - exact
            # What the error depends on: a rounded product may be of another.
            known: list[BoolRef] = []
            for q, it in reversed(p.known.items()):
                if any(q.eq(of) for of in subterms([error, *known])):
                    known += [it, *([p.fit[q]] if q in p.fit else [])]
            # What is held between has an error, which counts as often as its factor says.
            held = list(p.fit)
            if law is composed:
                known.append(share(held[i] * 2**16 - u * of_b["xx"] - v * of_b["yx"], x))
                known.append(share(held[2 + i] * 2**16 - u * of_b["xy"] - v * of_b["yy"], y))
            if law is in_turn:
                known.append(share(held[0] * 2**16 - by_b[0], u))
                known.append(share(held[1] * 2**16 - by_b[1], v))
            yield f"{name} {'xy'[i]}", z3.Implies(
                z3.And(known), z3.And(error <= bound, -error <= bound))


two = lambda x, y: z3.Concat(wrap(32, x), wrap(32, y))
all_fit = lambda *n: z3.And([fits(32, it) for it in n])
given = entries("a") + ", x: i32, y: i32"
for i, axis in enumerate("xy"):
    case(f"Matrix::transform, {axis}", given, "i32",
         f"{matrix('a')}.transform({FROM}).{i}.to_bits()",
         lambda p, *v, i=i: wrap(32, moved(p, *v)[i]))
    case(f"Matrix * Point, {axis}", given, "i32", f"({matrix('a')} * {SPOTS[0]}).{axis}.to_bits()",
         lambda p, *v, i=i: wrap(32, moved(p, *v)[i]))
case("Matrix::checked_transform", given, "?u64",
     f"{matrix('a')}.checked_transform({FROM}).map(|(x, y)| Point::new(x, y)).map(|it| {BOTH})",
     lambda p, *v: some(all_fit(*moved(p, *v)), two(*moved(p, *v))))
case("Matrix::checked_transform_point", given, "?u64", f"{matrix('a')}.checked_transform_point(Point::new("
     f"F26Dot6::from_bits(x), F26Dot6::from_bits(y))).map(|it| {BOTH})",
     lambda p, *v: some(all_fit(*moved(p, *v)), two(*moved(p, *v))))
given = entries("a") + ", " + entries("b") + ", i: u8"
case("Matrix * Matrix", given, "i32", f"{{ let it = {matrix('a')} * {matrix('b')}; {ENTRY} }}",
     lambda p, *v: wrap(32, entry(product(p, *v[:-1]), v[-1])))
case("Matrix *=", given, "i32", f"{{ let mut it = {matrix('a')}; it *= {matrix('b')}; {ENTRY} }}",
     lambda p, *v: wrap(32, entry(product(p, *v[:-1]), v[-1])))
case("Matrix::checked_mul", given, "?i32",
     f"{matrix('a')}.checked_mul({matrix('b')}).map(|it| {ENTRY})",
     lambda p, *v: (lambda it: some(all_fit(*it.values()), wrap(32, entry(it, v[-1]))))(
         product(p, *v[:-1])))

# The lemmas of `bounds` are of these.
for law, matrices in ((image, "a"), (composed, "ab"), (in_turn, "ab")):
    given = ", ".join(map(entries, matrices)) + ", x: i32, y: i32"
    call = f"{law.__name__}({', '.join(map(matrix, matrices))}, {SPOTS[0]})"
    for i, axis in enumerate("xy"):
        case(f"laws::{law.__name__}, {axis}", given, "i32", f"laws::{call}.{axis}.to_bits()",
             lambda p, *v, i=i, law=law: law(p, *v)[i])


# ---------------------------------------------------------------- scales
SCALE = "Scale::from_factor(Fixed::from_bits(s))"
pixels = lambda p, x, s: p.rounded(x, s)
relation("Scale::new, factor", "x: i32, y: u16", "?i32",
         "Scale::new(F26Dot6::from_bits(x), y).map(|it| it.factor().to_bits())",
         lambda p, x, y, result: checked_scaled(
             p, x, z3.BitVecVal(1 << 16, 32), z3.ZeroExt(16, y), result))
case("Scale::from_factor", "s: i32", "i32", f"{SCALE}.factor().to_bits()", lambda p, s: s)
relation("Scale::apply", "x: i16, s: i32", "i32", f"{SCALE}.apply(x).to_bits()",
         lambda p, x, s, result: z3.And(
             fits(32, pixels(p, x, s)), result == wrap(32, pixels(p, x, s))))
case("Scale::checked_apply_i32", "x: i32, s: i32", "?i32",
     f"{SCALE}.checked_apply_i32(x).map(F26Dot6::to_bits)",
     lambda p, x, s: checked(32, pixels(p, x, s)))
case("Scale::apply_point", "x: i16, y: i16, s: i32", "u64",
     f"{{ let it = {SCALE}.apply_point(Point::new(x, y)); {BOTH} }}",
     lambda p, x, y, s: two(pixels(p, x, s), pixels(p, y, s)))
case("Scale::checked_apply_point_i32", "x: i32, y: i32, s: i32", "?u64",
     f"{SCALE}.checked_apply_point_i32(Point::new(x, y)).map(|it| {BOTH})",
     lambda p, x, y, s: some(all_fit(pixels(p, x, s), pixels(p, y, s)),
                             two(pixels(p, x, s), pixels(p, y, s))))


def of_points(sign: str, calc: Rule) -> None:
    """"Operations of points work on each coordinate". A quotient is right if both halves are."""
    both = lambda p, x, y, s, t, it: z3.And(
        calc(p, x, s, z3.Extract(63, 32, it)), calc(p, y, t, z3.Extract(31, 0, it)))
    for end, body in (("", "let it = {} {} {};"), ("=", "let mut it = {}; it {}= {};")):
        rust = "{{ " + body + " {} }}"
        relation(f"Point {sign}{end}" + " Point" * (not end),
                 "x: i32, y: i32, s: i32, t: i32", "u64",
                 rust.format(SPOTS[0], sign, SPOTS[1], BOTH), both)
        if sign in "*/":
            relation(f"Point {sign}{end} T", "x: i32, y: i32, s: i32", "u64",
                     rust.format(SPOTS[0], sign, "Fixed::from_bits(s)", BOTH),
                     lambda p, x, y, s, it: both(p, x, y, s, s, it))


of_points("+", lambda p, x, s, it: it == wrap(32, S(x) + S(s)))
of_points("-", lambda p, x, s, it: it == wrap(32, S(x) - S(s)))
of_points("*", lambda p, x, s, it: it == wrap(32, near(p.times(x, s), 16)))
of_points("/", lambda p, x, s, it: scaled(p, x, z3.BitVecVal(1 << 16, 32), s, it))
case("-Point", "x: i32, y: i32", "u64", f"{{ let it = -{SPOTS[0]}; {BOTH} }}",
     lambda p, x, y: two(-S(x), -S(y)))
for name, calc in (("add", lambda x, y: S(x) + S(y)), ("sub", lambda x, y: S(x) - S(y))):
    case(f"Point::checked_{name}", "x: i32, y: i32, s: i32, t: i32", "?u64",
         f"{SPOTS[0]}.checked_{name}({SPOTS[1]}).map(|it| {BOTH})",
         lambda p, x, y, s, t, calc=calc: (lambda a, b: some(all_fit(a, b), two(a, b)))(
             calc(x, s), calc(y, t)))
# fmt: on
