"""Rows of fixed-point numbers: arithmetic, conversions, and sums of deltas."""

import z3
from z3 import BitVecRef, BoolRef

from rows.row import FORMATS, Rule, case, relation

from rows.rules import (
    B, Fold, Products, S, Text, U, absolute, big_endian, checked, checked_scaled, fits,
    fits_unsigned, near, saturate, scaled, some, together, up, whole, wrap,
)  # fmt: skip

# fmt: off
# ---------------------------------------------------------------- what all formats have


def of_two(T: str, w: int, op: str, sign: str, calc: Rule) -> None:
    """A sum or a difference: "exact, wraps", "exact, saturates", `None`."""
    i, n = f"i{w}", f"{T}::from_bits"
    two, call = f"x: {i}, y: {i}", f"{n}(x).{{}}_{op}({n}(y))"
    wraps = lambda p, x, y: wrap(w, calc(x, y))
    case(f"{T} {sign}", two, i, f"({n}(x) {sign} {n}(y)).to_bits()", wraps)
    case(f"{T} {sign}=", two, i, f"{{ let mut z = {n}(x); z {sign}= {n}(y); z.to_bits() }}", wraps)
    case(f"{T}::wrapping_{op}", two, i, call.format("wrapping") + ".to_bits()", wraps)
    case(f"{T}::saturating_{op}", two, i, call.format("saturating") + ".to_bits()",
         lambda p, x, y: saturate(w, calc(x, y)))
    case(f"{T}::checked_{op}", two, "?" + i, call.format("checked") + f".map({T}::to_bits)",
         lambda p, x, y: checked(w, calc(x, y)))


def both(T: str, w: int, name: str, checked_name: str, body: str, calc: Rule) -> None:
    """A function of one number that wraps, and one that is `None` if the result is out of range."""
    x, bits = f"{T}::from_bits(x)", f".map({T}::to_bits)"
    case(name, f"x: i{w}", f"i{w}", body.format(x), lambda p, x: wrap(w, calc(S(x))))
    if checked_name:
        case(f"{T}::{checked_name}", f"x: i{w}", f"?i{w}", f"{x}.{checked_name}(){bits}",
             lambda p, x: checked(w, calc(S(x))))


def of_bits(T: str, w: int) -> None:
    """What does not depend on the number of fraction bits."""
    of_two(T, w, "add", "+", lambda x, y: S(x) + S(y))
    of_two(T, w, "sub", "-", lambda x, y: S(x) - S(y))
    both(T, w, f"-{T}", "checked_neg", "(-{}).to_bits()", lambda n: -n)
    both(T, w, f"{T}::abs", "checked_abs", "{}.abs().to_bits()", absolute)
    x, y = f"{T}::from_bits(x)", f"{T}::from_bits(y)"
    case(f"{T}::to_be_bytes", f"x: i{w}", f"[{w // 8}]", f"{x}.to_be_bytes()",
         lambda p, x: big_endian(x, w // 8))
    case(f"{T}::from_be_bytes", f"x: i{w}", f"i{w}",
         f"{T}::from_be_bytes(x.to_be_bytes()).to_bits()", lambda p, x: x)
    case(f"{T} < {T}", f"x: i{w}, y: i{w}", "bool", f"{x} < {y}", lambda p, x, y: B(S(x) < S(y)))
    case(f"{T} == {T}", f"x: i{w}, y: i{w}", "bool", f"{x} == {y}", lambda p, x, y: B(S(x) == S(y)))


def of_value(T: str, w: int, f: int) -> None:
    """Rounding to an integer."""
    both(T, w, f"{T}::floor", "", "{}.floor().to_bits()", lambda n: whole(n, f))
    both(T, w, f"{T}::ceil", "checked_ceil", "{}.ceil().to_bits()", lambda n: -whole(-n, f))
    both(T, w, f"{T}::fract", "", "{}.fract().to_bits()", lambda n: n - whole(n, f))
    both(T, w, f"{T}::round", "checked_round", "{}.round().to_bits()",
         lambda n: up(n, f) * (1 << f))


for T, w, f in FORMATS:
    of_bits(T, w)
    of_value(T, w, f)

# ---------------------------------------------------------------- products and quotients


def products(T: str, f: int) -> None:
    n, two, bits = f"{T}::from_bits", "x: i32, y: i32", f".map({T}::to_bits)"
    one = z3.BitVecVal(1 << f, 32)
    product = lambda p, x, y: wrap(32, near(p.times(x, y), f))
    quotient = lambda p, x, y, result: scaled(p, x, one, y, result)
    rules: list[tuple[str, Rule, bool]] = [("*", product, False), ("/", quotient, True)]
    for sign, rule, is_relation in rules:
        case(f"{T} {sign}", two, "i32", f"({n}(x) {sign} {n}(y)).to_bits()", rule, is_relation)
        case(f"{T} {sign}=", two, "i32", f"{{ let mut z = {n}(x); z {sign}= {n}(y); z.to_bits() }}",
             rule, is_relation)
    case(f"{T}::checked_mul", two, "?i32", f"{n}(x).checked_mul({n}(y)){bits}",
         lambda p, x, y: checked(32, near(p.times(x, y), f)))
    relation(f"{T}::checked_div", two, "?i32", f"{n}(x).checked_div({n}(y)){bits}",
             lambda p, x, y, result: checked_scaled(p, x, one, y, result))


products("Fixed", 16)
products("F26Dot6", 6)
A, C = "Fixed::from_bits(a)", "Fixed::from_bits(c)"
relation("Fixed::mul_div", "x: i32, a: i32, c: i32", "i32",
         f"Fixed::from_bits(x).mul_div({A}, {C}).to_bits()", scaled)
relation("Fixed::checked_mul_div", "x: i32, a: i32, c: i32", "?i32",
         f"Fixed::from_bits(x).checked_mul_div({A}, {C}).map(Fixed::to_bits)", checked_scaled)

# ---------------------------------------------------------------- conversions


def narrowing(
    T: str, name: str, k: int, to: int, out: int, of: str = "", only: bool = False
) -> None:
    """To `k` fewer fraction bits, "half up. Wraps" to `to` bits, in a type of `out` bits."""
    w = {it: width for it, width, _ in FORMATS}[T]
    x, bits, map_ = f"{T}::from_bits(x)", ".to_bits()" * bool(of), f".map({of}::to_bits)" * bool(of)
    case(f"{T}::{name}", f"x: i{w}", f"i{out}", f"{x}.{name}(){bits}",
         lambda p, x: wrap(to, up(S(x), k), out))
    if not only:
        case(f"{T}::checked_{name}", f"x: i{w}", f"?i{out}", f"{x}.checked_{name}(){map_}",
             lambda p, x: some(fits(to, up(S(x), k)), wrap(out, up(S(x), k))))


narrowing("Fixed", "to_i32", 16, 16, 32)
narrowing("Fixed", "to_f26dot6", 10, 22, 32, "F26Dot6")
narrowing("Fixed", "to_f2dot14", 2, 16, 16, "F2Dot14")
narrowing("F26Dot6", "to_i32", 6, 26, 32)
narrowing("F2Dot30", "to_fixed", 14, 32, 32, "Fixed", True)
narrowing("F2Dot30", "to_f2dot14", 16, 16, 16, "F2Dot14")
narrowing("F48Dot16", "to_i64", 16, 48, 64)
narrowing("F48Dot16", "to_i32", 16, 32, 32)
narrowing("F48Dot16", "to_fixed", 0, 32, 32, "Fixed")


def widening(name: str, w: int, body: str, k: int, out: int, checked_body: str = "") -> None:
    """To `k` more fraction bits: "exact. Wraps"."""
    case(name, f"x: i{w}", f"i{out}", f"{body}.to_bits()", lambda p, x: wrap(out, S(x) * (1 << k)))
    if checked_body:
        T, method = name.split("::")
        case(f"{T}::checked_{method}", f"x: i{w}", f"?i{out}", f"{checked_body}.map(|it| it.to_bits())",
             lambda p, x: checked(out, S(x) * (1 << k)))


X, Q = "Fixed::from_bits(x)", "F2Dot14::from_bits(x)"
widening("Fixed::from_i32", 32, "Fixed::from_i32(x)", 16, 32, "Fixed::checked_from_i32(x)")
widening("Fixed: From<i32>", 32, "Fixed::from(x)", 16, 32)
widening("F26Dot6::from_i32", 32, "F26Dot6::from_i32(x)", 6, 32, "F26Dot6::checked_from_i32(x)")
widening("F48Dot16::from_i64", 64, "F48Dot16::from_i64(x)", 16, 64, "F48Dot16::checked_from_i64(x)")
widening("F48Dot16::from_i32", 32, "F48Dot16::from_i32(x)", 16, 64)
widening("Fixed::to_f2dot30", 32, f"{X}.to_f2dot30()", 14, 32, f"{X}.checked_to_f2dot30()")
widening("F2Dot14::to_f2dot30", 16, f"{Q}.to_f2dot30()", 16, 32)
widening("F2Dot30: From<F2Dot14>", 16, f"F2Dot30::from({Q})", 16, 32)
widening("F2Dot14::to_fixed", 16, f"{Q}.to_fixed()", 2, 32)
widening("Fixed: From<F2Dot14>", 16, f"Fixed::from({Q})", 2, 32)
widening("Fixed: From<FWord>", 16, "Fixed::from(FWord::new(x))", 16, 32)
widening("Fixed::to_f48dot16", 32, f"{X}.to_f48dot16()", 0, 64)
widening("FWord::to_fixed", 16, "FWord::new(x).to_fixed()", 16, 32)
case("UfWord::to_fixed", "x: u16", "i32", "UfWord::new(x).to_fixed().to_bits()",
     lambda p, x: wrap(32, U(x) << 16))
case("UfWord::checked_to_fixed", "x: u16", "?i32",
     "UfWord::new(x).checked_to_fixed().map(Fixed::to_bits)", lambda p, x: checked(32, U(x) << 16))

# ---------------------------------------------------------------- deltas
case("Fixed::mul_i32", "x: i32, y: i32", "i64", f"{X}.mul_i32(y).to_bits()",
     lambda p, x, y: wrap(64, p.times(x, y)))


def deltas(T: str, i: str, make: str, get: str) -> None:
    """A delta in 48.16 is added to 65536 times the value, and "rounded once, half up"."""
    w, signed, value = int(i[1:]), i[0] == "i", f"{T}::{make}(x)"
    number, fit = (S, fits) if signed else (U, fits_unsigned)
    total = lambda x, y: number(x) * 65536 + S(y)
    delta, map_ = "F48Dot16::from_bits(y)", f".map({T}::{get})"
    rounded = lambda n: some(fit(w, up(n, 16)), wrap(w, up(n, 16)))
    case(f"{T}::apply_delta", f"x: {i}, y: i64", "i128", f"{value}.apply_delta({delta})",
         lambda p, x, y: wrap(128, total(x, y)))
    case(f"{T}::checked_add_delta", f"x: {i}, y: i64", f"?{i}",
         f"{value}.checked_add_delta({delta}){map_}", lambda p, x, y: rounded(total(x, y)))


deltas("Fixed", "i32", "from_bits", "to_bits")
deltas("F2Dot14", "i16", "from_bits", "to_bits")
deltas("FWord", "i16", "new", "to_i16")
deltas("UfWord", "u16", "new", "to_u16")
# Of any sum: it is a number of 128 bits, and has one field.
SUM, NUMBER = "core::mem::transmute::<i128, DeltaSum>({})", "core::mem::transmute::<DeltaSum, i128>({})"
NEXT = f"unsafe {{{{ let mut sum = {SUM.format('n')}; {{}}; {NUMBER.format('sum')} }}}}"
case("DeltaSum::new", "x: i32, y: i32", "i128",
     "unsafe { let mut sum = DeltaSum::new(); sum.add_product(Fixed::from_bits(x), y);"
     f" {NUMBER.format('sum')} }}", lambda p, x, y: wrap(128, p.times(x, y)))
case("DeltaSum::add_product", "n: i128, x: i32, y: i32", "i128",
     NEXT.format("sum.add_product(Fixed::from_bits(x), y)"),
     lambda p, n, x, y: wrap(128, S(n) + p.times(x, y)))
case("DeltaSum +=", "n: i128, m: i128", "i128", NEXT.format(f"sum += {SUM.format('m')}"),
     lambda p, n, m: wrap(128, S(n) + S(m)))
case("DeltaSum += F48Dot16", "n: i128, x: i64", "i128",
     NEXT.format("sum += F48Dot16::from_bits(x)"), lambda p, n, x: wrap(128, S(n) + S(x)))
case("DeltaSum::finish", "n: i128", "i64",
     f"unsafe {{ {SUM.format('n')} }}.finish().to_bits()", lambda p, n: wrap(64, S(n)))
case("DeltaSum::checked_finish", "n: i128", "?i64",
     f"unsafe {{ {SUM.format('n')} }}.checked_finish().map(F48Dot16::to_bits)",
     lambda p, n: checked(64, S(n)))
def exact_sum(p: Products, terms: Text) -> BitVecRef:
    """ "The exact sum" of the products of terms (scalar, delta), of four bytes each. It is at most
    k 2^62 and at least -k 2^62 of k terms, and so exact in 128 bits: k is less than 2^60."""
    def step(k: BitVecRef, before: BitVecRef) -> list[tuple[BitVecRef, BoolRef]]:
        words = (terms.held(8 * k + i, 4) for i in (0, 4))
        product = p.arithmetic.multiply(*(z3.SignExt(32, it) for it in words))
        return [(before + z3.SignExt(64, product), z3.BoolVal(True))]

    most = lambda k: z3.ZeroExt(64, k) << 62
    sums = Fold(p, "sum", z3.BitVecVal(0, 128), step, lambda k: (-most(k), most(k)))
    return sums.of(terms.count)


case("delta_sum", "terms: terms", "i64", "delta_sum(terms).to_bits()",
     lambda p, terms: wrap(64, exact_sum(p, terms)))
case("checked_delta_sum", "terms: terms", "?i64",
     "checked_delta_sum(terms).map(F48Dot16::to_bits)",
     lambda p, terms: checked(64, S(exact_sum(p, terms))))
# Of `Some`, the lower 100 bits, which have to be all, below a bit that says `Some`.
case("vary", "x: i16, terms: terms", "i128",
     "match vary(FWord::new(x), terms) { None => 0, Some(it) if it >> 99 == it >> 127 =>"
     " it & ((1 << 100) - 1) | 1 << 126, Some(_) => 1 }",
     lambda p, x, terms: z3.If(fits(64, S(exact_sum(p, terms))), z3.Concat(z3.BitVecVal(
         1 << 26, 28), wrap(100, S(x) * 65536 + S(exact_sum(p, terms)))), z3.BitVecVal(0, 128)))
# fmt: on
