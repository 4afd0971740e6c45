"""What the functions have to do, as docs/PROMISES.md and OpenType say it. Whoever trusts the proof
has to agree with this folder.

A number is a vector of W bits, which is read as a signed integer. A division by 2^k is a shift: `>>`
rounds down. No sum or product of a rule reaches 2^(W-1), by the bounds of what it computes with
(`Bounds`): so this is arithmetic of integers. Sums of deltas, and indexes, are modulo 2^64 or 2^128."""

import operator
from collections.abc import Callable, Iterable, Iterator, Sequence
from itertools import product
from typing import Any, NamedTuple

import z3
from z3 import BitVecRef, BoolRef

from arithmetic import Arithmetic
from integers import subterms
from values import Unsupported, is_constant

W = 90


def use_width(width: int) -> None:
    global W
    W = width


def S(bits: BitVecRef) -> BitVecRef:
    """The signed number of a vector, in two's complement."""
    return z3.SignExt(W - bits.size(), bits)


def U(bits: BitVecRef) -> BitVecRef:
    """The unsigned number of a vector."""
    return z3.ZeroExt(W - bits.size(), bits)


def N(number: int) -> BitVecRef:
    return z3.BitVecVal(number, W)


def B(condition: BoolRef) -> BitVecRef:
    """A `bool` of Rust."""
    return z3.If(condition, z3.BitVecVal(1, 1), z3.BitVecVal(0, 1))


class Bounds:
    """Which integers each number of W bits in a rule is between. It has none if a sum, a difference
    or a product may not be that of the integers."""

    def __init__(self, arithmetic: Arithmetic) -> None:
        self.arithmetic, self.known = arithmetic, dict[int, tuple[int, int]]()

    def of(self, it: BitVecRef) -> tuple[int, int]:
        if it.get_id() not in self.known:
            low, high = self.found(it, it.decl().kind(), it.children())
            if low < -(1 << it.size() - 1) or high >= 1 << it.size() - 1:
                raise Unsupported(f"{it.decl()} in a rule, which may overflow")
            self.known[it.get_id()] = low, high
        return self.known[it.get_id()]

    def found(self, it: BitVecRef, kind: int, parts: list[BitVecRef]) -> tuple[int, int]:
        if is_constant(it):
            return (int(it.as_signed_long()),) * 2
        if kind == z3.Z3_OP_SIGN_EXT:
            return self.of(parts[0])
        if kind == z3.Z3_OP_ZERO_EXT and parts[0].size() < it.size():
            return 0, (1 << parts[0].size()) - 1
        if kind == z3.Z3_OP_ITE:
            both = [self.of(part) for part in parts[1:]]
            return min(low for low, _ in both), max(high for _, high in both)
        if it.decl().name() == f"product{it.size()}":
            most = 1 << sum(self.arithmetic.signed_width(part) - 1 for part in parts)
            return max(-most, -(1 << it.size() - 1)), min(most, (1 << it.size() - 1) - 1)
        if it.size() == W and kind in OPERATIONS and (kind in LINEAR or is_constant(parts[-1])):
            ends = [OPERATIONS[kind](*given) for given in product(*map(self.of, parts))]
            return min(ends), max(ends)
        if it.size() == W and kind not in PARTS:
            raise Unsupported(f"{it.decl()} in a rule")
        return -(1 << it.size() - 1), (1 << it.size() - 1) - 1


# What computes with numbers of W bits, each monotonic in each operand, and what takes bits from
# elsewhere.
LINEAR = (z3.Z3_OP_BADD, z3.Z3_OP_BSUB, z3.Z3_OP_BNEG, z3.Z3_OP_BMUL)
OPERATIONS: dict[int, Callable[..., int]] = {
    z3.Z3_OP_BADD: operator.add, z3.Z3_OP_BSUB: operator.sub, z3.Z3_OP_BNEG: operator.neg,
    z3.Z3_OP_BMUL: operator.mul, z3.Z3_OP_BSHL: operator.lshift, z3.Z3_OP_BASHR: operator.rshift,
}  # fmt: skip
PARTS = (z3.Z3_OP_CONCAT, z3.Z3_OP_EXTRACT, z3.Z3_OP_UNINTERPRETED, z3.Z3_OP_BAND)


def check_widths(terms: Iterable[BitVecRef | BoolRef], arithmetic: Arithmetic) -> None:
    """Raises `Unsupported` unless each sum, difference and product of W bits is of the integers."""
    bounds = Bounds(arithmetic)
    for it in subterms(terms):
        if z3.is_bv(it) and it.size() == W:
            bounds.of(it)


# ---------------------------------------------------------------- ranges


def fits(bits: int, n: BitVecRef) -> BoolRef:
    """-2^(bits-1) <= n < 2^(bits-1): n + 2^(bits-1), unsigned, is less than 2^bits."""
    return z3.ULT(n + N(1 << bits - 1), N(1 << bits))


def fits_unsigned(bits: int, n: BitVecRef) -> BoolRef:
    return z3.And(N(0) <= n, n < N(1 << bits))


def wrap(bits: int, n: BitVecRef, width: int = 0) -> BitVecRef:
    """ "Wraps" means that the result is reduced to `bits` in two's complement. `width` is of the
    type that holds it."""
    return z3.SignExt(max(width - bits, 0), z3.Extract(bits - 1, 0, n))


def saturate(bits: int, n: BitVecRef) -> BitVecRef:
    """The nearest number that fits."""
    low, high = N(-(1 << bits - 1)), N((1 << bits - 1) - 1)
    return wrap(bits, z3.If(n < low, low, z3.If(n > high, high, n)))


def low(n: BitVecRef, high: int) -> BitVecRef:
    """The lesser of two numbers: "`new` saturates"."""
    return z3.If(n > N(high), N(high), n)


def some(fit: BoolRef, value: BitVecRef) -> BitVecRef:
    """An `Option` as the wrappers return it: above the value a bit that says `Some`; or 0."""
    width = value.size()
    return z3.If(fit, z3.Concat(z3.BitVecVal(1, width), value), z3.BitVecVal(0, 2 * width))


def checked(bits: int, n: BitVecRef) -> BitVecRef:
    """ "`checked_*`: `None` if the result is out of range"."""
    return some(fits(bits, n), wrap(bits, n))


# ---------------------------------------------------------------- rounding


def absolute(n: BitVecRef) -> BitVecRef:
    return z3.If(n < 0, -n, n)


def whole(n: BitVecRef, k: int) -> BitVecRef:
    """ "`floor` is the greatest integer that is not above the value", in units of 2^-k."""
    return (n >> k) * (1 << k)


def up(n: BitVecRef, k: int) -> BitVecRef:
    """n / 2^k, rounded "half up": floor(n / 2^k + 1/2)."""
    return (2 * n + (1 << k)) >> k + 1


def near(n: BitVecRef, k: int) -> BitVecRef:
    """n / 2^k, rounded "half away from zero". By the lemma NEAR it has the sign of n, and its
    magnitude is floor(|n| / 2^k + 1/2)."""
    less = n >> W - 1  # -1 if n is negative, and else 0
    return (n + (1 << k - 1) + less) >> k


def lemmas() -> Iterator[tuple[str, BoolRef]]:
    """That `near` is what it says, for the numbers of fraction bits of products."""
    n = z3.Int("n")
    size = z3.If(n < 0, -n, n)
    for k in (6, 16):
        rounded = (2 * size + (1 << k)) / (1 << k + 1)
        shifted = (n + (1 << k - 1) - z3.If(n < 0, 1, 0)) / (1 << k)
        is_near = z3.And(2 * (shifted * 2**k - n) <= 2**k, 2 * (n - shifted * 2**k) <= 2**k)
        yield f"NEAR of {k} bits", z3.And(shifted == z3.If(n < 0, -rounded, rounded), is_near)
    wide = z3.BitVec("n", W)
    yield "FITS", z3.Implies(fits(32, wide), S(wrap(32, wide)) == wide)


class Products:
    """Products and quotients of unknown numbers."""

    def __init__(self, arithmetic: Arithmetic) -> None:
        self.arithmetic = arithmetic
        # The folds that a rule asks for, with how many terms, and the numbers that say which.
        self.asked: dict[tuple[Any, ...], "Asked"] = {}
        # What is known of their numbers.
        self.facts: list[BoolRef] = []

    def every(self) -> list[BoolRef]:
        """Returns the facts of products, of quotients and of folds."""
        return [*self.arithmetic.facts, *self.facts]

    def times(self, x: BitVecRef, y: BitVecRef) -> BitVecRef:
        """The product of two signed numbers of 32 bits, which fits in 64."""
        wide = (z3.SignExt(64 - it.size(), it) for it in (x, y))
        return S(self.arithmetic.multiply(*wide))

    def rounded(self, x: BitVecRef, y: BitVecRef) -> BitVecRef:
        """The product of numbers with 16 fraction bits in one of them, rounded."""
        return near(self.times(x, y), 16)

    def number(self, x: BitVecRef) -> BitVecRef:
        return S(x)

    def result(self, n: BitVecRef) -> BitVecRef:
        """A number as 32 bits hold it."""
        return wrap(32, n)

    def quotients(
        self, x: BitVecRef, a: BitVecRef, c: BitVecRef
    ) -> list[tuple[BitVecRef, BoolRef]]:
        """Each number q with a condition under which it is x a / c, rounded half away from zero:
        |q| is the nearest to |x a| / |c|, and of two the greater; q is negative if an odd number
        of the three are. By UNIQUE there is one such q. `c` is not 0."""
        arithmetic = self.arithmetic
        m, n, d = (z3.ZeroExt(64 - 32, arithmetic.magnitude(it)) for it in (x, a, c))
        product = arithmetic.multiply(m, z3.simplify(n) if z3.is_bv_value(a) else n)
        negative = z3.Xor(z3.Xor(x < 0, a < 0), c < 0)
        return [(z3.If(negative, -q, q), it) for q, it in self.nearest(product, d)]

    def nearest(self, n: BitVecRef, d: BitVecRef) -> list[tuple[BitVecRef, BoolRef]]:
        """Each number q with a condition under which it is the nearest to n / d, unsigned, and of
        two the greater. `d` is not 0."""
        if self.arithmetic.exact:
            return [(z3.UDiv(2 * U(n) + U(d), 2 * U(d)), z3.BoolVal(True))]
        found = []
        for q, divisor in self.arithmetic.quotients:
            # A fact of quotients says that this is their product as integers.
            multiple = U(self.arithmetic.multiply(q, divisor))
            over, under = multiple - U(n), U(n) - multiple
            found.append((U(q), z3.And(U(divisor) == U(d), 2 * over <= U(d), 2 * under < U(d))))
        return found


class Exact(Products):
    """Of integers: by NEAR, a rounded product is any within a half of the product, and by FITS, a
    number that fits in 32 bits is as they hold it."""

    def __init__(self) -> None:
        self.known: dict[z3.ArithRef, BoolRef] = {}
        self.fit: dict[z3.ArithRef, BoolRef] = {}

    def rounded(self, x: z3.ArithRef, y: z3.ArithRef) -> z3.ArithRef:
        q = z3.Int(f"q{len(self.known)}")
        twice = 2 * (q * 2**16 - x * y)
        self.known[q] = z3.And(twice <= 2**16, -twice <= 2**16)
        return q

    def number(self, x: z3.ArithRef) -> z3.ArithRef:
        return x

    def result(self, n: z3.ArithRef) -> z3.ArithRef:
        held = z3.Int(f"q{len(self.known)}")
        # That n is at least -2^31, and less than 2^31.
        self.fit[held] = z3.Bool(f"fits{held}")
        self.known[held] = z3.Implies(self.fit[held], held == n)
        return held


def scaled(p: Products, x: BitVecRef, a: BitVecRef, c: BitVecRef, result: BitVecRef) -> BoolRef:
    """ "Once, half away from zero. Wraps. `x.mul_div(a, 0)` is minus the largest value if exactly
    one of `x` and `a` is negative, and else the largest value"."""
    largest = (1 << 31) - 1
    of_zero = z3.If(z3.Xor(x < 0, a < 0), N(-largest), N(largest))
    rounded = [z3.And(c != 0, it, result == wrap(32, q)) for q, it in p.quotients(x, a, c)]
    return z3.Or(z3.And(c == 0, result == wrap(32, of_zero)), *rounded)


def checked_scaled(
    p: Products, x: BitVecRef, a: BitVecRef, c: BitVecRef, result: BitVecRef
) -> BoolRef:
    """ "The divisor is zero, or the rounded result is out of range": `None`."""
    rounded = [z3.And(c != 0, it, result == checked(32, q)) for q, it in p.quotients(x, a, c)]
    return z3.Or(z3.And(c == 0, result == 0), *rounded)


# ---------------------------------------------------------------- bytes and sums


def stored(n: BitVecRef, size: int) -> list[BitVecRef]:
    """ "An integer scalar is stored big-endian, in two's complement"."""
    return [z3.Extract(8 * i + 7, 8 * i, n) for i in reversed(range(size))]


def big_endian(n: BitVecRef, size: int) -> BitVecRef:
    """The stored bytes, as the wrappers return them: the first byte is the lowest."""
    return together(stored(n, size)[::-1])


def together(stored_bytes: Sequence[BitVecRef]) -> BitVecRef:
    """The unsigned number that bytes store."""
    return z3.Concat(*stored_bytes) if len(stored_bytes) > 1 else stored_bytes[0]


class Text(NamedTuple):
    """Bytes that a function gets, by their index, how many elements they are, and whether the first
    byte of a number of the processor is the highest."""

    length: BitVecRef
    byte: Callable[[BitVecRef], BitVecRef]
    count: BitVecRef
    is_big: bool = False

    def bytes(self, start: BitVecRef | int, count: int) -> list[BitVecRef]:
        first = z3.BitVecVal(start, 64) if isinstance(start, int) else start
        return [self.byte(z3.simplify(first + i)) for i in range(count)]

    def held(self, start: BitVecRef, count: int) -> BitVecRef:
        """The number of so many bytes, as the processor holds it."""
        return together(self.bytes(start, count)[:: 1 if self.is_big else -1])

    def has(self, start: BitVecRef, count: int) -> BoolRef:
        """Whether so many bytes are there."""
        return U(start) + count <= U(self.length)


class Fold:
    """A number F(k) of k terms, and of numbers that say which terms: F(0) is `first`. If F(k) is
    `last`, each later one is. Else `step` gives numbers, each with a condition under which it is
    F(k + 1), of k, F(k) and the numbers. If it `stops`, a loop has to stop at `last`. `within`
    gives numbers that F(k), signed, is between; so has each loop that computes it to show."""

    def __init__(
        self,
        products: Products,
        name: str,
        first: BitVecRef,
        step: Callable[..., list[tuple[BitVecRef, BoolRef]]],
        within: Callable[[BitVecRef], tuple[BitVecRef, BitVecRef]] | None = None,
        last: BitVecRef | None = None,
        stops: bool = False,
    ) -> None:
        self.products, self.name, self.first, self.step = products, name, first, step
        self.within, self.last, self.stops = within, last, stops

    def of(self, count: BitVecRef, *others: BitVecRef) -> BitVecRef:
        """Returns F(count)."""
        arithmetic, zero = self.products.arithmetic, z3.BitVecVal(0, 64)
        if not arithmetic.exact:
            asked = Asked(self, count, others)
            key = self.name, *(it.get_id() for it in (count, *others))
            if key not in self.products.asked:
                self.products.asked[key] = asked
                self.products.facts.append(asked.at(zero) == self.first)
            return asked.at(count)
        value = self.first
        for k in range(z3.simplify(count).as_long()):
            if self.last is not None and value.eq(self.last):
                break
            some = self.step(zero + k, value, *others)
            value = next(z3.simplify(it) for it, fit in some if z3.is_true(z3.simplify(fit)))
        return value


class Asked(NamedTuple):
    """A fold of so many terms, and the numbers that say which."""

    fold: Fold
    count: BitVecRef
    others: tuple[BitVecRef, ...]

    def at(self, k: BitVecRef) -> BitVecRef:
        """Returns F(k)."""
        sorts = [z3.BitVecSort(64)] * (len(self.others) + 1)
        return z3.Function(self.fold.name, *sorts, self.fold.first.sort())(*self.others, k)


# ---------------------------------------------------------------- the scalar of a region
ONE = z3.BitVecVal(1 << 16, 32)


def along(
    p: Products, scalar: BitVecRef, start: BitVecRef, peak: BitVecRef, end: BitVecRef, at: BitVecRef
) -> list[tuple[BitVecRef, BoolRef]]:
    """A scalar times that of a region along an axis: 1 at the peak and on an axis that the region
    ignores, because its coordinates are out of order or on both sides of zero, or the peak is zero.
    0 outside of the region and at its ends. Else the part of the way to the peak. Rounded once."""

    def distance(a: BitVecRef, b: BitVecRef) -> BitVecRef:
        """In 16 bits, which hold that of two numbers in order."""
        return z3.ZeroExt(16, b - a)

    is_ignored = z3.Or(start > peak, peak > end, z3.And(start < 0, end > 0, peak != 0), peak == 0)
    is_one, is_zero = z3.Or(is_ignored, at == peak), z3.Or(at <= start, at >= end)
    part = z3.If(at < peak, distance(start, at), distance(at, end))
    way = z3.If(at < peak, distance(start, peak), distance(peak, end))
    between = z3.And(z3.Not(is_one), z3.Not(is_zero))
    found = [(scalar, is_one), (z3.BitVecVal(0, 32), z3.And(z3.Not(is_one), is_zero))]
    # Of a scalar that is at most 1, the product has 32 bits.
    for q, is_nearest in p.nearest(p.arithmetic.multiply(scalar, part), way):
        found.append((wrap(32, q), z3.And(between, is_nearest)))
    return found


def region_scalar(
    p: Products, text: Text, start: BitVecRef, axes: BitVecRef,
    at: Callable[[BitVecRef], BitVecRef], stops: bool = False,
) -> BitVecRef:  # fmt: skip
    """ "The product of the scalars along all axes", rounded after each. Of each axis the region has
    a start, a peak and an end, and `at` gives the coordinate. What is 0 stays 0."""

    def step(k: BitVecRef, before: BitVecRef, first: BitVecRef) -> list[tuple[BitVecRef, BoolRef]]:
        start, peak, end = (together(text.bytes(first + 6 * k + i, 2)) for i in (0, 2, 4))
        return along(p, before, start, peak, end, at(k))

    bounds = z3.BitVecVal(0, 32), ONE
    return Fold(p, "scalar", ONE, step, lambda k: bounds, bounds[0], stops).of(axes, start)


# ---------------------------------------------------------------- tags


def first_fault(text: Sequence[BitVecRef], after_space: bool) -> BitVecRef:
    """ "It fails if the first byte is a space, if a byte is not from 0x20 to 0x7E, or if a byte
    that is not a space follows a space": the answer at the first such byte, or 0. An answer has
    its kind in the upper four bits, then the byte, then the index."""
    answer = z3.BitVecVal(0, 64)
    for index in reversed(range(len(text))):
        it = text[index]
        invalid = z3.BitVecVal(2 << 60 | index, 64) | z3.ZeroExt(56, it) << 48
        late = z3.BitVecVal(3 << 60 | index, 64) if after_space else invalid
        printable = z3.And(U(it) >= 0x20, U(it) <= 0x7E)
        spaced = z3.Or([before == 0x20 for before in text[:index]])
        unfit = z3.Or(z3.Not(printable), it == 0x20) if index == 0 else z3.Not(printable)
        answer = z3.If(unfit, invalid, z3.If(z3.And(spaced, it != 0x20), late, answer))
    return answer


def validated(p: Products, *text: BitVecRef) -> BitVecRef:
    """Of four spaces, as OpenType's tag without a name, it is the length 0 that is invalid."""
    spaces = z3.And([it == 0x20 for it in text])
    return z3.If(spaces, z3.BitVecVal(1 << 60, 64), first_fault(text, True))


def checked_tag(p: Products, text: Text) -> BitVecRef:
    """ "`Tag::new_checked` takes one to four bytes, and adds spaces"."""
    answer = z3.BitVecVal(1 << 60, 64) | z3.Extract(63, 0, low(U(text.length), (1 << 60) - 1))
    for count in range(1, 5):
        given = text.bytes(0, count)
        padded = z3.Concat([*given, *[z3.BitVecVal(0x20, 8)] * (4 - count)])
        fault = first_fault(given, False)
        here = z3.If(fault == 0, z3.ZeroExt(32, padded), fault)
        answer = z3.If(text.length == count, here, answer)
    return answer
