"""What a decimal is, and the arithmetic by which the nearest value of a text is found."""

import re
from collections.abc import Iterator
from fractions import Fraction

import z3
from z3 import ArithRef, BoolRef

# ---------------------------------------------------------------- what a decimal is

# A text is `n` bytes, of which `text` is each, by its index.
n, text = z3.Int("n"), z3.Function("text", z3.IntSort(), z3.IntSort())
# The digits of the whole are from the index s on, after the sign, up to e, where the text ends or
# no digit is; those of the fraction are from e + 1 up to x. Each text has such indexes.
s, e, x = z3.Ints("s e x")
# The number of the digits from s up to an index; the fraction 0.ddd of the digits from an index up
# to another.
whole = z3.Function("whole", z3.IntSort(), z3.IntSort())
fraction = z3.Function("fraction", z3.IntSort(), z3.IntSort(), z3.RealSort())

IS_DECIMAL = z3.And(s < e, z3.Or(e == n, z3.And(text(e) == ord("."), e + 1 < n, x == n)))
FRACTION = z3.If(e == n, 0, fraction(e + 1, n))
VALUE = z3.ToReal(whole(e)) + FRACTION


def is_digit(at: ArithRef) -> BoolRef:
    return z3.And(ord("0") <= text(at), text(at) <= ord("9"))


def run(start: ArithRef, end: ArithRef) -> BoolRef:
    """The digits from an index on end at `end`."""
    ends = z3.Or(end == n, z3.Not(is_digit(end)))
    return z3.Implies(start <= n, z3.And(start <= end, end <= n, ends))


def next_whole(at: ArithRef) -> BoolRef:
    return whole(at + 1) == 10 * whole(at) + text(at) - ord("0")


def next_place(at: ArithRef, end: ArithRef) -> BoolRef:
    return 10 * fraction(at, end) == z3.ToReal(text(at) - ord("0")) + fraction(at + 1, end)


def is_nearest(m: ArithRef, value: ArithRef, f: int) -> BoolRef:
    """m / 2^f is the nearest to a value that is not negative, and of two the greater."""
    return z3.And(2 * m - 1 <= 2 * 2**f * value, 2 * 2**f * value < 2 * m + 1)


def is_floor(h: ArithRef, value: ArithRef) -> BoolRef:
    return z3.And(z3.ToReal(h) <= value, value < z3.ToReal(h + 1))


def expected(data: bytes, f: int, low: int, high: int) -> int:
    """The same of a text that is known, as the wrappers return it."""
    if not re.fullmatch(rb"-?[0-9]+(\.[0-9]+)?", data):
        return 1 << 64
    m = int(abs(Fraction(data.decode())) * 2**f + Fraction(1, 2))
    b = -m if data[:1] == b"-" else m
    return b % 2**64 if low <= b <= high else 2 << 64


# ---------------------------------------------------------------- what the proof uses of it

# Half units of the fraction, rounded down, are h. Of the first f + 1 places, which are kept, digits
# are from the index y on, and of the later ones up to z. Any index is `at`.
h, y, z, at = z3.Ints("h y z at")


def lemmas() -> Iterator[tuple[str, BoolRef]]:
    d, r, p, m = z3.Ints("d r p m")
    a, b, c = z3.Reals("a b c")
    # By induction from the last digit, a fraction of digits is less than 1.
    digit = z3.And(0 <= d, d <= 9, 0 <= b, b < 1, 10 * a == z3.ToReal(d) + b)
    yield "BOUND", z3.Implies(digit, z3.And(0 <= a, a < 1))
    for f in range(6, 31):
        k = f + 1
        # The first k places are an integer v, and the later ones a fraction of one more.
        places = [next_place(p + i, end) for i in range(k) for end in (p + k, n)]
        v = z3.ToReal(z3.Sum([(text(p + i) - ord("0")) * 10 ** (f - i) for i in range(k)]))
        first, all_ = (10**k * fraction(p, end) for end in (p + k, n))
        split = z3.And(first == v, all_ == v + fraction(p + k, n))
        yield f"SPLIT {k}", z3.Implies(z3.And(*places, fraction(p + k, p + k) == 0), split)
        # So later places, of a fraction c of one more, do not count. v is 5^k h and some r.
        v = z3.ToReal(r + h * 5**k)
        with_late = z3.And(0 <= c, c < 1, is_floor(h, 2**k * (v + c) / 10**k))
        yield f"LATE {k}", z3.Implies(with_late, is_floor(h, 2**k * v / 10**k))
        # Half units, rounded down, have the nearest number of units.
        both = z3.And(is_floor(h, 2**k * FRACTION), is_nearest(m, VALUE, f))
        yield f"HALVES {k}", z3.Implies(both, m == whole(e) * 2**f + (h + 1) / 2)


class Text:
    """An unknown text, of whose fraction so many places are kept."""

    def __init__(self, places: int) -> None:
        self.places, self.first, self.late = places, e + 1, e + 1 + places
        self.cut = z3.If(n < self.late, n, self.late)
        self.at_place = self.at_any()

    def facts(self) -> list[BoolRef]:
        """What is true of each text. `h` is of all places, and by SPLIT, BOUND and LATE of those
        that are kept: either all are, or `late` is not after the end."""
        kept = 2**self.places * fraction(self.first, self.cut)
        back = z3.Or(y == self.first, z3.Not(is_digit(y - 1)))
        return [
            s == z3.If(z3.And(n > 0, text(0) == ord("-")), 1, 0),
            run(s, e),
            run(self.first, x),
            run(self.late, z),
            z3.Implies(self.first <= n, z3.And(self.first <= y, y <= self.cut, back)),
            whole(s) == 0,
            fraction(self.cut, self.cut) == 0,
            z3.Implies(z3.And(self.first < n, x == n), is_floor(h, kept)),
            z3.Implies(e == n, h == 0),
        ]

    def facts_at(self, place: ArithRef) -> BoolRef:
        """What is true of each byte."""
        return z3.substitute(self.at_place, (at, place))

    def at_any(self) -> BoolRef:
        """What is true of the byte at the index `at`."""

        def within(low: ArithRef, high: ArithRef, it: BoolRef) -> BoolRef:
            return z3.Implies(z3.And(low <= at, at < high), it)

        return z3.And(
            z3.And(0 <= text(at), text(at) <= 255),
            within(s, e, z3.And(is_digit(at), next_whole(at))),
            within(self.first, x, is_digit(at)),
            within(self.late, z, is_digit(at)),
            within(y, self.cut, z3.Implies(self.first <= y, is_digit(at))),
            within(self.first, self.cut, next_place(at, self.cut)),
        )
