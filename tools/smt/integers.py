"""Terms of bits as terms of integers: each as the unsigned number that it is."""

import math
from collections.abc import Iterable, Iterator
from contextlib import suppress
from typing import Any

import z3
from z3 import ArithRef, BoolRef

from values import Unsupported

Bounds = tuple[int, int]
ORDER = {
    z3.Z3_OP_ULEQ: "<=", z3.Z3_OP_ULT: "<", z3.Z3_OP_UGEQ: ">=", z3.Z3_OP_UGT: ">",
    z3.Z3_OP_SLEQ: "s<=", z3.Z3_OP_SLT: "s<", z3.Z3_OP_SGEQ: "s>=", z3.Z3_OP_SGT: "s>",
}  # fmt: skip
LINEAR = (z3.Z3_OP_BADD, z3.Z3_OP_BSUB, z3.Z3_OP_BNEG, z3.Z3_OP_BNOT, z3.Z3_OP_BMUL)
LOGIC = {
    z3.Z3_OP_AND: z3.And, z3.Z3_OP_OR: z3.Or, z3.Z3_OP_NOT: z3.Not, z3.Z3_OP_XOR: z3.Xor,
    z3.Z3_OP_ITE: z3.If, z3.Z3_OP_IMPLIES: z3.Implies,
}  # fmt: skip


def signed(n: ArithRef, width: int) -> ArithRef:
    return z3.If(n >= 1 << width - 1, n - (1 << width), n)


def subterms(terms: Iterable[Any]) -> Iterator[Any]:
    seen, ahead = set(), list(terms)
    while ahead:
        it = ahead.pop()
        if it.get_id() not in seen:
            seen.add(it.get_id())
            ahead += it.children()
            yield it


def is_remainder(term: Any, of: Any) -> bool:
    """Returns whether a term is the remainder of another by a constant."""
    is_known = term.decl().kind() in (z3.Z3_OP_BUREM, z3.Z3_OP_BUREM_I)
    return is_known and bool(z3.is_bv_value(term.arg(1))) and bool(term.arg(0).eq(of))


class Integers:
    """`bounds` are of names and functions whose values are known to be in them. A sum or a product
    is any integer that is equal to it modulo 2^w, until its value is needed."""

    def __init__(self) -> None:
        self.bounds: dict[str, Bounds] = {}
        self.made: dict[int, tuple[Any, ArithRef, Bounds]] = {}
        self.values: dict[int, tuple[Any, ArithRef, Bounds]] = {}

    def parts(self, n: ArithRef, bounds: Bounds, by: int) -> tuple[ArithRef, ArithRef]:
        """Returns the quotient of a number, which is between bounds, rounded down, and the
        remainder."""
        return n / by, n % by

    def number(self, term: Any) -> ArithRef:
        return self.value(term)[0]

    def value(self, term: Any) -> tuple[ArithRef, Bounds]:
        """Returns an unsigned number, and numbers that it is between."""
        if term.get_id() not in self.values:
            (n, (low, high)), size = self.equal(term), 1 << term.size()
            if low < 0 or high >= size:
                below = z3.If(n < 0, n + size, n) if low < 0 else n
                once = z3.If(n >= size, n - size, below) if high >= size else below
                is_once = -size <= low and high < 2 * size
                n = once if is_once else self.parts(n, (low, high), size)[1]
                low, high = 0, size - 1
            self.values[term.get_id()] = term, n, (low, high)
        return self.values[term.get_id()][1:]

    def equal(self, term: Any) -> tuple[ArithRef, Bounds]:
        """Returns an integer that is equal modulo 2^w, and numbers that it is between."""
        if term.get_id() not in self.made:
            self.made[term.get_id()] = term, *self.read(term)
        return self.made[term.get_id()][1:]

    def read(self, term: Any) -> tuple[ArithRef, Bounds]:
        width, kind, children = term.size(), term.decl().kind(), term.children()
        every = 0, (1 << width) - 1
        if z3.is_bv_value(term):
            return z3.IntVal(term.as_long()), (term.as_long(),) * 2
        if kind == z3.Z3_OP_UNINTERPRETED:
            bounds = self.bounds.setdefault(term.decl().name(), every)
            sorts = [z3.IntSort()] * (len(children) + 1)
            return z3.Function(term.decl().name(), *sorts)(*map(self.number, children)), bounds
        if kind == z3.Z3_OP_ITE:
            (a, (k, l)), (b, (m, n)) = map(self.equal, children[1:])
            return z3.If(self.truth(term.arg(0)), a, b), (min(k, m), max(l, n))
        if kind in (z3.Z3_OP_BOR, z3.Z3_OP_BXOR, z3.Z3_OP_BAND) and width == 1:
            some = [self.number(it) == 1 for it in children]
            of = {z3.Z3_OP_BOR: z3.Or, z3.Z3_OP_BAND: z3.And}.get(kind, lambda it: z3.Xor(*it))
            return z3.If(of(some), z3.IntVal(1), z3.IntVal(0)), every
        if kind == z3.Z3_OP_BSUB and is_remainder(children[1], children[0]):
            # As d (x / d), of which more is known than of the difference x - x % d.
            (n, (low, high)), by = self.value(children[0]), children[1].arg(1).as_long()
            if by:
                return self.parts(n, (low, high), by)[0] * by, (0, high)
        if kind in LINEAR:
            return self.linear(kind, width, [self.equal(it) for it in children])
        if kind == z3.Z3_OP_EXTRACT and not term.params()[1]:
            return self.equal(children[0])
        if kind == z3.Z3_OP_BAND and z3.is_bv_value(children[1]):
            if not children[1].as_long():
                return z3.IntVal(0), (0, 0)
            n, (low, high) = self.equal(children[0])
            mask = children[1].as_long()
            most = min(high, mask) if low >= 0 else mask
            return self.masked(n, (low, high), mask), (0, most)
        some = [self.value(it) for it in children]
        (a, (low, high)), (_, (least, most)) = some[0], some[-1]
        if kind == z3.Z3_OP_CONCAT:
            n, low, high = z3.IntVal(0), 0, 0
            for (a, (least, most)), child in zip(some, children):
                by = 1 << child.size()
                n, low, high = n * by + a, low * by + least, high * by + most
            return n, (low, high)
        if kind == z3.Z3_OP_ZERO_EXT:
            return a, (low, high)
        if kind == z3.Z3_OP_SIGN_EXT:
            half = 1 << children[0].size() - 1
            if high < half:
                return a, (low, high)
            return signed(a, children[0].size()), (-half, half - 1)
        if kind == z3.Z3_OP_EXTRACT:
            bottom = term.params()[1]
            quotient = self.parts(a, (low, high), 1 << bottom)[0]
            return quotient, (low >> bottom, high >> bottom)
        if least != most:
            raise Unsupported(f"{term.decl()} of two unknowns")
        by = 1 << least if kind == z3.Z3_OP_BLSHR else least
        if kind in (z3.Z3_OP_BLSHR, z3.Z3_OP_BUDIV, z3.Z3_OP_BUDIV_I) and by:
            return self.parts(a, (low, high), by)[0], (low // by, high // by)
        if kind in (z3.Z3_OP_BUREM, z3.Z3_OP_BUREM_I) and least:
            return self.parts(a, (low, high), least)[1], (0, min(high, least - 1))
        if kind == z3.Z3_OP_BASHR:
            both = -(1 << width - 1), (1 << width - 1) - 1
            return self.parts(signed(a, width), both, 1 << least)[0], both
        if kind == z3.Z3_OP_BSHL and least < width:
            return a * (1 << least), (low << least, high << least)
        raise Unsupported(f"{term.decl()}")

    def masked(self, n: ArithRef, bounds: Bounds, mask: int) -> ArithRef:
        """Returns the bits of a number that a mask of neighbors has."""
        low = mask & -mask
        above = (mask + low).bit_length() - 1
        if mask + low != 1 << above:
            raise Unsupported(f"the mask {mask:#x}")
        rest = self.parts(n, bounds, 1 << above)[1]
        below = self.parts(rest, (0, (1 << above) - 1), low)[1] if low > 1 else z3.IntVal(0)
        return rest - below

    def linear(
        self, kind: int, width: int, some: list[tuple[ArithRef, Bounds]]
    ) -> tuple[ArithRef, Bounds]:
        (a, (low, high)), (b, (least, most)) = some[0], some[-1]
        if kind == z3.Z3_OP_BADD:
            bounds = sum(it[1][0] for it in some), sum(it[1][1] for it in some)
            return z3.Sum([it[0] for it in some]), bounds
        if kind == z3.Z3_OP_BSUB:
            return a - b, (low - most, high - least)
        if kind in (z3.Z3_OP_BNEG, z3.Z3_OP_BNOT):
            less = int(kind == z3.Z3_OP_BNOT)
            return -a - less, (-high - less, -low - less)
        known = [it[1][0] for it in some if it[1][0] == it[1][1]]
        rest = [it for it in some if it[1][0] != it[1][1]]
        if len(rest) > 1:
            raise Unsupported("a product")
        factor = math.prod(known) % (1 << width)
        factor -= (1 << width) * (factor >> width - 1)
        n, (low, high) = rest[0] if rest else (z3.IntVal(1), (1, 1))
        return n * factor, (min(low * factor, high * factor), max(low * factor, high * factor))

    def truth(self, term: Any) -> BoolRef:
        kind, some = term.decl().kind(), term.children()
        if z3.is_true(term) or z3.is_false(term):
            return term
        if kind in LOGIC:
            return LOGIC[kind](*map(self.truth, some))
        if kind in (z3.Z3_OP_EQ, z3.Z3_OP_DISTINCT):
            of = self.truth if z3.is_bool(some[0]) else self.number
            same = of(some[0]) == of(some[1])
            return same if kind == z3.Z3_OP_EQ else z3.Not(same)
        if kind in ORDER:
            a, b = map(self.number, some)
            if ORDER[kind][0] == "s":
                a, b = (signed(it, some[0].size()) for it in (a, b))
            return {"<=": a <= b, "<": a < b, ">=": a >= b, ">": a > b}[ORDER[kind].lstrip("s")]
        raise Unsupported(f"{term.decl()}")

    def premises(self, conditions: Iterable[BoolRef]) -> list[BoolRef]:
        """Returns conditions of bits as those of integers, with the bounds of what is in them. One
        that is not read is left out."""
        found = []
        for it in conditions:
            with suppress(Unsupported):
                found.append(self.truth(it))
        for it in list(subterms(found)):
            if z3.is_app_of(it, z3.Z3_OP_UNINTERPRETED) and it.decl().name() in self.bounds:
                low, high = self.bounds[it.decl().name()]
                found.append(z3.And(low <= it, it <= high))
        return found
