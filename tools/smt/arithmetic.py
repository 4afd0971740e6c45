"""Products and quotients of two unknown numbers, of which the solver knows a few true facts."""

import operator
from collections.abc import Callable, Iterator
from typing import NamedTuple

import z3
from z3 import BitVecRef, BoolRef

from values import NO, YES, extend, is_constant

Operation = Callable[[BitVecRef, BitVecRef], BitVecRef | BoolRef]


class Quotient(NamedTuple):
    bits: BitVecRef
    divisor: BitVecRef


def order(factor: BitVecRef) -> tuple[bool, bool, int]:
    """Orders two factors: an argument first, or else what a function gives, so that a product of it
    and of a term, which may be written in two ways, is one function of both."""
    of = factor.arg(0) if z3.is_app_of(factor, z3.Z3_OP_SIGN_EXT) else factor
    is_given = z3.is_app_of(of, z3.Z3_OP_UNINTERPRETED)
    return not z3.is_const(of), not is_given, int(z3.simplify(factor).hash())


class Arithmetic:
    """A product or a quotient of two unknowns is an unknown function of them. What is proved of
    every function with the facts is proved of the real one, because the facts are true of it.
    `exact` computes the real one instead, for arguments that are known."""

    def __init__(self, exact: bool = False) -> None:
        self.exact = exact
        self.facts: list[BoolRef] = []
        self.quotients: list[Quotient] = []
        # Each unknown result, the operation, and its operands.
        self.nodes: list[tuple[BitVecRef | BoolRef, Operation, BitVecRef, BitVecRef]] = []
        self.ranges: dict[int, tuple[BitVecRef, int]] = {}

    def greatest(self, bits: BitVecRef) -> int:
        """Returns a number that no value of `bits`, unsigned, exceeds."""
        if bits.get_id() in self.ranges:
            return self.ranges[bits.get_id()][1]
        if is_constant(bits):
            return int(bits.as_long())
        if z3.is_app_of(bits, z3.Z3_OP_ZERO_EXT):
            return self.greatest(bits.arg(0))
        if z3.is_app_of(bits, z3.Z3_OP_ITE):
            return max(self.greatest(bits.arg(1)), self.greatest(bits.arg(2)))
        if z3.is_app_of(bits, z3.Z3_OP_CONCAT) and z3.is_true(z3.simplify(bits.arg(0) == 0)):
            return int((1 << bits.size() - bits.arg(0).size()) - 1)
        return int((1 << bits.size()) - 1)

    def keep(self, bits: BitVecRef, greatest: int) -> BitVecRef:
        """Notes that the value of `bits`, unsigned, never exceeds `greatest`."""
        if not is_constant(bits):
            self.ranges[bits.get_id()] = bits, min(greatest, self.greatest(bits))
        return bits

    def signed_width(self, bits: BitVecRef) -> int:
        """Returns how many bits hold the signed number."""
        if z3.is_app_of(bits, z3.Z3_OP_SIGN_EXT):
            return int(bits.arg(0).size())
        if is_constant(bits):
            return max(int(bits.as_signed_long()).bit_length() + 1, 2)
        return min(self.greatest(bits).bit_length() + 1, int(bits.size()))

    def magnitude(self, bits: BitVecRef) -> BitVecRef:
        """Returns |x| as an unsigned number: at most 2^(w-1)."""
        return self.keep(z3.If(bits < 0, -bits, bits), 1 << bits.size() - 1)

    def unknown(
        self, name: str, operation: Operation, a: BitVecRef, b: BitVecRef, greatest: int
    ) -> tuple[BitVecRef, bool]:
        """Returns an unknown result, and whether it is a new one."""
        node = z3.Function(f"{name}{a.size()}", *[a.sort()] * 3)(a, b)
        if node.get_id() in self.ranges:
            return node, False
        self.nodes.append((node, operation, a, b))
        return self.keep(node, greatest), True

    def multiply(self, a: BitVecRef, b: BitVecRef) -> BitVecRef:
        """If -2^m <= a < 2^m and -2^n <= b < 2^n, and m + n < w - 1, then a b is at most 2^(m+n),
        and at least the lesser of -2^m (2^n - 1) and -2^n (2^m - 1). If a <= x and b <= y, both
        unsigned, and x y < 2^w, then a b <= x y. A product by 0 is 0. If a is at most the quotient q
        of a number by b, which is not 0, then a b <= q b, which does not wrap."""
        width, greatest = a.size(), self.greatest(a) * self.greatest(b)
        if self.exact or is_constant(a) or is_constant(b):
            return self.keep(a * b, greatest) if greatest < 1 << width else a * b
        for few, it in ((a, b), (b, a)):
            # Of a factor of few bits, the sum of the multiples that its bits say.
            if self.greatest(few) < 1 << 4:
                bits = range(self.greatest(few).bit_length())
                parts = [z3.If(z3.Extract(i, i, few) == 1, it << i, 0) for i in bits]
                return self.keep(z3.Sum(parts), min(greatest, (1 << width) - 1))
        a, b = sorted((a, b), key=order)
        node, is_new = self.unknown("product", operator.mul, a, b, min(greatest, (1 << width) - 1))
        if greatest < 1 << width and is_new:
            self.facts.append(z3.ULE(node, greatest))
        m, n = (self.signed_width(it) - 1 for it in (a, b))
        if m + n < width - 1 and is_new:
            most, least = 1 << m + n, (1 << min(m, n)) - (1 << m + n)
            self.facts.append(z3.And(node <= most, node >= least))
        if is_new:
            self.facts += [z3.Implies(it == 0, node == 0) for it in (a, b)]
        for q, d in list(self.quotients) if is_new else ():
            for factor, other in ((a, b), (b, a)):
                if d.eq(other) and not q.eq(factor):
                    fits = z3.And(d != 0, z3.ULE(factor, q))
                    self.facts.append(z3.Implies(fits, z3.ULE(node, self.multiply(q, d))))
        return node

    def multiply_overflows(self, a: BitVecRef, b: BitVecRef, signed: bool) -> BoolRef:
        """`nsw`, `nuw`: the product of the integers is not in the width. It is, if the bounds of
        both operands say so. Else, of two unknowns, whether it is may be either, except that of
        unsigned numbers a <= x and b <= y, the product is at most x y, if that is in the width."""
        width, most = a.size(), self.greatest(a) * self.greatest(b)
        narrow = signed and self.signed_width(a) + self.signed_width(b) - 2 < width - 1
        if narrow or most < 1 << (width - 1 if signed else width):
            return NO

        def is_wrong(a: BitVecRef, b: BitVecRef) -> BoolRef:
            wide = extend(signed, 2 * width, a) * extend(signed, 2 * width, b)
            return extend(signed, 2 * width, a * b) != wide

        if self.exact or is_constant(a) or is_constant(b):
            return is_wrong(a, b)
        sorts = [a.sort(), b.sort(), z3.BoolSort()]
        wraps = z3.Function(f"overflows{width}{signed}", *sorts)(a, b)
        if any(it[0].eq(wraps) for it in self.nodes):
            return wraps
        self.nodes.append((wraps, is_wrong, a, b))
        for it, other in () if signed else ((a, b), (b, a)):
            few = ((1 << width) - 1) // max(self.greatest(it), 1)
            if few > 1:
                fits = z3.And(z3.Not(wraps), z3.ULE(self.multiply(a, b), self.greatest(it) * few))
                self.facts.append(z3.Implies(z3.ULE(other, few), fits))
        return wraps

    def divide(self, n: BitVecRef, d: BitVecRef) -> BitVecRef:
        """The quotient q of unsigned numbers: if d is not 0, then q <= n and q d <= n < q d + d,
        where the product does not wrap, because it is at most n. If n is less than d, it is 0."""
        if self.exact or is_constant(d):
            return self.narrowed(z3.UDiv, n, d)
        q, is_new = self.unknown("quotient", z3.UDiv, n, d, self.greatest(n))
        if is_new:
            self.quotients.append(Quotient(q, d))
            product = self.multiply(q, d)
            whole = z3.And(z3.ULE(product, n), z3.ULT(n - product, d), z3.ULE(q, n))
            self.facts += [z3.Implies(d != 0, whole), z3.Implies(z3.ULT(n, d), q == 0)]
            self.add_nearest(q, product, n, d)
        return q

    def narrowed(self, operation: Operation, n: BitVecRef, d: BitVecRef) -> BitVecRef:
        """Returns a quotient or remainder by a constant, computed in the bits that both need."""
        high, width = self.greatest(n), n.size()
        bits = max(high.bit_length(), self.greatest(d).bit_length())
        if is_constant(n) or not is_constant(d) or not d.as_long() or bits >= width:
            return operation(n, d)
        low = operation(z3.Extract(bits - 1, 0, n), z3.Extract(bits - 1, 0, d))
        by = int(d.as_long())
        most = high // by if operation is z3.UDiv else by - 1
        return self.keep(z3.ZeroExt(width - bits, low), most)

    def add_nearest(self, q: BitVecRef, product: BitVecRef, n: BitVecRef, d: BitVecRef) -> None:
        """The lemma NEAREST, if n is the sum of a number a and of floor(d / 2), and does not wrap.
        The lemma PART too, if a is a product that does not wrap."""
        for a, half in (n.children(), n.children()[::-1]) if z3.is_app_of(n, z3.Z3_OP_BADD) else ():
            if not half.eq(z3.LShR(d, 1)):
                continue
            fits = self.greatest(a) + self.greatest(half) < 1 << n.size()
            is_sum = z3.And(d != 0, YES if fits else z3.ULE(a, n))
            m, of, wide = (z3.ZeroExt(2, it) for it in (product, a, d))
            near = z3.And(2 * (m - of) <= wide, 2 * (of - m) < wide)
            self.facts.append(z3.Implies(is_sum, near))
            factors = next((it[2:] for it in self.nodes if it[0].eq(a)), ())
            both = [*zip(factors, factors[::-1])]
            most = (1 << n.size()) - 1
            fit = z3.Or([z3.ULE(x, most // max(self.greatest(part), 1)) for x, part in both])
            for x, part in both:
                is_part = z3.And(is_sum, fit, z3.ULE(part, d))
                self.facts.append(z3.Implies(is_part, z3.ULE(q, x)))

    def contradicted(self, values: list[tuple[BitVecRef, BitVecRef]]) -> BoolRef | None:
        """Returns a fact that is false of the real products and quotients of these arguments."""
        known = list(values)
        for node, operation, a, b in self.nodes:
            real = operation(z3.substitute(a, *known), z3.substitute(b, *known))
            known.append((node, z3.simplify(real)))
        false = (it for it in self.facts if z3.is_false(z3.simplify(z3.substitute(it, *known))))
        return next(false, None)


def lemmas() -> Iterator[tuple[str, BoolRef]]:
    """The arithmetic of integers that the facts of quotients rest on."""
    a, d, h, m, p, q, r = z3.Ints("a d h m p q r")

    def is_nearest(product: z3.ArithRef) -> BoolRef:
        return z3.And(2 * (product - a) <= d, 2 * (a - product) < d)

    # The multiple m of d by the quotient of a + floor(d / 2) and d is the nearest to a, upward.
    yield "NEAREST", z3.Implies(
        z3.And(d > 0, 2 * h <= d, d <= 2 * h + 1, m <= a + h, a + h < m + d), is_nearest(m)
    )
    # If p is at most d, then x p / d is at most x: if it were x + 1 + r, its multiple of d would
    # exceed a = x p, which is at most x d, by d or more.
    xd, rd = z3.Ints("xd rd")
    yield "PART", z3.Implies(
        z3.And(d > 0, rd >= 0, a <= xd, m == xd + d + rd), z3.Not(is_nearest(m))
    )
    # Only one multiple is nearest, so that "a nearest" is "the nearest".
    yield "UNIQUE", z3.Implies(
        z3.And(d > 0, q == r + 1 + p, p >= 0, p * d >= 0),
        z3.Not(z3.And(is_nearest(q * d), is_nearest(r * d))),
    )
