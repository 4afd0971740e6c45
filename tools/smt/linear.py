"""Terms of bits as linear terms of integers: a quotient and a remainder are names."""

import z3
from z3 import ArithRef, BoolRef

from integers import Bounds, Integers


def twos(n: int) -> int:
    """Returns how often 2 divides a number: 0, more often than any other."""
    return (n & -n).bit_length() - 1 if n else 999


class Linear(Integers):
    """A quotient and its remainder are names, of which `defined` says what they are. Of a sum, what
    the divisor divides is divided."""

    def __init__(self) -> None:
        super().__init__()
        # By the identity of what is divided, which is kept, and the divisor: a long term's text ends
        # in dots, so that two terms can have the same.
        self.named: dict[tuple[int, int], tuple[ArithRef, ArithRef, ArithRef]] = {}
        self.defined: dict[str, BoolRef] = {}
        # How often 2 divides a name, at least.
        self.twos: dict[str, int] = {}

    def terms(self, n: ArithRef, factor: int, found: dict[str, tuple[ArithRef, int]]) -> None:
        """Adds up the terms of a number times a factor."""
        if z3.is_int_value(n):
            name, n, factor = "", z3.IntVal(1), factor * n.as_long()
        elif z3.is_add(n):
            for it in n.children():
                self.terms(it, factor, found)
            return
        elif z3.is_sub(n):
            self.terms(n.arg(0), factor, found)
            self.terms(n.arg(1), -factor, found)
            return
        elif z3.is_mul(n) and any(map(z3.is_int_value, n.children())):
            a, b = n.children() if z3.is_int_value(n.arg(0)) else n.children()[::-1]
            self.terms(b, factor * a.as_long(), found)
            return
        else:
            name = str(n) if z3.is_const(n) else f"{n.get_id()}"
        found[name] = n, found[name][1] + factor if name in found else factor

    def parts(self, n: ArithRef, bounds: Bounds, by: int) -> tuple[ArithRef, ArithRef]:
        terms: dict[str, tuple[ArithRef, int]] = {}
        self.terms(n, 1, terms)
        multiple, left = z3.IntVal(0), z3.IntVal(0)
        low, high, divides = 0, 0, 999
        for name, (it, factor) in sorted(terms.items()):
            over = factor // by
            if over * by == factor or not name:
                multiple, factor = multiple + over * it, factor - over * by
            if factor:
                least, most = self.bounds.get(name, (-(2**200), 2**200)) if name else (1, 1)
                left = left + factor * it
                low += min(least * factor, most * factor)
                high += max(least * factor, most * factor)
                divides = min(divides, twos(factor) + self.twos.get(name, 0))
        if 0 <= low and high < by:
            return multiple, left
        if z3.is_int_value(multiple) and multiple.as_long() == 0:
            low, high = max(low, bounds[0]), min(high, bounds[1])
        key = left.get_id(), by
        if key not in self.named:
            q, r = (z3.Int(f"{it}{len(self.named)}") for it in ("quotient", "remainder"))
            self.named[key] = q, r, left
            definition = z3.And(left == by * q + r, 0 <= r, r < by)
            self.defined |= {str(q): definition, str(r): definition}
            self.twos[str(r)] = min(divides, twos(by))
            self.bounds |= {str(q): (low // by, high // by), str(r): (0, by - 1)}
        q, r, _ = self.named[key]
        return multiple + q, r

    def about(self, name: str) -> list[BoolRef]:
        """Returns what is true of a name."""
        if name in self.defined:
            return [self.defined[name]]
        if name not in self.bounds:
            return []
        low, high = self.bounds[name]
        return [z3.And(low <= z3.Int(name), z3.Int(name) <= high)]

    def masked(self, n: ArithRef, bounds: Bounds, mask: int) -> ArithRef:
        low = mask & -mask
        above = mask + low
        # The bits of another mask are not all neighbors.
        if above & above - 1 == 0:
            rest = self.parts(n, bounds, above)[1]
            if self.twos.get(str(rest), 0) >= twos(low):
                return rest
        return super().masked(n, bounds, mask)
