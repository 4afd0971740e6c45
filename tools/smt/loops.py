"""A loop over terms: an invariant instead of turns, so that there may be any number of them."""

import re
from typing import NamedTuple

import z3
from z3 import BitVecRef, BoolRef

from ir import PHI, Function, size_of
from memory import Objects
from rows.rules import Asked, Products
from state import Goals, State
from values import NO, Address, Names, Number, Unsupported, Value, constant, is_constant, number_of

COUNTED = re.compile(r"(?:(?:n[us]w )*i\d+ (\S+),|(?:[a-z]+ )*(i\d+), ptr (\S+), i\d+) (-?\d+)")


class Head(NamedTuple):
    """The head of a loop that does a term of a fold a turn, after the first k: what each name had
    at first, by how much a turn changes those that count, the memory, and how many conditions were
    known. The fold is guessed: a wrong guess has a false invariant."""

    asked: Asked
    k: BitVecRef
    entered: Names
    counts: dict[str, int]
    memory: Objects
    before: int


class Loops:
    """A loop ends, because k is less than the number of terms before each turn, and a turn is of
    one term. It stores nothing. The invariant: each name that no turn adds a constant to has F(k),
    or its low bits. F(k) is within its bounds and, if the fold stops, not the last."""

    def __init__(self, goals: Goals, products: Products) -> None:
        self.goals, self.products = goals, products
        self.heads: list[Head] = []
        self.known: dict[int, BoolRef] = {}

    def is_head(self, function: Function, block: str) -> bool:
        return bool(function.turns(block))

    def at_head(self, function: Function, block: str, values: Names, state: State) -> Names | None:
        """Before the first turn, shows the invariant and returns any values that meet it. After a
        turn, shows that the values meet it again."""
        turns, key = function.turns(block), f"head {block}"
        if state.block in turns:
            head = self.heads[state.visits[key]]
            self.define()
            self.show(head, head.k + 1, values, state)
            if any(state.memory.get(name) is not it for name, it in head.memory.items()):
                raise Unsupported("a loop that stores")
            return None
        if not self.goals.possible(state.conditions):
            return None
        counts = counted(function, block, turns)
        asked, k = self.asked(values, counts), z3.BitVec(f"k{len(self.heads)}", 64)
        head = Head(asked, k, values, counts, dict(state.memory), len(state.conditions))
        self.show(head, constant(0), values, state)
        state.visits[key] = len(self.heads)
        self.heads.append(head)
        state.conditions.extend(self.invariant(head, k))
        least, most = asked.fold.within(k) if asked.fold.within else (k, k)
        if is_constant(most) and is_constant(least) and least.as_long() == 0:
            self.products.arithmetic.keep(asked.at(k), most.as_long())
        self.define()
        return {name: self.expected(head, name, k) for name in values}

    def asked(self, values: Names, counts: dict[str, int]) -> Asked:
        """Returns the fold whose first number each name has that does not count."""
        for it in reversed(self.products.asked.values()):
            some = [value for name, value in values.items() if name not in counts]
            if some and all(
                isinstance(value, Number) and has(value, it.fold.first) for value in some
            ):
                return it
        raise Unsupported("a loop of no fold of the rule")

    def expected(self, head: Head, name: str, k: BitVecRef) -> Value:
        """Returns what a name has by the invariant."""
        before = head.entered[name]
        if isinstance(before, Address):
            return before._replace(offset=z3.simplify(before.offset + k * head.counts[name]))
        bits = number_of(before).bits
        if name not in head.counts:
            return Number(low(head.asked.at(k), bits.size()))
        return Number(z3.simplify(bits + low(k * head.counts[name], bits.size())))

    def show(self, head: Head, k: BitVecRef, values: Names, state: State) -> None:
        """Shows the invariant. Each part that is shown is a condition of the next ones."""
        parts = []
        for name, it in values.items():
            expected = self.expected(head, name, k)
            if isinstance(it, Address) and isinstance(expected, Address):
                parts += [z3.BoolVal(it.object == expected.object), it.offset == expected.offset]
            else:
                parts.append(number_of(it).bits == number_of(expected).bits)
            parts += [] if isinstance(it, list) else [z3.Not(it.poison)]
        shown = state._replace(conditions=[*state.conditions])
        for part in [*parts, *self.invariant(head, k)]:
            # Most need nothing of what was before the loop.
            near = [*shown.conditions[head.before :], z3.Not(part), *self.products.every()]
            if not self.goals.excluded(near):
                self.goals.check("the invariant of a loop is false", z3.Not(part), shown)
            shown.conditions.append(part)

    def invariant(self, head: Head, k: BitVecRef) -> list[BoolRef]:
        fold, value = head.asked.fold, head.asked.at(k)
        found = [z3.ULT(k, head.asked.count)]
        if fold.within is not None:
            least, most = fold.within(k)
            found += [least <= value, value <= most]
        return [*found, value != fold.last] if fold.stops else found

    def define(self) -> list[BoolRef]:
        """States F(k + 1) of each head, by the quotients that are known so far, and that each later
        number is the last if it is. Returns all that was stated."""
        for head in self.heads:
            fold, value, after = head.asked.fold, head.asked.at(head.k), head.asked.at(head.k + 1)
            goes_on = z3.BoolVal(True)
            if fold.last is not None:
                goes_on = value != fold.last
                self.state(z3.Implies(z3.Not(goes_on), after == fold.last))
                ends = z3.And(z3.ULT(head.k, head.asked.count), after == fold.last)
                self.state(z3.Implies(ends, head.asked.at(head.asked.count) == fold.last))
            for found, condition in fold.step(head.k, value, *head.asked.others):
                self.state(z3.Implies(z3.And(goes_on, condition), after == found))
        return [*self.known.values()]

    def state(self, fact: BoolRef) -> None:
        if fact.get_id() not in self.known:
            self.known[fact.get_id()] = fact
            self.products.facts.append(fact)


def low(bits: BitVecRef, width: int) -> BitVecRef:
    return z3.Extract(width - 1, 0, bits) if width < bits.size() else bits


def has(value: Number, first: BitVecRef) -> bool:
    width = value.bits.size()
    same = value.bits == low(first, width) if width <= first.size() else NO
    return bool(z3.is_true(z3.simplify(same)))


def counted(function: Function, block: str, turns: set[str]) -> dict[str, int]:
    """Returns the names at a head to which each turn adds a constant: an address, in bytes."""
    made = {it.target: it for some in function.blocks.values() for it in some}
    counts = {}
    for phi in function.blocks[block]:
        after = {text for text, source in PHI.findall(phi.text) if source in turns}
        it = made.get(after.pop()) if phi.op == "phi" and len(after) == 1 else None
        found = COUNTED.fullmatch(it.text) if it and it.op in ("add", "getelementptr") else None
        if found and phi.target in (found[1], found[3]):
            counts[phi.target] = int(found[4]) * (size_of(found[2]) if found[2] else 1)
    return counts
