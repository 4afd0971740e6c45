"""Runs a function, of either side, in the form to which both are read.

A function has blocks of statements, by label. A place is a local and steps: `*`, `f` a field, `e`
an element, `end` one from the end, `win` a part, and `tag`, `len`, `first` of an enum or slice. An
operand is `copy` or `raw` of a place, or `term`; only `raw` may be a pointer beside its slice.
"""

from collections.abc import Callable
from typing import Any

from std import known, shown
from terms import UNIT, Events, Memory, Term, Terms, at, cast, counted, element, length, may_lend
from terms import may_panic, negated, number, operation, part, place_of, pointer, slice_of


class Function:
    """A function or constant; `lower`, of a reader, writes its blocks when it is first run."""

    lower: Callable[[], None]
    count_of: Callable[[str], Term]

    def __init__(self, name: str) -> None:
        self.name, self.count = name, 0
        self.blocks: dict[int, list[Term]] = {}
        self.heads: set[int] = set()
        self.used: dict[Term, bool] = {}  # which places of the caller are read or, if true, written

    def arguments(self) -> list[Term]:
        return [("param", n) for n in range(self.count)]

    def returned(self, result: Term) -> Term:
        return result

    def prepare(self) -> None:
        if not self.blocks:
            self.lower()
            self.find_heads(0, {})

    def find_heads(self, label: int, state: dict[int, str]) -> None:
        """Finds the blocks at which loops begin: those that a block after them goes back to."""
        state[label] = "open"
        for kind, *it in self.blocks[label]:
            arms = [label for _, label in it[1]] if kind == "switch" else it
            for after in [*arms, *it[2:]] if kind in ("goto", "switch") else ():
                if state.get(after) == "open":
                    self.heads.add(after)
                elif after not in state and after is not None:
                    self.find_heads(after, state)
        state[label] = "closed"


class Machine:
    def __init__(self, function: Function) -> None:
        function.prepare()
        self.function, self.memory = function, Memory(function.arguments(), function.used)

    def run(self) -> Events:
        result = yield from self.result()
        yield ("return", self.memory.seen(self.function.returned(result)))

    def result(self) -> Events:
        label: int | None = 0
        while label is not None:
            if label in self.function.heads:
                yield ("head", label)
            label = yield from self.block(label)
        return self.memory.read((("loc", 0), ()))

    def constant(self, function: Function) -> Events:
        """Returns what a constant has, where what it refers to is static."""
        inner = Machine(function)
        result = yield from inner.result()
        self.memory.checks |= inner.memory.checks
        return inner.memory.fixed(result)

    def block(self, label: int) -> Events:
        """Runs a block, and returns the label of the next, or None at the end."""
        for kind, *it in self.function.blocks[label]:
            if kind == "set":
                yield from self.memory.store(self.place(it[0]), self.value(*it[1]))
            elif kind == "call":
                yield from self.call(*it)
            elif kind == "constant":
                self.memory.write(self.place(it[0]), (yield from self.constant(it[1])))
            elif kind == "index":
                self.memory.check_index(*map(self.operand, reversed(it)))
            elif kind == "switch":
                return (yield from self.switch(*it))
            elif kind == "goto":
                return it[0]
            else:
                break
        if kind == "dead":
            yield ("dead",)
        elif kind != "return":
            raise ValueError(f"a block that ends with {kind}")
        return None

    def switch(self, of: Term, arms: list[tuple[int, int]], default: int | None) -> Events:
        """Chooses by a Boolean, or by the first of the arms, without a default one of them."""
        operand, bits = of
        term = self.operand(operand)
        for n, (value, label) in enumerate(arms):
            question = operation("Eq", False, bits, term, number(value, bits))
            if default is None and n == len(arms) - 1:
                yield ("fact", question)
                return label
            if (yield ("if", question)):
                return label
        return default

    # ---- places and values

    def place(self, place: Term) -> Term:
        local, steps = place
        root: Term = ("loc", local)
        path: Term = ()
        for step in steps:
            if step[0] == "*":
                term = self.memory.read((root, path))
                if term[0] == "elem":
                    self.memory.check_index(term[2], length(term[1]))
                root, path = place_of(term)
            elif step[0] == "e":
                path = at(path, self.operand(step[1]))
            elif step[0] in ("end", "win"):
                path = self.from_end(root, path, *step)
            else:
                path = (*path, step)
        return root, path

    def from_end(self, root: Term, path: Term, kind: str, start: int, end: int = 0) -> Term:
        """Returns the path of an element from the end, or of a part without some at its end."""
        is_part = path and path[-1][0] == "win"
        if not is_part and (root[0] != "mem" or path):
            raise ValueError(f"the length of {root} {path}")
        whole = path[-1][2] if is_part else length(root[1])
        count = operation("Sub", False, 64, whole, number(start + end, 64))
        if kind == "end":
            return at(path, count)
        begun = at(path, number(start, 64))
        return (*begun[:-1], ("win", begun[-1][1], count))

    def operand(self, it: Term) -> Term:
        kind, what = it
        term: Term = what
        if kind == "amount":  # of bits, of any type, which Rattle proves to be small
            term = self.operand(what)
            term = term[4] if term[0] == "cast" else term
        elif kind != "term":
            term = self.memory.read(self.place(what))
            if kind == "copy" and term[0] == "elem":
                self.memory.check_index(term[2], length(term[1]))
                term = ("ptr", *place_of(term))
        return term

    def value(self, kind: str, *it: Any) -> Term:
        if kind == "use":
            return self.operand(it[0])
        if kind == "ref":
            return pointer(*self.place(it[0]))
        if kind == "agg":
            # A closure of Rattle also has the functions that it was made from.
            without = UNIT if isinstance(it[0], tuple) else None
            return ("agg", it[0], tuple(of for of in map(self.operand, it[1]) if of != without))
        if kind == "repeat":
            return ("repeat", *map(self.operand, it))
        if kind == "cast":
            return cast(it[0], it[1], it[2], self.operand(it[3]))
        if kind == "whole":
            return part(self.operand(it[0]), number(0, 64), it[1])
        if kind == "dyn":
            return ("dyn", it[0], self.operand(it[1]))
        if kind == "offset":
            base, array, size, distance = it
            return element(self.operand(base), array, counted(self.operand(distance), size))
        if kind == "slice":
            return slice_of(self.memory, self.operand(it[0]), it[1], self.operand(it[2]))
        if kind == "Not":
            bits, term = it[0], self.operand(it[1])
            return negated(term) if bits == 1 else ("op1", "Not", bits, term)
        signed, bits, terms = *it[:2], [self.operand(of) for of in it[2:]]
        self.memory.check(may_panic(kind, signed, bits, *terms))
        return operation(kind, signed, bits, *terms)

    # ---- calls

    def called(self, callee: Term, terms: Terms) -> Events:
        given = (shown("debug", *it[1:]) if it[0] == "dyn" else it for it in terms)
        return (yield ("call", callee, tuple(map(self.memory.seen, given))))

    def call(self, callee: Term, given: Terms, place: Term, lent: list[str], form: str) -> Events:
        """Runs a call: a row of what is known, or an event; what it is lent may have changed."""
        terms = [self.operand(it) for it in given]
        result = yield from known(self, callee, terms)
        if result is None:
            result = yield from self.called(callee, terms)
            for n, (term, how) in enumerate(zip(terms, lent)):
                if how == "mut" or how != "&" and may_lend(term):
                    self.memory.lend(term, result, (n,))
            if form == "clone":  # it may fail in Rattle, for want of memory
                result = ("agg", 0, (result,))
        yield from self.memory.store(self.place(place), UNIT if form == "unit" else result)
