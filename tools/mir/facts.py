"""What the branches of a path say: of a comparison with an integer, exactly for which values of a
term it is true; of another condition, whether it is. `test` tries this against each value."""

import itertools
import operator

from terms import Term, compared, is_number, number, same, value

Ranges = list[tuple[int, int]]  # of raw values, each from the first to the last


def complement(ranges: Ranges, bits: int) -> Ranges:
    starts = [0, *(high + 1 for _, high in ranges)]
    ends = [*(low - 1 for low, _ in ranges), (1 << bits) - 1]
    return [it for it in zip(starts, ends) if it[0] <= it[1]]


def common(some: Ranges, others: Ranges) -> Ranges:
    found = ((max(a, c), min(b, d)) for (a, b), (c, d) in itertools.product(some, others))
    return sorted(it for it in found if it[0] <= it[1])


def asked(term: Term) -> tuple[Term, int, Ranges] | None:
    """Returns the term that is compared with an integer, its width, and the ranges of the raw
    values for which it is true; or None."""
    if term[0] not in ("eq", "lt") or is_number(*term[-2:]) or not any(map(is_number, term[-2:])):
        return None
    a, b = term[-2:]
    of, n = (b, a) if is_number(a) else (a, b)
    bits, half = n[2], 1 << n[2] - 1
    if term[0] == "eq":
        return of, bits, [(n[1], n[1])]
    low, high = (-half, half - 1) if term[1] else (0, 2 * half - 1)
    low, high = (value(n, term[1]) + 1, high) if n is a else (low, value(n, term[1]) - 1)
    negative = (low + 2 * half, min(high, -1) + 2 * half)
    return of, bits, [it for it in ((max(low, 0), high), negative) if it[0] <= it[1]]


# A fact is what a branch of this path asked, so it is true of the term wherever that occurs: terms
# are values, which no store changes. Nothing is known but by a question, or as both are equal.
class Facts:
    def __init__(self) -> None:
        self.known: dict[Term, bool] = {}
        self.values: dict[Term, Ranges] = {}
        self.equal: list[Term] = []

    def values_of(self, term: Term, bits: int) -> Ranges:
        """Returns the values that a term may have, which terms that are equal have too."""
        found = self.values.get(term, [(0, (1 << bits) - 1)])
        for pair in (it for it in self.equal if term in it):
            found = common(found, self.values.get(pair[term == pair[0]], found))
        return found

    def decided(self, term: Term) -> bool | None:
        """Returns whether a condition is true on this path, or None if it may be either."""
        if is_number(term):
            return term == number(1, 1)
        if term[0] == "not":
            inner = self.decided(term[1])
            return None if inner is None else not inner
        question = asked(term)
        if term in self.known or not question:
            return self.known.get(term)
        of, bits, values = question
        now = self.values_of(of, bits)
        if not common(now, values):
            return False
        return None if common(now, complement(values, bits)) else True

    def learn(self, term: Term, is_true: bool) -> None:
        while term[0] == "not":
            term, is_true = term[1], not is_true
        self.known[term], question = is_true, asked(term)
        if question:
            of, bits, values = question
            values = values if is_true else complement(values, bits)
            self.values[of] = common(self.values_of(of, bits), values)
        elif term[0] == "eq" and is_true:
            self.equal.append(term[1:])
        elif term[0] == "lt" and is_true:
            self.known["lt", term[1], term[3], term[2]] = False
            self.known[same(*term[2:])] = False


def test() -> None:
    """Tries each comparison of a byte with an integer, and pairs of facts about two values."""
    names = {it.title(): getattr(operator, it) for it in ("eq", "ne", "lt", "le", "gt", "ge")}
    x, y = ("param", 0), ("param", 1)
    for (name, is_true), signed, n in itertools.product(names.items(), (False, True), range(256)):
        raw = [value(number(it, 8), signed) for it in range(256)]
        for sides in ((x, number(n, 8)), (number(n, 8), x)):
            facts = Facts()
            facts.learn(compared(name, signed, 8, *sides), True)
            found = {it for low, high in facts.values[x] for it in range(low, high + 1)}
            compare = is_true if sides[0] == x else lambda a, b: is_true(b, a)
            assert found == {it for it in range(256) if compare(raw[it], raw[n])}, (name, sides)

    def at(it: Term, pair: tuple[int, ...], signed: bool) -> int:
        return value(number(pair[it[1]], 2) if it in (x, y) else it, signed)

    cases, space = {}, list(itertools.product(range(4), repeat=2))
    terms = [x, y, *(number(it, 2) for it in range(4))]
    for name, signed, a, b in itertools.product(names, (False, True), terms, terms):
        if a != b and not is_number(a, b):
            is_true = names[name]
            where = frozenset(it for it in space if is_true(at(a, it, signed), at(b, it, signed)))
            cases[compared(name, signed, 2, a, b)] = where
    distinct = {where: term for term, where in cases.items() if where}
    for (one, first), (other, second) in itertools.combinations(distinct.items(), 2):
        facts = Facts()
        facts.learn(first, True)
        if facts.decided(second) is None:
            facts.learn(second, True)
        for term, where in cases.items() if one & other else ():
            known = facts.decided(term)
            assert known is None or (one & other <= where if known else not one & other & where)
