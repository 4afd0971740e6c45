"""Runs two functions side by side on every path.

A function is a generator of events: `if`, a condition that it asks for; `fact`, one that its
compiler knows; `call`, `store`, `head` of a loop, `return`, and `dead`, where nothing goes on. The
two have the same facts, so that a path is one of both, and from `call` on their events are equal.

A loop is left by induction. Where its head is reached again, what differs between the two states
is replaced by new variables, equal for equal values on both sides; the path ends where a state is
one of those that these variables stand for, all of whose paths are run.
"""

import rust
from facts import Facts
from machine import Machine
from names import Differs, Names
from rattle import Body
from terms import Events, Term, Terms, is_lost, is_number, referred

PATHS, TURNS = 3000, 9

# Of a loop: its head in Rust, the cells of both sides there, the variables in them, and the turns.
Loop = tuple[int, dict[tuple[int, Term], Term], set[Term], int]

# The methods of traits that a reference has as what it refers to has them.
THROUGH = ("eq", "ne", "cmp", "partial_cmp", "hash", "lt", "le", "derived_fields")


def is_condition(term: Term) -> bool:
    return term[0] in ("eq", "lt", "not") or term[0] == "int" and term[2] == 1


def children(term: Term) -> Term:
    """Returns the parts of a term of which a loop may change some, and keeps the others."""
    if term[0] == "agg":
        parts: Term = term[2]
        return parts
    return term[3:] if term[0] == "slice" else term[2:] if term[0] in ("iter", "elem") else ()


def rebuilt(term: Term, parts: Terms) -> Term:
    """Returns a term with other parts."""
    if term[0] == "agg":
        return (*term[:2], tuple(parts))
    return (*term[: len(term) - len(parts)], *parts)


# Only a part that is known by its place is a pair of its own, so that what two terms that are
# alike have beside their parts is equal. Any other change is of the whole term.
def pairs(one: Term, other: Term) -> list[tuple[Term, Term]]:
    """Returns the pairs of the parts of two terms, or none if more than these parts differ."""
    parts = children(one), children(other)
    is_alike = len(parts[0]) == len(parts[1]) and rebuilt(one, parts[1]) == other
    return [*zip(*parts)] if is_alike else []


# Two cells, of either side, get one variable only if both had the same values in both turns; that
# they have the same in each turn is what `covers` requires. What a term refers to is not in it.
def general(one: Term, other: Term, variables: dict[Term, Term], prefix: Term) -> Term:
    """Returns a term that both are, for some values of the variables."""
    if one == other:
        return one
    parts = [general(a, b, variables, prefix) for a, b in pairs(one, other)]
    kind = "lost" if is_lost(one) or is_lost(other) else "fresh"
    new = (kind, *prefix, len(variables))
    return rebuilt(one, parts) if parts else variables.setdefault((one, other), new)


# By induction over turns: a state with values for the variables is one whose paths all are run.
# Equal terms do not suffice, since each variable must have one value, in parts of them too.
def covers(term: Term, other: Term, variables: set[Term], found: dict[Term, Term]) -> bool:
    """Returns whether a term is another one for some values of the variables."""
    if term in variables:
        return found.setdefault(term, other) == other
    parts = pairs(term, other)
    return all(covers(a, b, variables, found) for a, b in parts) if parts else term == other


class Path:
    def __init__(self, left: Body, right: rust.Body, names: Names, decisions: list[bool]) -> None:
        self.left, self.right, self.body, self.names = Machine(left), Machine(right), left, names
        self.facts, self.decisions, self.calls = Facts(), decisions, 0
        self.taken: list[bool] = []
        self.open: list[list[bool]] = []
        self.loops: dict[int, Loop] = {}

    def decide(self, term: Term) -> bool:
        if (known := self.facts.decided(term)) is not None:
            return known
        if len(self.taken) < len(self.decisions):
            choice = self.decisions[len(self.taken)]
        else:
            choice = True
            self.open.append([*self.taken, False])
        self.taken.append(choice)
        self.facts.learn(term, choice)
        return choice

    def advance(self, run: Events, answer: object) -> Term:
        event = run.send(answer)
        while event[0] in ("if", "fact"):
            if event[0] == "if":
                event = run.send(self.decide(event[1]))
            else:
                if self.facts.decided(event[1]) is None:
                    self.facts.learn(event[1], True)
                event = run.send(None)
        return event

    # Two terms of one form are equal if their parts are; terms of another form are equal only if
    # they are one term. A condition has two values, and each path has decided both sides' alike.
    def equal(self, x: object, y: object) -> bool:
        """Returns whether two terms are equal; of conditions, whether both are true or false."""
        if x == y or not (isinstance(x, tuple) and isinstance(y, tuple) and x and y):
            return x == y
        if is_number(x, y) or isinstance(x[0], tuple) or isinstance(y[0], tuple):
            return not is_number(x, y) and len(x) == len(y) and all(map(self.equal, x, y))
        if x[0] == y[0] == "fn":
            return self.names.are_one(x[1], y[1], self.body)
        if is_condition(x) or is_condition(y):
            return self.decide(x) == self.decide(y)
        is_whole = x[0] == y[0] and len(x) == len(y) and x[0] in ("agg", "&", "shown")
        return is_whole and all(map(self.equal, x[1:], y[1:]))

    def require(self, what: str, some: Term, others: Term) -> None:
        if len(some) != len(others) or not all(map(self.equal, some, others)):
            raise Differs(f"{what}: {some}\n        not {others}")

    def run(self) -> None:
        """Runs both to the end of the path; each event of one is that of the other."""
        left, right = self.left.run(), self.right.run()
        answer: Term | None = None
        while True:
            one, other = self.advance(left, answer), self.advance(right, answer)
            while one[0] == "call" and self.names.is_idle(one[1], other, self.body):
                self.calls += 1
                one = self.advance(left, ("idle", self.calls))
            if one[0] != other[0]:
                raise Differs(f"{one[0]} {one[1:]}\n        not {other[0]} {other[1:]}")
            if one[0] == "dead":
                return
            if extra := self.right.memory.checks - self.left.memory.checks:
                raise Differs(f"may panic in Rust alone: {extra}")
            answer = None
            if one[0] == "call":
                self.names.require(one[1], other[1], self.body)
                sides = [one[2], other[2]]
                if one[1][0] in THROUGH:
                    sides = [tuple(map(referred, it)) for it in sides]
                self.require(f"arguments of {one[1][0]}", *sides)
                answer, self.calls = ("ret", self.calls), self.calls + 1
            elif one[0] == "head":
                if self.is_closed(one[1], other[1]):
                    return
            else:
                self.require(one[0], one[1:], other[1:])
                if one[0] == "return":
                    return

    # All cells of both sides are compared, so that no place is left to what it had before; the
    # facts and checks of the path are of terms that later turns do not change.
    def is_closed(self, loop: int, head: int) -> bool:
        """Returns whether this state of a loop is one that is run already, and otherwise goes on
        with one that it and those before are, in the memory of both sides."""
        memories = self.left.memory, self.right.memory
        state = {(n, root): it for n, of in enumerate(memories) for root, it in of.cells.items()}
        at_head, before, variables, turns = self.loops.get(loop, (head, state, set(), 0))
        if at_head != head or turns > TURNS:
            raise Differs(f"a loop at {head}, turn {turns}")
        both = {}
        for n, root in before.keys() | state.keys():
            unset = memories[n].unset(root)
            both[n, root] = before.get((n, root), unset), state.get((n, root), unset)
        found: dict[Term, Term] = {}
        if turns and all(covers(a, b, variables, found) for a, b in both.values()):
            return True
        new: dict[Term, Term] = {}
        for (n, root), (a, b) in sorted(both.items(), key=repr):
            memories[n].cells[root] = state[n, root] = general(a, b, new, (loop, turns))
        self.loops[loop] = head, state, set(new.values()), turns + 1
        return False


def explore(left: Body, right: rust.Body, names: Names) -> None:
    """Runs both on every path."""
    names.require_types(left, right)
    todo: list[list[bool]] = [[]]
    count = 0
    while todo:
        path = Path(left, right, names, todo.pop())
        path.run()
        todo += path.open
        count += 1
        if count > PATHS:
            raise Differs("too many paths")
