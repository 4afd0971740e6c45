"""A path through a function, and what must not hold on it."""

from __future__ import annotations

import re
import subprocess
from collections import Counter
from collections.abc import Callable, Iterable
from typing import TYPE_CHECKING, Any, NamedTuple

import z3
from z3 import BoolRef

from integers import subterms
from values import YES, Ended, Names, settle

if TYPE_CHECKING:
    from memory import Object

# What the solver may spend on one goal, and on a goal without facts, in steps that it counts: so a
# verdict does not depend on the machine, nor on what else it does.
LIMIT, SOON, QUICK = 500_000_000, 20_000_000, 1_000_000
# The command of another solver, or nothing, and how often it gave each answer.
SECOND, ANSWERS = list[str](), Counter[str]()
# For the other solver: terms with what Z3 makes of each; that a term of simple parts differs from
# it, of bits and of integers; and of how many terms it is asked at once.
SIMPLIFY, TERMS = z3.simplify, 16
SIMPLE = dict[int, tuple[Any, Any]]()
MADE = (dict[tuple[int, int], BoolRef](), dict[tuple[int, int], BoolRef]())


class Disagreement(Exception):
    """The other solver does not read what Z3 refutes, or says that it can be met."""


def ask(conditions: Iterable[BoolRef]) -> None:
    """Asks the other solver of conditions that exclude each other, before Z3 simplifies them."""
    if SECOND:
        solver = z3.Solver()
        solver.add(*conditions)
        # No other solver knows an `or` of nothing, a sum of one number, or a `bvudiv_i`.
        text = re.sub(r"(?<=[ \n])or(?=[ )])", "false", "(set-logic ALL)\n" + solver.to_smt2())
        text = re.sub(r"\b(bv[us](?:div|rem))_i\b|\(\+ (\w+)\)", r"\1\2", text)
        done = subprocess.run(SECOND, input=text, capture_output=True, text=True)
        answer = done.stdout.partition("\n")[0]
        if answer == "sat" or answer.startswith("(error"):
            raise Disagreement(f"{SECOND[0]} says {answer} of\n{text}")
        ANSWERS[answer] += 1


def simplify(term: Any) -> Any:
    """Simplifies, and keeps what was done, which takes the place of `z3.simplify`. A term is equal
    to what was made of it if each of its parts is, and the term of the simple parts is."""
    found = SIMPLIFY(term)
    ahead = [term]
    while ahead:
        it = ahead[-1]
        new = [part for part in it.children() if part.get_id() not in SIMPLE]
        ahead += new
        if not new:
            ahead.pop()
            keep(it, found if it.eq(term) else SIMPLIFY(it))
    return found


def keep(term: Any, found: Any) -> None:
    """Keeps what Z3 made of a term, of which the parts are kept."""
    of_parts = z3.substitute(term, *(SIMPLE[it.get_id()] for it in term.children()))
    SIMPLE.setdefault(term.get_id(), (term, found))
    if not found.eq(of_parts):
        is_of_bits = any(map(z3.is_bv, subterms([of_parts])))
        MADE[is_of_bits].setdefault((of_parts.get_id(), found.get_id()), of_parts != found)


def ask_simplified() -> None:
    """Asks of all that was simplified. A name may be of bits in one term and of integers in another."""
    for made in MADE:
        terms = [*made.values()]
        for start in range(0, len(terms), TERMS):
            ask([z3.Or(terms[start : start + TERMS])])
        made.clear()
    SIMPLE.clear()


def undecided(answers: Counter[str] = ANSWERS) -> str:
    """Says how often the other solver gave no answer."""
    count = answers.total() - answers["unsat"]
    return f", {count} not decided by the other solver" if count else ""


def use_second(command: list[str]) -> None:
    SECOND.extend(command)
    if command:
        z3.simplify = simplify


class State(NamedTuple):
    """Where a path is: before an instruction of a block, which it came to from another block. It
    has the values of names, the memory, the conditions under which it is taken, and how often it
    came to each block."""

    block: str
    at: int
    before: str
    names: Names
    memory: dict[str, "Object"]
    conditions: list[BoolRef]
    visits: dict[str, int]

    def copy(self) -> State:
        copies = dict(self.names), dict(self.memory), list(self.conditions), dict(self.visits)
        return State(self.block, self.at, self.before, *copies)


def solved(conditions: Iterable[BoolRef]) -> Any:
    """Returns what the solver says of conditions."""
    # Most are small, for which the solver without tactics is faster.
    every = list(conditions)
    for solver, limit in ((z3.SimpleSolver(), QUICK), (z3.Solver(), LIMIT)):
        solver.set("rlimit", limit)
        solver.add(*every)
        if (answer := solver.check()) != z3.unknown:
            break
    if answer == z3.unsat:
        ask(every)
    return answer


class Goals:
    """Calls `refute` for each list of conditions that must exclude each other, with the reason."""

    def __init__(self, refute: Callable[[str, list[BoolRef]], None]) -> None:
        self.refute = refute

    def possible(self, conditions: list[BoolRef]) -> bool:
        """Returns whether the conditions may be met."""
        return bool(solved(conditions) != z3.unsat)

    def excluded(self, conditions: list[BoolRef]) -> bool:
        """Returns whether the solver of bits soon finds that the conditions exclude each other."""
        solver = z3.SolverFor("QF_UFBV")
        solver.set("rlimit", SOON)
        solver.add(*conditions)
        if solver.check() != z3.unsat:
            return False
        ask(conditions)
        return True

    def check(self, why: str, condition: BoolRef, state: State) -> None:
        """The condition must not hold on the path."""
        condition = settle(condition)
        if z3.is_true(condition):
            self.bad(why, state)
        if not z3.is_false(condition):
            self.refute(f"undefined behavior: {why}", state.conditions + [condition])

    def bad(self, why: str, state: State) -> None:
        """The path must not be possible, and ends here."""
        self.refute(f"undefined behavior: {why}", state.conditions + [YES])
        raise Ended

    def panic(self, name: str, state: State) -> None:
        self.refute(f"panic in {name}", state.conditions + [YES])
        raise Ended
