"""The proof of one function: for every argument, the result is right and nothing is undefined."""

import ctypes
import random
from typing import Any, Protocol

import z3
from z3 import BoolRef

from arithmetic import Arithmetic
from rows.cases import Case

from inputs import (
    ELEMENTS, Given, Inputs, byte_of, chosen, inputs, of_model, result_width, run_library, shown,
    shown_result, use_target,
)  # fmt: skip
from integers import Integers
from ir import Module
from loops import Loops
from execution import End, Machine
from memory import Slice
from rows.rules import Products, Text, check_widths, use_width
from state import LIMIT, QUICK, Disagreement, Goals, ask, ask_simplified
from values import Unsupported, constant, number_of

# How many arguments are tried, to find one that shows a fault.
SEARCH = 3000
# The most elements of a slice in an argument that is shown: a header has up to 20 bytes.
MOST = 24
WRONG, OUTSIDE = "wrong result", "out of bounds"


class Refused(Exception):
    """The function is wrong, with an argument that shows it."""


class Unknown(Exception):
    """The function is not proved."""


def refute_known(why: str, conditions: list[BoolRef]) -> None:
    """Refuses the function, if known arguments meet the conditions."""
    if z3.is_true(z3.simplify(z3.And(conditions))):
        raise Refused(why)


class Provable(Protocol):
    def sample(self, turns: int) -> None:
        ...

    def run(self) -> None:
        ...

    def search(self) -> None:
        ...


def fault_of(proof: Provable, turns: int = 3) -> str:
    """Returns why a function is not proved, or nothing."""
    try:
        proof.sample(turns)
        try:
            proof.run()
        except Unsupported:
            proof.search()
            raise
        ask_simplified()
    except Refused as error:
        return f"REFUSED: {error}"
    except Unknown as error:
        return f"not proved: {error}"
    except Unsupported as error:
        return f"not read: {error}"
    except Disagreement as error:
        return f"not agreed: {error}"
    return ""


class Proof:
    def __init__(self, module: Module, case: Case, library: ctypes.CDLL | None) -> None:
        """Without a library, the code is of another processor, and no argument is run by it."""
        self.module, self.case, self.library = module, case, library
        self.goals = self.asked = self.agreed = 0
        # No number of a rule has as many bits.
        has_64 = case.has("i64", "u64", "size", "room", "bytes")
        has_128 = case.has("i128", "terms") or "i128" in case.returns
        of_32 = 64 if case.name.startswith("Matrix") else 68
        use_target(module.pointer, module.is_big)
        use_width(200 if has_128 else 90 if has_64 else of_32)

    def run(self) -> None:
        """Proves the function, or raises why not."""
        self.arithmetic = Arithmetic()
        self.products = Products(self.arithmetic)
        self.given = inputs(self.case)
        # A sample of arguments without slices has shown that paths return, and that facts are true.
        is_met = self.agreed > 0 and not self.case.has(*ELEMENTS)
        goals = Goals(self.refute)
        self.rule()
        loops = Loops(goals, self.products) if self.products.asked else None
        machine = Machine(self.module, self.arithmetic, goals, loops)
        of_case = self.given.arguments, self.given.memory, self.given.conditions
        for end in machine.run(f"@{self.case.symbol}", *of_case):
            value = number_of(end.value)
            if loops:
                loops.define()
            if not self.module.functions[f"@{self.case.symbol}"].returns.noundef:
                self.refute("the result is poison", end.conditions + [value.poison])
            right = self.right(self.products, self.given, value.bits, end)
            for part in right:
                self.refute(WRONG, end.conditions + [z3.Not(part)])
            conditions = z3.And(end.conditions)
            is_met = is_met or self.solver(conditions, self.products.every()).check() == z3.sat
        if not is_met:
            raise Unknown("no argument is known for which it returns")
        check_widths([*self.rule(end), *(loops.define() if loops else [])], self.arithmetic)
        self.check_facts()

    def rule(self, end: End | None = None) -> list[Any]:
        """Returns the rule, of any result of a relation."""
        if not self.case.is_relation:
            return [self.case.rule(self.products, *self.given.of_rule)]
        result = z3.BitVec("result", result_width(self.case))
        return list(self.right(self.products, self.given, result, end))

    def right(
        self, products: Products, given: Inputs, result: Any, end: End | None = None
    ) -> list[BoolRef]:
        """Returns the rule's conditions of a result and of what the function leaves in a slice."""
        case, of_rule = self.case, list(given.of_rule)
        if not case.is_relation:
            expected = case.rule(products, *of_rule)
            expected = z3.ZeroExt(result.size() - expected.size(), expected)
            # Both numbers of a pair, and whether they are there, are goals of their own.
            size = 32 if case.returns == "?u64" else result.size()
            parts = [(i + size - 1, i) for i in range(0, result.size(), size)]
            return [z3.Extract(*it, expected) == z3.Extract(*it, result) for it in parts]
        if case.has("room"):
            memory = end.memory if end else given.memory
            after = [it for name, it in memory.items() if name in given.memory]
            of_rule += [
                Text(it.length, it.byte, it.length) for it in after if isinstance(it, Slice)
            ]
            of_rule.insert(-1, result)
        else:
            of_rule.append(result)
        return [case.rule(products, *of_rule)]

    def solver(self, goal: BoolRef, facts: list[BoolRef], limit: int = LIMIT) -> Any:
        solver = z3.SolverFor("QF_UFBV")
        solver.set("rlimit", limit)
        solver.add(goal, *facts)
        return solver

    def is_refuted(self, conditions: list[BoolRef]) -> bool:
        """Returns whether the conditions exclude each other, read as those of integers. With those
        of a loop over terms, facts would take long, and say nothing of an index."""
        every = [*conditions, *self.arithmetic.facts]
        premises = Integers().premises(
            map(z3.simplify, conditions) if self.products.asked else every
        )
        # A solver without tactics may not end.
        solver = z3.Solver()
        solver.set("rlimit", QUICK)
        solver.add(*premises)
        if solver.check() != z3.unsat:
            return False
        ask(premises)
        return True

    def refute(self, why: str, conditions: list[BoolRef]) -> None:
        """Shows that the conditions exclude each other."""
        self.goals += 1
        goal = z3.simplify(z3.And(conditions))
        if z3.is_false(goal):
            return ask(conditions)
        self.asked += 1
        # That an index is in bounds is shown of integers, because of bits it takes long.
        if OUTSIDE in why and self.is_refuted(conditions):
            return None
        # Most goals need no fact.
        if self.solver(goal, [], QUICK).check() == z3.unsat:
            return ask(conditions)
        if why != WRONG and OUTSIDE not in why and self.is_refuted(conditions):
            return None
        solver = self.solver(goal, self.products.every())
        answer = solver.check()
        if answer == z3.unsat:
            return ask([*conditions, *self.products.every()])
        if answer == z3.sat:
            for name, it in self.given.variables.items():
                solver.add(z3.ULE(it, MOST)) if name.endswith("_length") else None
            if solver.check() == z3.sat:
                self.judge(of_model(self.case, solver.model()))
        self.search()
        raise Unknown(f"{why}: the solver says {answer}, and no argument is known that shows it")

    # ------------------------------------------------------------ arguments that are known

    def judge(self, given: Given) -> None:
        """Runs the function on arguments, by the reader and by the processor. Raises `Refused` if
        they differ, or if a goal or the rule is false of the arguments."""
        found: list[str] = []

        def refute(why: str, conditions: list[BoolRef]) -> None:
            if z3.is_true(z3.simplify(z3.And(conditions))):
                found.append(why)

        products = Products(Arithmetic(exact=True))
        known = inputs(self.case, given)
        machine = Machine(self.module, products.arithmetic, Goals(refute))
        ends = list(machine.run(f"@{self.case.symbol}", known.arguments, known.memory, []))
        at = f"at {shown(self.case, given)}"
        for end in ends:
            refute("undefined behavior: the result is poison", [number_of(end.value).poison])
        if found:
            raise Refused(f"{found[0]} {at}")
        (end,) = ends
        read = z3.simplify(number_of(end.value).bits)
        if self.library is None:
            here = known._replace(memory={name: end.memory[name] for name in known.memory})
            self.compare(products, here, read.as_long(), at)
            return
        result, left = run_library(self.library, self.case, given)
        slices = {it: Slice(constant(len(data)), 1, byte_of(data)) for it, data in left.items()}
        same = read.eq(constant(result, read.size()))
        for name, data in left.items():
            it = end.memory[name]
            assert isinstance(it, Slice)
            same &= all(it.byte(constant(i)).eq(constant(byte, 8)) for i, byte in enumerate(data))
        if not same:
            raise Refused(f"the reader says {read}, and the processor {result}, {at}")
        self.compare(products, known._replace(memory={**slices}), result, at)

    def compare(self, products: Products, given: Inputs, result: int, at: str) -> None:
        width = result_width(self.case)
        wrong = z3.simplify(z3.Not(z3.And(self.right(products, given, constant(result, width)))))
        if not z3.is_false(wrong) and self.solver(wrong, []).check() != z3.unsat:
            raise Refused(f"the compiled code returns {shown_result(self.case, result)} {at}")

    def search(self) -> None:
        """Looks for arguments for which the function is wrong."""
        chance = random.Random(0)
        for _ in range(SEARCH):
            self.judge(chosen(self.case, chance))

    def sample(self, turns: int) -> None:
        """Runs so many arguments by chance."""
        chance = random.Random(self.case.name)
        for _ in range(turns):
            self.judge(chosen(self.case, chance))
            self.agreed += 1

    def check_facts(self) -> None:
        """The facts are true of the real products and quotients of some arguments."""
        chance = random.Random(self.case.name)
        for _ in range(3 if self.arithmetic.nodes else 0):
            given = chosen(self.case, chance)
            for name, of in self.case.parameters:
                it = given[name]
                if isinstance(it, bytes) and of in ELEMENTS:
                    given[f"{name}_length"] = len(it) // ELEMENTS[of][0]
            known = ((it, given.get(name)) for name, it in self.given.variables.items())
            values = [(it, constant(n, it.size())) for it, n in known if isinstance(n, int)]
            fact = self.arithmetic.contradicted(values)
            if fact is not None:
                raise Unknown(f"a fact is false at {shown(self.case, given)}: {fact}")
