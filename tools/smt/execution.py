"""Runs a function of LLVM's IR on unknown arguments, path by path.

A path ends in one of three ways: it returns, it has undefined behavior, or it panics. `Goals` has
to refute each condition under which it does one of the last two."""

import re
from collections.abc import Iterator, Sequence
from contextlib import suppress
from typing import NamedTuple, Protocol

import z3
from z3 import BitVecRef, BoolRef

import steps
from arithmetic import Arithmetic
from ir import LABEL, NAME, PHI, Attributes, Function, Instruction, Module
from ir import split_commas, take_attributes, take_type
from memory import Cells, Memory, Objects, globals_of
from state import Goals, State

from values import (
    NO, YES, Address, Ended, Names, Number, Unsupported, Value, any_of, constant, is_set, number_of,
    settle,
)  # fmt: skip

PANICS = re.compile(r"panic|unwrap_failed|expect_failed|slice_index|len_mismatch")
# What a call promises of its result, the name of the function, and the texts of the arguments.
Called = tuple[Attributes, str, list[str]]


class End(NamedTuple):
    """How a path returns."""

    value: Value
    memory: Objects
    conditions: list[BoolRef]


class Cuts(Protocol):
    """What knows the loops that are cut at their heads, where an invariant holds."""

    def is_head(self, function: Function, block: str) -> bool:
        """Returns whether a block is the head of a loop."""

    def at_head(self, function: Function, block: str, values: Names, state: State) -> Names | None:
        """Returns the values with which a path goes on at a head, or nothing after a turn."""


class Machine:
    def __init__(
        self, module: Module, arithmetic: Arithmetic, goals: Goals, loops: Cuts | None = None
    ) -> None:
        self.module, self.arithmetic, self.goals, self.loops = module, arithmetic, goals, loops
        self.memory = Memory(goals, module.is_big)
        self.globals = globals_of(module)
        self.count, self.pages = 0, dict[str, int]()
        self.owned: Objects = {}

    def name(self, kind: str) -> str:
        self.count += 1
        return f"{kind}{self.count}"

    def unknown(self, width: int) -> BitVecRef:
        return z3.BitVec(self.name("unknown"), width)

    def run(
        self, name: str, arguments: Sequence[Value], memory: Objects, conditions: list[BoolRef]
    ) -> Iterator[End]:
        """Yields what each path returns."""
        function = self.module.functions[name]
        if len(function.parameters) == len(arguments) + 1:
            yield from self.run_of_place(name, arguments, memory, conditions)
            return
        names: Names = {}
        first = next(iter(function.blocks))
        state = State(first, 0, "", names, {**self.globals, **memory}, list(conditions), {})
        for (_, attributes, parameter), argument in zip(function.parameters, arguments):
            names[parameter] = self.promised(argument, attributes, state)
        paths = [state]
        while paths:
            with suppress(Ended):
                yield from self.go_on(function, paths.pop(), paths)

    def run_of_place(
        self, name: str, arguments: Sequence[Value], memory: Objects, conditions: list[BoolRef]
    ) -> Iterator[End]:
        """Yields the 128 bits that a function stores where its first argument says (`sret`)."""
        place, room = Address(self.name("%result"), constant(0)), Cells((None,) * 16, 16)
        of_place: Objects = {**memory, str(place.object): room}
        for end in self.run(name, [place, *arguments], of_place, conditions):
            state = State("", 0, "", {}, end.memory, end.conditions, {})
            yield end._replace(value=self.memory.load("i128", place, 16, state))

    def promised(self, value: Value, attributes: Attributes, state: State) -> Value:
        """`range`, `nonnull` and `align` make another value poison. `noundef` makes poison
        undefined behavior."""
        if isinstance(value, list):
            kept = Attributes(noundef=attributes.noundef)
            return [self.promised(it, kept, state) for it in value]
        if isinstance(value, Number) and attributes.range:
            value = Number(value.bits, any_of(value.poison, out_of(attributes.range, value.bits)))
        if isinstance(value, Address) and attributes.nonnull:
            value = value._replace(poison=any_of(value.poison, self.may_be_null(value, state)))
        if isinstance(value, Address) and attributes.align > 1:
            wrong = value.offset & attributes.align - 1 != 0
            if value.object and self.memory.object(value, state).align < attributes.align:
                wrong = YES
            value = value._replace(poison=any_of(value.poison, settle(wrong)))
        if attributes.noundef:
            self.goals.check("`noundef` of poison", value.poison, state)
        return value

    def may_be_null(self, address: Address, state: State) -> BoolRef:
        """No object is at address zero, and none ends there."""
        if address.object is None:
            return settle(address.offset == 0)
        return settle(z3.UGT(address.offset, self.memory.object(address, state).length))

    def go_on(self, function: Function, state: State, paths: list[State]) -> Iterator[End]:
        """Runs a path to its end or to where it branches."""
        block = function.blocks[state.block]
        for index in range(state.at, len(block)):
            it = block[index]
            if it.op == "ret":
                value = self.value(*take_type(it.text), state)
                value = self.promised(value, function.returns, state)
                yield End(value, state.memory, state.conditions)
            elif it.op == "unreachable":
                self.goals.bad("`unreachable` is reached", state)
            elif it.op in ("br", "switch"):
                self.branch(function, it, state, paths)
            elif it.op == "call" and (called := self.called(it)):
                self.call(it, called, state._replace(at=index + 1), paths)
                return
            elif it.op == "select" and self.forks(it, state._replace(at=index + 1), paths):
                return
            elif it.op != "phi":
                result = steps.step(self, it, state)
                if result is not None:
                    state.names[it.target] = self.described(result, it, state)

    def forks(self, it: Instruction, state: State, paths: list[State]) -> bool:
        """Returns whether a `select` chooses between addresses of two objects. Then the path goes on
        in two, one for each."""
        choice, *both = (steps.operand(self, text, state) for text in split_commas(it.text))
        found = [one for one in both if isinstance(one, Address)]
        yes = is_set(number_of(choice).bits)
        is_known = z3.is_true(yes) or z3.is_false(yes)
        if is_known or len({one.object for one in found} - {None}) < 2:
            return False
        for one, condition in zip(found, (yes, z3.Not(yes))):
            path, poison = state.copy(), any_of(number_of(choice).poison, one.poison)
            path.conditions.append(condition)
            path.names[it.target] = one._replace(poison=poison)
            paths.append(path)
        return True

    def described(self, value: Value, it: Instruction, state: State) -> Value:
        """The metadata of a load or of a call: `!range` makes another value poison, `!noundef`
        makes poison undefined behavior."""
        known = {"range", "noundef", "nonnull", "alias.scope", "noalias", "prof", "nosanitize"}
        if it.metadata.keys() - known:
            raise Unsupported(f"metadata {it.metadata}")
        bounds = None
        if "range" in it.metadata:
            found = re.findall(r"i\d+ (-?\d+)", self.module.metadata[it.metadata["range"]])
            if len(found) != 2:
                raise Unsupported("a range of several parts")
            bounds = int(found[0]), int(found[1])
        kept = Attributes("noundef" in it.metadata, "nonnull" in it.metadata, bounds)
        return self.promised(value, kept, state)

    # ------------------------------------------------------------ branches

    def branch(self, function: Function, it: Instruction, state: State, paths: list[State]) -> None:
        """A branch or a switch on poison is undefined behavior."""
        labels = LABEL.findall(it.text)
        if it.op == "br" and len(labels) == 1:
            targets = {labels[0]: YES}
        elif it.op == "br":
            condition = number_of(self.value("i1", it.text[3:].split(",")[0], state))
            self.goals.check("a branch on poison", condition.poison, state)
            yes = is_set(condition.bits)
            targets = {labels[0]: yes, labels[1]: z3.Not(yes)}
            if labels[0] == labels[1]:
                targets = {labels[0]: YES}
        else:
            targets = self.switch(it, state)
        for label, condition in targets.items():
            condition = settle(condition)
            if not z3.is_false(condition):
                with suppress(Ended):
                    self.jump(function, label, condition, state, paths)

    def switch(self, it: Instruction, state: State) -> dict[str, BoolRef]:
        type_, rest = take_type(it.text)
        value = number_of(self.value(type_, rest.split(",")[0], state))
        self.goals.check("a switch on poison", value.poison, state)
        targets: dict[str, BoolRef] = {}
        others = []
        for number, label in re.findall(rf"i\d+ (-?\w+), label ({NAME})", it.text.split("[", 1)[1]):
            same = value.bits == number_of(self.value(type_, number, state)).bits
            targets[label] = z3.Or(targets.get(label, NO), same)
            others.append(z3.Not(same))
        default = LABEL.findall(it.text)[0]
        targets[default] = z3.Or(targets.get(default, NO), z3.And(others))
        return targets

    def jump(
        self, function: Function, target: str, condition: BoolRef, state: State, paths: list[State]
    ) -> None:
        """Goes on at a block, if the condition of the path can be met. The phis of a block read
        their values at once, before any of them has a new one."""
        state = state.copy()
        if not z3.is_true(condition):
            state.conditions.append(condition)
        state.visits[target] = state.visits.get(target, 0) + 1
        if state.visits[target] > 1 and not z3.is_true(condition):
            if not self.goals.possible(state.conditions):
                return
        if state.visits[target] > 400:
            raise Unsupported("a loop of more than 400 turns")
        phis = [it for it in function.blocks[target] if it.op == "phi"]
        values: Names = {it.target: self.phi(it, state) for it in phis}
        if self.loops and self.loops.is_head(function, target):
            found = self.loops.at_head(function, target, values, state)
            if found is None:
                return
            values = found
        names = {**state.names, **values}
        paths.append(state._replace(block=target, at=0, before=state.block, names=names))

    def phi(self, it: Instruction, state: State) -> Value:
        type_, rest = take_type(it.text)
        for text, block in PHI.findall(rest):
            if block == state.block:
                return self.value(type_, text, state)
        raise Unsupported(f"phi of {state.block}: {it.text}")

    # ------------------------------------------------------------ calls

    def called(self, it: Instruction) -> Called | None:
        """Returns the promises, the name and the arguments of a call but of an intrinsic."""
        returns, text = take_attributes(it.text)
        found = re.match(rf"({NAME})\((.*)\)$", take_type(text)[1])
        if not found:
            raise Unsupported(f"call {it.text}")
        if found[1].startswith("@llvm."):
            return None
        return returns, found[1], split_commas(found[2])

    def argument(self, text: str, state: State) -> Value:
        type_, rest = take_type(text)
        attributes, rest = take_attributes(rest)
        if attributes.byval:
            raise Unsupported(f"a copy of {rest}, which is passed")
        return self.promised(self.value(type_, rest, state), attributes, state)

    def call(self, it: Instruction, called: Called, state: State, paths: list[State]) -> None:
        returns, name, texts = called
        if PANICS.search(name) and name not in self.module.functions:
            self.goals.panic(name[-60:], state)
        values = [self.argument(text, state) for text in texts]
        if name in ("@bcmp", "@memcmp") and name not in self.module.functions:
            answer = self.promised(steps.compare_memory(self, name, values, state), returns, state)
            state.names[it.target] = self.described(answer, it, state)
            paths.append(state)
            return
        if name not in self.module.functions:
            raise Unsupported(f"call of {name}")
        for end in self.run(name, values, state.memory, state.conditions):
            # What the called function owned is not there any more.
            kept = {name: end.memory[name] for name in state.memory if name in end.memory}
            after = state._replace(memory=kept, conditions=end.conditions).copy()
            with suppress(Ended):
                value = self.promised(end.value, returns, after)
                after.names[it.target] = self.described(value, it, after)
                paths.append(after)

    # ------------------------------------------------------------ operands

    def value(self, type_: str, text: str, state: State) -> Value:
        """Returns an operand. `undef` is taken for poison, of which less is known."""
        if type_ == "void":
            return []
        if text[0] == "%":
            return state.names[text]
        if type_ == "ptr":
            return self.address(text, state)
        if type_[0] == "{":
            parts = split_commas(type_[1:-1])
            if text in ("poison", "undef"):
                return [self.value(part, text, state) for part in parts]
        if type_[0] != "i":
            raise Unsupported(f"{type_} {text}")
        width = int(type_[1:])
        if text in ("poison", "undef"):
            return Number(constant(0, width), YES)
        return Number(constant(int({"true": "1", "false": "0"}.get(text, text)), width))

    def address(self, text: str, state: State) -> Address:
        if text in ("null", "poison", "undef"):
            return Address(None, constant(0), NO if text == "null" else YES)
        if text[0] == "@":
            return Address(text, constant(0))
        if found := re.match(r"getelementptr (.*?)\((.*)\)$", text):
            return steps.element(self, found[1] + found[2], state)
        if found := re.match(r"inttoptr \(i(\d+) (-?\d+) to ptr\)$", text):
            return Address(None, constant(int(found[2]) & (1 << int(found[1])) - 1))
        raise Unsupported(f"address {text}")


def out_of(bounds: tuple[int, int], bits: BitVecRef) -> BoolRef:
    """`range(low, high)`: low and what follows it up to high, which is not in it; it may wrap."""
    low, high = (constant(it, bits.size()) for it in bounds)
    inside = z3.And if z3.is_true(z3.simplify(z3.ULT(low, high))) else z3.Or
    return z3.Not(inside(z3.UGE(bits, low), z3.ULT(bits, high)))
