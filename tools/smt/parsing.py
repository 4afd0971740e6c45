"""Parsing: for every text of any length, the nearest value, or the right error.

The three loops of the compiled function are cut at their heads, where an invariant holds. Its goals
are of integers, and of fractions as rationals."""

import ctypes
import random
import re
from collections.abc import Iterator
from contextlib import suppress
from typing import Any, NamedTuple

import z3
from z3 import ArithRef, BitVecRef, BoolRef

from arithmetic import Arithmetic
from rows.cases import FORMATS, Case

from decimals import (
    IS_DECIMAL, Text, e, expected, fraction, h, is_floor, n, s, text, whole, y, z,
)  # fmt: skip
from execution import Machine
from inputs import byte_of, run_library
from integers import Integers, signed
from ir import Function, Module
from memory import Object, Slice
from proof import SEARCH, Refused, Unknown, refute_known
from state import Goals, State, solved
from values import Address, Ended, Names, Number, Unsupported, Value, constant, extend
from values import is_constant, number_of


class Row(NamedTuple):
    """A function with its number of fraction bits and its least and greatest result. Of one that
    takes all three, f is given, and the others are unknown."""

    case: Case
    f: int
    range: tuple[int, int] | None

    @property
    def symbol(self) -> str:
        return self.case.symbol

    @property
    def name(self) -> str:
        return self.case.name + ("" if self.range else f", f = {self.f}")

    @property
    def is_literal(self) -> bool:
        """Whether it panics instead of an error."""
        return "::lit(" in self.case.name


# What a literal calls in order to panic, as rustc names it.
EXPECT_FAILED = re.compile(r"@_RNvNtCs\w+_4core6option13expect_failed")
STR = "unsafe { core::str::from_utf8_unchecked(text) }"
RESULT = """match {} {{ Ok(it) => it{} as u64 as u128,
    Err(DecimalFault::Syntax) => 1 << 64, Err(DecimalFault::OutOfRange) => 2 << 64 }}"""


def no_rule(*_: Any) -> None:
    """The definition above is the rule."""


def rows() -> Iterator[Row]:
    for T, w, f in FORMATS:
        limits = -(1 << w - 1), (1 << w - 1) - 1
        for i, (name, rust) in enumerate({
            f"{T}::from_decimal_bytes(text)": f"{T}::from_decimal_bytes(text)",
            f"{T}::from_decimal(text)": f"{T}::from_decimal({STR})",
            f"{T}: FromStr": f"<{T} as core::str::FromStr>::from_str({STR})",
            f"{T}::lit(text)": f"Ok::<_, DecimalFault>({T}::lit({STR}))",
        }.items()):  # fmt: skip
            body = RESULT.format(rust, ".to_bits()")
            case = Case(name, [("text", "bytes")], "u128", body, no_rule, True, f"parse{i}_{T}")
            yield Row(case, f, limits)


def of_each() -> Iterator[Row]:
    for name, of in (("read_decimal_bytes", "text"), ("read_decimal", STR)):
        parameters = [("text", "bytes"), ("f", "u32"), ("min", "i64"), ("max", "i64")]
        body = RESULT.format(f"{name}({of}, f, min, max)", "")
        case = Case(name, parameters, "u128", body, no_rule, True, f"parse_{name}")
        yield from (Row(case, f, None) for f in range(6, 31))


# Rows of each run, and rows of functions that take f.
ROWS, OF_EACH = list(rows()), list(of_each())


# Texts of each kind, and the numbers of fraction bits for which their facts were checked.
KNOWN = [b"", b"-", b"7", b"-1.5", b"1.", b".5", b"1x", b"1.x5", b"1.5x", b"-.", b"--1"]
KNOWN += [b"2." + b"3" * 40, b"2." + b"3" * 40 + b"x", b"-" + b"0" * 30 + b"9"]
CHECKED: set[int] = set()


def chosen(f: int, chance: random.Random) -> bytes:
    """Returns a text by chance: near a value, a tie or an edge of a range, and at times no decimal."""
    b = chance.getrandbits(chance.choice([1, 4, f, f + 4, 15, 31, 31, 63, 66]))
    b = (b & 1) + (1 << b.bit_length() - (b & 1)) if b and chance.random() < 0.3 else b
    numeral = (2 * b + chance.choice([-1, 1, 0])) * 5 ** (f + 1) + chance.choice([-1, 0, 0, 0, 1])
    digits = str(abs(numeral)).rjust(f + 2, "0")
    places = chance.choice([f + 1, f + 1, f + 1, chance.randrange(f + 2)])
    digits = digits[: len(digits) - f - 1] + "." + digits[len(digits) - f - 1 :][:places]
    digits += chance.choice(["", "", "0", "1", "0" * chance.randrange(40) + "1"])
    it = chance.choice(["", "", "-", "0", "-00"]) + digits.rstrip("." * chance.randrange(8))
    if chance.random() < 0.1:
        at = chance.randrange(len(it) + 1)
        it = it[:at] + chance.choice(".-+e/: \0") + it[at + chance.randrange(2) :]
    return it.encode() if chance.random() < 0.99 else b""


class Outcomes(Goals):
    """A literal panics on a path on which it has to."""

    def __init__(self, proof: "Parsing") -> None:
        super().__init__(proof.refute)
        self.proof = proof

    def panic(self, name: str, state: State) -> None:
        if not self.proof.row.is_literal or not EXPECT_FAILED.fullmatch(name):
            super().panic(name, state)
        self.proof.check(None, state.conditions)
        raise Ended


class Parsing:
    """The proof of one function: for every text it returns what it should, and nothing is
    undefined."""

    def __init__(self, module: Module, row: Row, library: ctypes.CDLL | None) -> None:
        self.module, self.row, self.library = module, row, library
        self.text, self.integers = Text(row.f + 1), Integers()
        self.arithmetic = Arithmetic()
        self.goals = self.agreed = 0
        # The most bytes of a text.
        self.longest = (1 << module.pointer - 1) - 1
        # Conditions by their identity, with what they are as those of integers.
        self.read: dict[int, tuple[BoolRef, list[BoolRef]]] = {}
        self.simple: dict[int, tuple[BoolRef, BoolRef]] = {}
        # By the identity of a term, what is true of the bytes and names in it, by their identities.
        self.facts: dict[int, tuple[Any, dict[int, BoolRef]]] = {}
        # By the last of them, conditions that exclude each other, and so do more. They are kept, so
        # that no other condition has the identity of one.
        self.excluded: dict[int, list[tuple[frozenset[int], list[BoolRef]]]] = {}
        # The units before the last turn of the loop over the places, and what is stored at a head.
        self.units: list[ArithRef] = []
        self.memory: dict[str, Any] = {}

    # ------------------------------------------------------------ texts that are known

    def judge(self, chance: random.Random, reads: bool) -> None:
        """Compares what the processor returns of a text with what it should, and with what the
        reader of the IR says. Raises `Refused` if they differ."""
        data, f = chosen(self.row.f, chance), self.row.f
        edges = -(2**63), 0, 2**20, 2**63 - 1
        low, high = self.row.range or sorted(chance.choices(edges, k=2))
        given: dict[str, int | bytes] = {"text": data, "f": f, "min": low, "max": high}
        at = f"at {data.decode()!r}" + ("" if self.row.range else f", {low} to {high}")
        right = expected(data, f, low, high)
        if reads:
            self.check_facts(data)
        if self.row.is_literal and right >> 64:
            return
        answer = right
        if self.library:
            answer, _ = run_library(self.library, self.row.case, given)
        if answer != right:
            raise Refused(f"the compiled Rust returns {answer:#x}, not {right:#x}, {at}")
        if reads or not self.library:
            given_text = Slice(constant(len(data)), 1, byte_of(data), True)
            memory: dict[str, Object] = {"text": given_text}
            size = Number(constant(len(data), self.module.pointer))
            others = self.others(constant(low), constant(high))
            arguments: list[Value] = [Address("text", constant(0)), size, *others]
            machine = Machine(self.module, Arithmetic(exact=True), Goals(refute_known))
            (end,) = machine.run(f"@{self.row.case.symbol}", arguments, memory, [])
            read = z3.simplify(number_of(end.value).bits).as_long()
            if read != answer:
                raise Refused(f"the reader says {read:#x}, not {answer:#x}, {at}")
            self.agreed += 1

    def check_facts(self, data: bytes) -> None:
        """The facts of a known text contradict nothing, and the definition is of its value."""
        places, (low, high) = range(len(data)), (-(2**63), 2**63 - 1)
        facts = [n == len(data), *(text(i) == data[i] for i in places), *self.text.facts()]
        facts += [self.text.facts_at(z3.IntVal(i)) for i in places]
        m = whole(e) * 2**self.row.f + (h + 1) / 2
        b = z3.If(s == 1, -m, m)
        fits = z3.If(z3.And(low <= b, b <= high), z3.If(b < 0, b + 2**64, b), 2 << 64)
        answer = z3.If(IS_DECIMAL, fits, 1 << 64)
        wrong = answer != expected(data, self.row.f, low, high)
        if solved(facts) != z3.sat or solved([*facts, wrong]) != z3.unsat:
            raise Unknown(f"the facts are false of {data!r}")

    def others(self, low: BitVecRef, high: BitVecRef) -> list[Value]:
        given = constant(self.row.f, 32), low, high
        return [] if self.row.range else [Number(it) for it in given]

    def sample(self, turns: int) -> None:
        chance = random.Random(self.row.name)
        for data in KNOWN if self.row.f not in CHECKED else ():
            self.check_facts(data)
        CHECKED.add(self.row.f)
        for _ in range(turns):
            self.judge(chance, True)

    def search(self) -> None:
        """Looks for a text of which the function is wrong."""
        chance = random.Random(0)
        for _ in range(5 * SEARCH):
            self.judge(chance, False)

    # ------------------------------------------------------------ goals

    def keep(self, key: BoolRef, found: list[BoolRef]) -> list[BoolRef]:
        """Keeps conditions of integers, with what is true of the bytes and names in them."""
        found += dict(fact for it in found for fact in self.about(it).items()).values()
        self.read[key.get_id()] = key, found
        return found

    def about(self, it: Any) -> dict[int, BoolRef]:
        """Returns what is true of the bytes and names in a term."""
        if it.get_id() not in self.facts:
            parts, known = it.children(), dict[int, BoolRef]()
            for part in parts:
                known |= self.about(part)
            if it.decl().eq(text):
                known[it.get_id()] = self.text.facts_at(parts[0])
            elif not parts and (bounds := self.integers.bounds.get(it.decl().name())):
                known[it.get_id()] = z3.And(bounds[0] <= it, it <= bounds[1])
            self.facts[it.get_id()] = it, known
        return self.facts[it.get_id()][1]

    def premises(self, conditions: list[BoolRef]) -> list[BoolRef]:
        """Returns conditions as those of integers. One that is not read is left out."""
        found = list(self.always)
        for it in [*conditions, *self.arithmetic.facts]:
            if it.get_id() not in self.read:
                read = []
                with suppress(Unsupported):
                    read.append(self.integers.truth(self.settled(it)))
                self.keep(it, read)
            found += self.read[it.get_id()][1]
        return found

    def refute(self, why: str, conditions: list[BoolRef]) -> None:
        """Shows that the conditions exclude each other."""
        self.goals += 1
        if any(z3.is_false(self.settled(it)) for it in conditions):
            return
        every = {it.get_id() for it in conditions}
        if any(it <= every for it, _ in self.excluded.get(conditions[-1].get_id(), ())):
            return
        answer = solved(self.premises(conditions))
        if answer != z3.unsat:
            self.search()
            raise Unknown(f"{why}: the solver says {answer}, and no text is known that shows it")
        found = self.excluded.setdefault(conditions[-1].get_id(), [])
        found.append((frozenset(every), list(conditions)))

    def settled(self, it: BoolRef) -> BoolRef:
        if it.get_id() not in self.simple:
            self.simple[it.get_id()] = it, z3.simplify(it)
        return self.simple[it.get_id()][1]

    def of_integers(self, condition: BoolRef) -> BoolRef:
        self.keep(condition, [condition])
        return condition

    # ------------------------------------------------------------ loops

    def is_head(self, function: Function, block: str) -> bool:
        return bool(function.turns(block))

    def names(self, function: Function, values: Names) -> tuple[str, str, str]:
        """Returns which loop it is, and the names of the index and of the other value of a turn.
        They are guessed: a wrong guess has a false invariant. The loop of the later places has the
        index alone, which then is both."""
        if len(values) == 1:
            (name,) = values
            return "late", name, name
        if len(values) != 2:
            raise Unsupported(f"a loop of {list(values)}")
        for name, other in (list(values), list(values)[::-1]):
            at = number_of(values[name]).bits
            if not is_constant(at):
                return "kept", name, other
            lines = (it for block in function.blocks.values() for it in block)
            if any(it.op == "getelementptr" and it.text.endswith(f" {name}") for it in lines):
                return "whole", name, other
        raise Unsupported(f"a loop of {list(values)}")

    def invariant(self, loop: str, index: ArithRef, value: ArithRef) -> BoolRef:
        """What holds before a turn. The whole so far is exact, or at a limit; of the later places,
        all so far are digits; half units are of the places from the index on."""
        first, late, cut = self.text.first, self.text.late, self.text.cut
        if loop == "whole":
            exact, most = whole(s + index), self.most(loop)
            least = value == z3.If(exact < most, exact, most)
            return z3.And(0 <= index, s + index < n, s + index <= e, 0 <= exact, least)
        if loop == "late":
            return z3.And(0 <= index, late + index < n, late + index <= z, value == index)
        floor = is_floor(value, 2**self.text.places * fraction(first + index, cut))
        fits = z3.And(0 <= value, value <= self.most(loop))
        return z3.And(1 <= index, first + index <= cut, y <= first + index, floor, fits)

    def most(self, loop: str) -> int:
        """Returns a number that the value of a turn never exceeds."""
        if loop == "whole":
            return int(2 ** (63 - self.row.f)) + 1
        return self.longest if loop == "late" else int(2**self.text.places) - 1

    def at_head(self, function: Function, block: str, values: Names, state: State) -> Names | None:
        """Before the first turn, shows the invariant and returns any values that meet it. After a
        turn, shows that the values meet it again, and that the turn goes on."""
        key = f"loop {block}"
        if state.visits[block] > 1:
            loop, name, other, memory = self.heads[state.visits[key]]
        else:
            loop, name, other = self.names(function, values)
            memory = dict(state.memory)
        numbers = [number_of(values[it]) for it in (name, other)]
        self.refute("poison in a loop", [*state.conditions, z3.Or([it.poison for it in numbers])])
        now = [self.integers.number(z3.simplify(it.bits)) for it in numbers]
        wrong = self.of_integers(z3.Not(self.invariant(loop, *now)))
        self.refute(f"the invariant of the loop `{loop}`", [*state.conditions, wrong])
        if state.visits[block] > 1:
            # Of integers, because an index of few bits may wrap.
            before = self.integers.number(z3.simplify(number_of(state.names[name]).bits))
            by = -1 if loop == "kept" else 1
            stays = self.of_integers(now[0] != before + by)
            self.refute("a turn of a loop does not go on", [*state.conditions, stays])
            same = [state.memory.get(it) is known for it, known in memory.items()]
            if len(same) != len(state.memory) or not all(same):
                raise Unsupported("a loop that stores")
            return None
        state.visits[key] = len(self.heads)
        self.heads.append((loop, name, other, memory))
        return self.any_turn(loop, name, other, numbers, state)

    def any_turn(
        self, loop: str, name: str, other: str, numbers: list[Number], state: State
    ) -> Names:
        kinds = (f"{it}{len(self.heads)}" for it in ("index", "value"))
        unknown = [z3.BitVec(it, number.bits.size()) for it, number in zip(kinds, numbers)]
        for it, most in zip(unknown, (self.longest, self.most(loop))):
            self.integers.bounds[str(it)] = 0, most
        now = [self.integers.number(it) for it in unknown]
        state.conditions.append(self.of_integers(self.invariant(loop, *now)))
        if loop == "kept":
            self.units.append(now[1])
        return {name: Number(unknown[0]), other: Number(unknown[1])}

    # ------------------------------------------------------------ the function

    def run(self) -> None:
        """Proves the function, or raises why not."""
        self.heads: list[tuple[str, str, str, dict[str, Any]]] = []
        width = self.module.pointer
        self.integers.bounds["n"] = 0, self.longest
        self.always = self.keep(z3.BoolVal(True), self.text.facts())
        short, (low, high) = z3.BitVec("n", width), z3.BitVecs("min max", 64)
        length = extend(False, 64, short)
        byte = z3.Function("text", z3.BitVecSort(64), z3.BitVecSort(8))
        machine = Machine(self.module, self.arithmetic, Outcomes(self), self)
        self.memory = {**machine.globals, "text": Slice(length, 1, byte, True)}
        arguments: list[Value] = [Address("text", constant(0)), Number(short)]
        arguments += self.others(low, high)
        at, is_met = f"@{self.row.case.symbol}", False
        for end in machine.run(at, arguments, {"text": self.memory["text"]}, []):
            self.check(number_of(end.value), end.conditions)
            is_met = is_met or solved(self.premises(end.conditions)) == z3.sat
        if not is_met:
            raise Unknown("no text is known for which it returns")

    def check(self, result: Number | None, conditions: list[BoolRef]) -> None:
        """Shows that what a path returns is right, or that a panic is."""
        refused, bits, m = z3.BoolVal(True), z3.IntVal(0), z3.Int("m")
        if result:
            self.refute("the result is poison", [*conditions, result.poison])
            bits = self.integers.number(z3.simplify(result.bits))
            refused = bits == 2 << 64
        b, unknown = z3.If(s == 1, -m, m), [z3.BitVec(it, 64) for it in ("min", "max")]
        low, high = self.row.range or [signed(self.integers.number(it), 64) for it in unknown]
        stored = bits == z3.If(b < 0, b + 2**64, b)
        right = z3.If(z3.And(low <= b, b <= high), stored if result else False, refused)
        # By HALVES, `m` is the nearest number of units.
        given = [IS_DECIMAL, m == whole(e) * 2**self.row.f + (h + 1) / 2]
        goals = [
            ("an error for a decimal", [IS_DECIMAL, bits == 1 << 64]),
            ("no error for another text", [z3.Not(IS_DECIMAL), bits != 1 << 64]),
        ]
        here = set[int]().union(*map(self.about, self.premises(conditions)))
        for units in self.units:
            if units.get_id() in here:
                last = h == ((text(e + 1) - ord("0")) * 2**self.text.places + units) / 10
                goals.append(("the half units are wrong", [IS_DECIMAL, z3.Not(last)]))
                given.append(last)
        goals = goals if result else goals[2:]
        for why, parts in [*goals, ("a wrong value", [*given, z3.Not(right)])]:
            self.refute(why, [*conditions, *map(self.of_integers, parts)])
