"""Printing: for every value, the shortest decimal.

The compiled function is followed path by path: a path knows how many digits the whole and the
fraction have. Its goals are of integers: each quotient by a number that is known, and its
remainder, has a name, so that all is linear."""

import ctypes
import random
from collections.abc import Iterator
from typing import Any, NamedTuple

import z3
from z3 import ArithRef, BitVecRef, BoolRef

from arithmetic import Arithmetic
from execution import Machine
from integers import signed, subterms
from ir import Module
from linear import Linear
from memory import NOTHING, Cells
from proof import SEARCH, Refused, Unknown, refute_known
from rows.row import FORMATS
from state import Goals, solved
from values import Address, Number, Unsupported, Value, constant, is_constant, number_of, settle

# More than the longest text has.
ROOM = 32

# ---------------------------------------------------------------- what the shortest decimal is

# A value is `bits` / 2^f. Its magnitude is whole + rest / 2^f, where rest < 2^f.
whole, rest = z3.Ints("whole rest")


def parses(numeral: ArithRef, ten: int, f: int) -> BoolRef:
    """whole + numeral / ten is read as whole + rest / 2^f: that is the nearest value, and of two
    the greater."""
    twice, once = 2 * 2**f * numeral, 2 * ten * rest
    return z3.And(once <= twice + ten, twice < once + ten)


def is_nearest(numeral: ArithRef, ten: int, f: int) -> BoolRef:
    """numeral / ten is the nearest to rest / 2^f of all such quotients, and of two the greater."""
    found, exact = 2 * 2**f * numeral, 2 * ten * rest
    return z3.And(exact < found + 2**f, found <= exact + 2**f)


def lemmas() -> Iterator[tuple[str, BoolRef]]:
    """`parses` is of the numerals in an interval around the value x, in units of the last place. If
    any is in it, then so is the first below x or the first above."""
    m, first, x, half = z3.Reals("m first x half")

    def inside(it: ArithRef) -> BoolRef:
        return z3.And(x - half <= it, it < x + half)

    integers = z3.Or(m <= first, m >= first + 1)
    given = z3.And(half > 0, first <= x, x < first + 1, integers, inside(m))
    yield "NEIGHBORS", z3.Implies(given, z3.Or(inside(first), inside(first + 1)))


def shortest(bits: int, f: int) -> str:
    """The same of a value that is known. If a numeral of so many digits parses back, the nearest
    does."""
    size, places, numeral = abs(bits), 0, 0
    while True:
        numeral = (2 * size * 10**places + (1 << f)) // (2 << f)
        if ((numeral << f + 1) + 10**places) // (2 * 10**places) == size:
            break
        places += 1
    digits = str(numeral).rjust(places + 1, "0")
    fraction = "." + digits[-places:] if places else ""
    return "-" * (bits < 0) + digits[: len(digits) - places] + fraction


# ---------------------------------------------------------------- the functions

WRAPPER = """
#[unsafe(no_mangle)] pub unsafe extern "C" fn {symbol}({parameters}, out: *mut u8) -> usize {{
    let decimal = {call};
    let text = decimal.as_str().as_bytes();
    // Checked, `copy_nonoverlapping` would compare two addresses that are unknown, on each path.
    unsafe {{ core::ptr::copy(text.as_ptr(), out, text.len()) }};
    text.len()
}}
"""


class Row(NamedTuple):
    """A function, the type of its bits, and its number of fraction bits, which is a parameter of
    one that takes it."""

    name: str
    symbol: str
    call: str
    width: int
    f: int
    takes_f: bool

    @property
    def wrapper(self) -> str:
        parameters = f"bits: i{self.width}" + ", f: u32" * self.takes_f
        return WRAPPER.format(symbol=self.symbol, parameters=parameters, call=self.call)


ROWS = [
    Row(f"{T}::to_decimal", f"print_{T}", f"{T}::from_bits(bits).to_decimal()", w, f, False)
    for T, w, f in FORMATS
]
OF_EACH = [
    Row(f"Shortest::new, f = {f}", "print_any", "Shortest::new(bits, f)", 64, f, True)
    for f in range(31)
]


class Apart(Arithmetic):
    """The magnitude of the bits is of two numbers, the whole and the rest."""

    def __init__(self, bits: BitVecRef, f: int) -> None:
        super().__init__()
        self.bits, self.f = bits, f

    def magnitude(self, bits: BitVecRef) -> BitVecRef:
        of = bits.arg(0) if z3.is_app_of(bits, z3.Z3_OP_SIGN_EXT) else bits
        if not of.eq(self.bits):
            raise Unsupported(f"the magnitude of {bits}")
        high = z3.BitVec("whole", bits.size() - self.f)
        size = z3.Concat(high, z3.BitVec("rest", self.f)) if self.f else high
        self.facts.append(size == z3.If(bits < 0, -bits, bits))
        return size


class Printed(Goals):
    def __init__(self, proof: "Printing") -> None:
        super().__init__(proof.refute)
        self.proof = proof

    def possible(self, conditions: list[BoolRef]) -> bool:
        """Returns whether the last condition may be met, as far as those that are of the same say."""
        *known, last = map(self.proof.premise, conditions)
        return bool(self.proof.solved(self.proof.related(known, last)) != z3.unsat)


class Printing:
    """The proof of one function. Conditions of the whole alone and of the rest alone are apart."""

    def __init__(self, module: Module, row: Row, library: ctypes.CDLL | None) -> None:
        self.module, self.row, self.library, self.f = module, row, library, row.f
        self.goals = self.agreed = 0
        self.bits = z3.BitVec("bits", row.width)
        self.integers, self.arithmetic = Linear(), Apart(self.bits, row.f)
        # |bits| is at most 2^(width - 1).
        most = 1 << row.width - 1 - row.f
        self.integers.bounds |= {"whole": (0, most), "rest": (0, 2**row.f - 1)}
        self.read: dict[int, tuple[BoolRef, BoolRef]] = {}
        self.known: dict[int, tuple[BoolRef, list[str]]] = {}
        self.groups: dict[int, frozenset[str]] = {}
        self.answers: dict[frozenset[int], Any] = {}

    # ------------------------------------------------------------ texts that are known

    def printed(self, bits: int) -> str:
        out = ctypes.create_string_buffer(ROOM)
        parameter = getattr(ctypes, f"c_int{self.row.width}")(bits)
        given = [parameter, ctypes.c_uint32(self.f)] if self.row.takes_f else [parameter]
        length = getattr(self.library, self.row.symbol)(*given, out)
        return out.raw[:length].decode("latin-1")

    def judge(self, chance: random.Random) -> int:
        """Compares what the processor prints of a value with what it should."""
        half = 1 << self.row.width - 1
        bits = chance.getrandbits(chance.randrange(1, self.row.width + 1))
        bits += chance.choice([-1, 0, 0, 1]) + chance.choice([0, 0, half])
        bits = (bits + half) % (2 * half) - half
        right = shortest(bits, self.f)
        text = self.printed(bits) if self.library else self.read_text(bits)
        if text != right:
            raise Refused(f"the compiled Rust prints {text}, not {right}, at {bits}")
        return bits

    def sample(self, turns: int) -> None:
        """Runs so many values by chance, also by the reader."""
        chance = random.Random(self.row.name)
        for _ in range(turns):
            bits = self.judge(chance)
            text, right = self.read_text(bits), shortest(bits, self.f)
            if text != right:
                raise Refused(f"the reader prints {text}, not {right}, at {bits}")
            self.agreed += 1

    def read_text(self, bits: int) -> str:
        """Returns what the function prints as the reader of the IR says."""
        machine = Machine(self.module, Arithmetic(exact=True), Goals(refute_known))
        (end,) = self.ends(machine, constant(bits, self.row.width))
        return "".join(chr(z3.simplify(it.bits).as_long()) for it in end[0])

    def search(self) -> None:
        """Looks for a value of which the function is wrong."""
        chance = random.Random(0)
        for _ in range(10 * SEARCH):
            self.judge(chance)

    def ends(
        self, machine: Machine, bits: BitVecRef
    ) -> Iterator[tuple[list[Number], list[BoolRef]]]:
        """Yields the bytes of the text that each path prints, and its conditions."""
        others: list[Value] = [Number(constant(self.f, 32))] if self.row.takes_f else []
        given = [Number(bits), *others, Address("out", constant(0))]
        room = Cells((None,) * ROOM, 1)
        for end in machine.run(f"@{self.row.symbol}", given, {"out": room}, []):
            size, out = number_of(end.value), end.memory["out"]
            if not is_constant(size.bits) or not isinstance(out, Cells):
                raise Unsupported("a text of unknown length")
            cells = out.cells[: size.bits.as_long()]
            numbers = [it if isinstance(it, Number) else NOTHING for it in cells]
            if not z3.is_false(settle(size.poison)):
                raise Unsupported("a length that may be poison")
            yield numbers, end.conditions

    # ------------------------------------------------------------ goals

    def integer(self, it: BoolRef) -> BoolRef:
        if it.get_id() not in self.read:
            is_bits = any(z3.is_bv(part) for part in subterms([it]))
            self.read[it.get_id()] = it, self.integers.truth(it) if is_bits else it
        return self.read[it.get_id()][1]

    def premise(self, it: BoolRef) -> BoolRef:
        """The same of a condition that is known. One that is not read is left out."""
        try:
            return self.integer(it)
        except Unsupported:
            return z3.BoolVal(True)

    def names(self, it: BoolRef) -> list[str]:
        if it.get_id() not in self.known:
            parts = (part.decl() for part in subterms([it]) if not part.num_args())
            found = [of.name() for of in parts if of.kind() == z3.Z3_OP_UNINTERPRETED]
            self.known[it.get_id()] = it, found
        return self.known[it.get_id()][1]

    def closed(self, conditions: list[BoolRef]) -> list[BoolRef]:
        """Returns conditions with what is true of the names in them."""
        found, seen = list(conditions), set[str]()
        for it in found:
            for name in self.names(it):
                if name not in seen:
                    seen.add(name)
                    found += self.integers.about(name)
        return found

    def group(self, it: BoolRef) -> frozenset[str]:
        """Returns of which of the bits, the whole and the rest a condition is."""
        if it.get_id() not in self.groups:
            names = {name for part in self.closed([it]) for name in self.names(part)}
            self.groups[it.get_id()] = frozenset(names - self.integers.defined.keys())
        return self.groups[it.get_id()]

    def solved(self, conditions: list[BoolRef]) -> Any:
        key = frozenset(it.get_id() for it in conditions)
        if key not in self.answers:
            self.answers[key] = solved(self.closed(conditions)), conditions
        return self.answers[key][0]

    def related(self, known: list[BoolRef], last: BoolRef) -> list[BoolRef]:
        """Returns a condition with those that are of nothing else than it is."""
        group = self.group(last)
        return [*(it for it in known if self.group(it) <= group), last]

    def refute(self, why: str, conditions: list[BoolRef]) -> None:
        """Shows that the conditions exclude each other. What is nowhere possible, as a panic, is
        excluded by the last condition of the path to it."""
        *known, last = [*map(self.premise, conditions[:-1]), conditions[-1]]
        while known and z3.is_true(last):
            *known, last = known
        self.exclude(why, known, last)

    def exclude(self, why: str, known: list[BoolRef], wrong: BoolRef) -> None:
        """Shows that a condition does not hold if others do. Those that are of what it is of are
        tried first."""
        self.goals += 1
        if z3.is_false(settle(wrong)):
            return
        goal = self.integer(wrong)
        if self.solved(self.related(known, goal)) == z3.unsat:
            return
        facts = map(self.premise, self.arithmetic.facts)
        if (answer := self.solved([*facts, *known, goal])) != z3.unsat:
            self.search()
            raise Unknown(f"{why}: the solver says {answer}, and no value is known that shows it")

    # ------------------------------------------------------------ the function

    def run(self) -> None:
        """Proves the function, or raises why not."""
        machine = Machine(self.module, self.arithmetic, Printed(self))
        # A sample of values has shown that paths return.
        is_met = self.agreed > 0
        for cells, conditions in self.ends(machine, self.bits):
            known = list(map(self.premise, conditions))
            self.check(cells, known)
            every = [*map(self.premise, self.arithmetic.facts), *known]
            is_met = is_met or self.solved(every) == z3.sat
        if not is_met:
            raise Unknown("no value is known for which it returns")

    def check(self, cells: list[Number], known: list[BoolRef]) -> None:
        """Shows that a path prints a decimal: perhaps a sign, a whole without a zero at its start,
        and perhaps a point and a fraction."""
        for it in cells:
            self.exclude("a byte is poison", known, it.poison)
        text = [self.integers.number(it.bits) for it in cells]
        b = signed(self.integers.number(self.bits), self.row.width)
        is_minus = bool(text) and z3.is_int_value(text[0]) and text[0].as_long() == ord("-")
        self.exclude("the sign is wrong", known, (b >= 0) if is_minus else (b < 0))
        text = text[is_minus:]
        is_point = [z3.is_int_value(it) and it.as_long() == ord(".") for it in text]
        point = is_point.index(True) if True in is_point else len(text)
        digits = [it - ord("0") for it in text]
        first, second = digits[:point], digits[point + 1 :]
        if not first or point == len(text) - 1:
            raise Unknown("a text without digits")
        for digit in first + second:
            self.exclude("a byte is no digit", known, z3.Not(z3.And(0 <= digit, digit <= 9)))
        if len(first) > 1:
            self.exclude("a leading zero", known, first[0] == 0)
        self.exclude("the whole is wrong", known, number(first) != whole)
        self.check_fraction(second, known)

    def check_fraction(self, digits: list[ArithRef], known: list[BoolRef]) -> None:
        """Shows that the decimal parses back, that it is the nearest of so many places, and that
        none with a place fewer parses back: so none with fewer, to which zeros could be added."""
        ten, n, first = 10 ** len(digits), z3.Int("numeral"), z3.Int("first")
        is_n = z3.And(n == number(digits), rest >= 0)
        for why, right in (
            ("it does not parse back", parses(n, ten, self.f)),
            ("it is not the nearest", is_nearest(n, ten, self.f)),
        ):
            self.exclude(why, known, z3.And(is_n, z3.Not(right)))
        if digits:
            less, is_first = ten // 10, z3.And(first == number(digits[:-1]), rest >= 0)
            scaled, one = rest * less, 2**self.f
            floor = z3.And(first * one <= scaled, scaled < (first + 1) * one)
            wrong = z3.And(is_first, z3.Not(floor))
            self.exclude("the first places are no floor", known, wrong)
            # By NEIGHBORS, if any numeral is, then so is one of these two.
            for it in (first, first + 1):
                wrong = z3.And(is_first, floor, parses(it, less, self.f))
                self.exclude("a shorter one parses back", known, wrong)


def number(digits: list[ArithRef]) -> ArithRef:
    places = range(len(digits) - 1, -1, -1)
    return z3.Sum([z3.IntVal(0), *(it * 10**place for it, place in zip(digits, places))])
