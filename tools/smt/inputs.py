"""Arguments of a case, for the reader, for its rule and for the compiled library."""

import ctypes
import random
from collections.abc import Callable
from typing import Any, NamedTuple, Union

import z3
from z3 import BitVecRef, BoolRef

from rows.cases import Case
from memory import Object, Slice
from rows.rules import Text
from values import Address, Number, Value, constant

# Numbers by the name of a parameter; of a slice, its bytes.
Given = dict[str, Union[int, bytes]]

# Of how many bits an address and a length are, and whether the first byte of a number is the
# highest.
POINTER, IS_BIG = 64, False

# The size and the alignment of an element of a slice.
ELEMENTS = {"bytes": (1, 1), "room": (1, 1), "terms": (8, 4), "coordinates": (2, 2)}


class Inputs(NamedTuple):
    """What the machine gets, what the rule gets, and the variables that stand for numbers."""

    arguments: list[Value]
    memory: dict[str, Object]
    conditions: list[BoolRef]
    of_rule: list[Any]
    variables: dict[str, BitVecRef]


def use_target(pointer: int, is_big: bool) -> None:
    global POINTER, IS_BIG
    POINTER, IS_BIG = pointer, is_big


def width_of(type_: str) -> int:
    if type_ == "size":
        return POINTER
    return 1 if type_ == "bool" else int(type_[1:])


def byte_of(data: bytes) -> Callable[[BitVecRef], BitVecRef]:
    def byte(at: BitVecRef) -> BitVecRef:
        found = constant(0, 8)
        for i, it in enumerate(data):
            found = z3.If(at == i, constant(it, 8), found)
        return z3.simplify(found)

    return byte


def inputs(case: Case, given: Given | None = None) -> Inputs:
    """Returns unknown arguments, or those that are given. A slice is at most 2^63 - 1 bytes, or
    2^31 - 1 of a target of 32 bits. A `size` has the bits of a length, and 64 for the rule."""
    made = Inputs([], {}, [], [], {})
    for name, type_ in case.parameters:
        value = given[name] if given is not None else None
        if type_ in ELEMENTS:
            slice_of(made, name, type_, value)
            continue
        bits = z3.BitVec(name, width_of(type_))
        if value is None:
            made.variables[name] = bits
        else:
            number = int.from_bytes(value, "little") if isinstance(value, bytes) else value
            bits = constant(number, bits.size())
        made.arguments.append(Number(bits))
        made.of_rule.append(z3.ZeroExt(64 - POINTER, bits) if type_ == "size" else bits)
    return made


def slice_of(made: Inputs, name: str, type_: str, value: int | bytes | None) -> None:
    size, align = ELEMENTS[type_]
    if isinstance(value, bytes):
        count, byte = constant(len(value) // size), byte_of(value)
    else:
        count = made.variables[f"{name}_length"] = z3.BitVec(f"{name}_length", 64)
        byte = z3.Function(name, z3.BitVecSort(64), z3.BitVecSort(8))
        made.conditions.append(z3.ULE(count, ((1 << POINTER - 1) - 1) // size))
    text = Text(z3.simplify(count * size), byte, count, IS_BIG)
    # Only a room is behind `&mut`.
    made.memory[name] = Slice(text.length, align, byte, type_ != "room")
    passed = z3.simplify(z3.Extract(POINTER - 1, 0, count))
    made.arguments.extend([Address(name, constant(0)), Number(passed)])
    made.of_rule.append(text)


def of_model(case: Case, model: Any) -> Given:
    """Returns the arguments of a model of the solver."""
    given: Given = {}
    for name, type_ in case.parameters:
        if type_ not in ELEMENTS:
            given[name] = model.eval(z3.BitVec(name, width_of(type_)), True).as_long()
            continue
        count = model.eval(z3.BitVec(f"{name}_length", 64), True).as_long()
        byte = z3.Function(name, z3.BitVecSort(64), z3.BitVecSort(8))
        offsets = range(count * ELEMENTS[type_][0])
        given[name] = bytes(model.eval(byte(constant(at)), True).as_long() for at in offsets)
    return given


def chosen(case: Case, chance: random.Random) -> Given:
    """Returns arguments by chance: at an edge, near a power of two, short, or any."""
    given: Given = {}
    for name, type_ in case.parameters:
        if type_ in ELEMENTS:
            letters = [0, 0x1F, 0x20, 0x41, 0x7E, 0x7F, 0xFF, chance.getrandbits(8)]
            counts = [0, 1, 2] if type_ == "coordinates" else [0, 1, 2, 3, 4, 5, 6, 9, 12]
            count = chance.choice(counts) * ELEMENTS[type_][0]
            given[name] = bytes(chance.choices(letters, k=count))
            continue
        width = width_of(type_)
        half = 1 << width // 2
        edge = chance.choice([0, 1, half >> 1, half, 1 << width - 1, 1 << chance.randrange(width)])
        short = chance.getrandbits(chance.randrange(1, width + 1))
        near = edge + chance.choice([-1, 0, 0, 1])
        pick = chance.choice([near, short, chance.getrandbits(width)])
        pick = chance.randrange(8) if name == "at" else pick
        given[name] = (pick if chance.random() < 0.5 else -pick) & (1 << width) - 1
    return given


def shown(case: Case, given: Given) -> str:
    parts = []
    for name, type_ in case.parameters:
        value = given[name]
        if isinstance(value, int) and type_[0] == "i" and value >> width_of(type_) - 1:
            value -= 1 << width_of(type_)
        parts.append(f"{name} = {value!r}")
    return ", ".join(parts)


def result_width(case: Case) -> int:
    type_ = case.returns
    if type_[0] == "?":
        return 2 * int(type_[2:])
    if type_[0] == "[":
        return 32 if type_ == "[3]" else 8 * int(type_[1:-1])
    return width_of(type_)


def shown_result(case: Case, result: int) -> str:
    width = result_width(case)
    if case.returns[0] == "?":
        half = width // 2
        return f"Some({result & (1 << half) - 1:#x})" if result >> half else "None"
    negative = case.returns[0] == "i" and result >> width - 1
    return str(result - (1 << width) if negative else result)


class Numbers:
    """A row of numbers of 128 bits, at an address that is a multiple of 16."""

    def __init__(self, count: int) -> None:
        self.memory = (ctypes.c_uint64 * (2 * count + 2))()
        self.address = -(-ctypes.addressof(self.memory) // 16) * 16
        self.row = (ctypes.c_uint64 * (2 * count)).from_address(self.address)

    def put(self, index: int, number: int) -> None:
        for i in range(2):
            self.row[2 * index + i] = number >> 64 * i & (1 << 64) - 1


def run_library(library: ctypes.CDLL, case: Case, given: Given) -> tuple[int, dict[str, bytes]]:
    """Returns what the compiled Rust returns, and what it leaves in each slice."""
    numbers, result, at = Numbers(16), Numbers(1), 0
    rooms = {}
    for name, type_ in case.parameters:
        value = given[name]
        if isinstance(value, bytes):
            rooms[name] = ctypes.create_string_buffer(value, len(value) + 8)
            numbers.put(at, ctypes.addressof(rooms[name]))
            numbers.put(at + 1, len(value) // ELEMENTS[type_][0])
            at += 2
            continue
        negative = type_[0] == "i" and value >> width_of(type_) - 1
        numbers.put(at, value - (1 << width_of(type_)) if negative else value)
        at += 1
    call = getattr(library, f"call_{case.symbol}")
    call(ctypes.c_void_p(numbers.address), ctypes.c_void_p(result.address))
    left = {name: room.raw[: len(given[name])] for name, room in rooms.items()}  # type: ignore
    return (result.row[0] | result.row[1] << 64) & (1 << result_width(case)) - 1, left
