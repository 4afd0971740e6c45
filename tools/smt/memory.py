"""Objects in memory, and loads and stores. Each load reads what was stored, or is poison."""

import re
from functools import cache
from collections.abc import Callable
from typing import NamedTuple, Union

import z3
from z3 import BitVecRef

from ir import Module, array_of, size_of, split_commas, stored_size, take_type
from state import Goals, State

from values import (
    YES, Address, Number, Unsupported, Value, any_of, choose, constant, fold, is_constant, settle,
)  # fmt: skip


class Part(NamedTuple):
    """One of the bytes of a stored address."""

    address: Address
    byte: int


Cell = Union[Number, Part, None]


class Cells(NamedTuple):
    """An object of a known size, in which a cell is `None` until it is stored."""

    cells: tuple[Cell, ...]
    align: int
    is_constant: bool = False

    @property
    def length(self) -> BitVecRef:
        return constant(len(self.cells))


class Slice(NamedTuple):
    """An object of an unknown size, of which each byte is known by its offset."""

    length: BitVecRef
    align: int
    byte: Callable[[BitVecRef], BitVecRef]
    is_constant: bool = False


Object = Union[Cells, Slice]
Objects = dict[str, Object]
NOTHING = Number(constant(0, 8), YES)


def parts_of(address: Address) -> list[Cell]:
    return [Part(address, i) for i in range(stored_size("ptr"))]


@cache
def globals_of(module: Module) -> Objects:
    found: Objects = {}
    for name, (type_, text, align) in module.constants.items():
        try:
            cells = tuple(cells_of(type_, text, module.is_big))
            if len(cells) != size_of(type_):
                raise Unsupported(f"constant {text}")
            found[name] = Cells(cells, align, True)
        except Unsupported:
            # Only panics refer to such a constant; a load of it finds no memory.
            continue
    return found


def cells_of(type_: str, text: str, is_big: bool = False) -> list[Cell]:
    """Returns the bytes of a constant."""
    if text.startswith('c"'):
        found = re.findall(r"\\([0-9A-F]{2})|\\?(.)", text[2:-1])
        return [Number(constant(int(hex_, 16) if hex_ else ord(it), 8)) for hex_, it in found]
    if text == "zeroinitializer":
        return [Number(constant(0, 8))] * size_of(type_)
    if type_ == "ptr":
        return [None] * stored_size(type_)
    if re.fullmatch(r"-?\d+", text):
        size = stored_size(type_)
        number = (int(text) % (1 << 8 * size)).to_bytes(size, "big" if is_big else "little")
        bytes_ = [Number(constant(it, 8)) for it in number]
        return [*bytes_, *[None] * (size_of(type_) - size)]
    edge = {"[": 1, "<": 2}.get(type_[0])
    if not edge:
        raise Unsupported(f"constant {type_} {text[:40]}")
    parts = (take_type(it) for it in split_commas(text[edge:-edge]))
    return [cell for part in parts for cell in cells_of(*part, is_big)]


class Memory:
    """Loads and stores of a machine. `goals` takes each condition that must not hold. The bytes of
    a number are stored from the lowest on or, if `is_big`, from the highest on."""

    def __init__(self, goals: Goals, is_big: bool = False) -> None:
        self.goals, self.order = goals, 1 if is_big else -1
        # Numbers of several bytes that were stored, by the identities of these. The bytes are kept,
        # so that no others have their identities.
        self.stored: dict[tuple[int, ...], tuple[list[BitVecRef], BitVecRef]] = {}

    def object(self, address: Address, state: State) -> Object:
        if address.object is None:
            self.goals.bad("null address", state)
        if address.object not in state.memory:
            raise Unsupported(f"memory of {address.object}")
        return state.memory[address.object]

    def places(self, address: Address, size: int, align: int, state: State) -> list[int]:
        """Makes goals of an access of so many bytes, which is within an object and aligned.
        Returns the offsets at which it may be, of an object of a known size."""
        it, offset = self.object(address, state), address.offset
        if align > it.align:
            self.goals.bad("an address may not be aligned", state)
        outside = z3.Or(z3.ULT(it.length, size), z3.UGT(offset, it.length - size))
        wrong = z3.Or(address.poison, outside, offset & align - 1 != 0)
        self.goals.check("an address is poison, out of bounds or not aligned", wrong, state)
        if is_constant(offset):
            return [int(offset.as_long())]
        if isinstance(it, Slice):
            return []
        return [at for at in range(0, len(it.cells) - size + 1) if at % align == 0]

    def read(self, address: Address, size: int, align: int, state: State) -> list[Cell]:
        """Returns so many bytes from an address on."""
        places, it = self.places(address, size, align, state), self.object(address, state)
        if isinstance(it, Slice):
            offsets = [z3.simplify(address.offset + i) for i in range(size)]
            return [Number(it.byte(offset)) for offset in offsets]
        found = list(it.cells[places[0] : places[0] + size])
        for at in places[1:]:
            here = address.offset == at
            for i, (cell, other) in enumerate(zip(it.cells[at : at + size], found)):
                a, b = (it if isinstance(it, Number) else NOTHING for it in (cell, other))
                poison = choose(here, a.poison, b.poison)
                found[i] = Number(z3.If(here, a.bits, b.bits), poison)
        return found

    def write(self, address: Address, cells: list[Cell], align: int, state: State) -> None:
        places, it = self.places(address, len(cells), align, state), self.object(address, state)
        name, size = str(address.object), len(cells)
        if it.is_constant:
            self.goals.bad("a store to a constant", state)
        if isinstance(it, Slice):
            state.memory[name] = self.written(it, address.offset, cells, state)
            return
        if len(places) != 1:
            raise Unsupported("a store to an unknown place")
        at = places[0]
        state.memory[name] = it._replace(cells=it.cells[:at] + (*cells,) + it.cells[at + size :])

    def move(self, to: Address, of: Address, count: Number, is_apart: bool, state: State) -> None:
        """Copies so many bytes, of one slice to it or to another, as if all were read first. If
        `is_apart`, they must not overlap, except in one place."""
        target, source, size = self.object(to, state), self.object(of, state), count.bits
        if not (isinstance(target, Slice) and isinstance(source, Slice)):
            raise Unsupported("memmove of unknown length")
        if target.is_constant:
            self.goals.bad("a store to a constant", state)
        for it, place in ((target, to), (source, of)):
            outside = z3.Or(z3.UGT(place.offset, it.length), z3.UGT(size, it.length - place.offset))
            wrong = z3.Or(count.poison, place.poison, outside)
            self.goals.check("a copy is poison or out of bounds", wrong, state)
        if is_apart and to.object == of.object:
            distances = to.offset - of.offset, of.offset - to.offset
            overlap = z3.Or([z3.And(it != 0, z3.ULT(it, size)) for it in distances])
            self.goals.check("a copy of bytes that overlap", overlap, state)
        here, there = target.byte, source.byte

        def byte(at: BitVecRef) -> BitVecRef:
            moved = there(z3.simplify(of.offset + (at - to.offset)))
            return z3.simplify(z3.If(z3.ULT(at - to.offset, size), moved, here(at)))

        state.memory[str(to.object)] = target._replace(byte=byte)

    def written(self, it: Slice, offset: BitVecRef, cells: list[Cell], state: State) -> Slice:
        """Returns a slice after a store. What a slice holds is never poison."""
        numbers = [cell if isinstance(cell, Number) else NOTHING for cell in cells]
        poison = any_of(*(number.poison for number in numbers))
        self.goals.check("poison is stored", poison, state)

        def byte(at: BitVecRef) -> BitVecRef:
            found = it.byte(at)
            for i, number in enumerate(numbers):
                found = z3.If(at == offset + i, number.bits, found)
            return z3.simplify(found)

        return it._replace(byte=byte)

    def load(self, type_: str, address: Address, align: int, state: State) -> Value:
        cells = self.read(address, stored_size(type_), align, state)
        if type_ == "ptr":
            first = cells[0]
            if isinstance(first, Part) and cells == parts_of(first.address):
                return first.address
            raise Unsupported("a load of what is no address")
        numbers = [it if isinstance(it, Number) else NOTHING for it in cells]
        bits = [it.bits for it in numbers]
        key, poison = tuple(it.get_id() for it in bits), any_of(*(it.poison for it in numbers))
        if key in self.stored:
            return Number(self.stored[key][1], poison)
        together = settle(z3.Concat(bits[:: self.order])) if len(bits) > 1 else bits[0]
        return Number(together, poison)

    def store(self, type_: str, value: Value, address: Address, align: int, state: State) -> None:
        if isinstance(value, list):
            array = array_of(type_)
            if not array:
                raise Unsupported(f"a store of {type_}")
            size = size_of(array[1])
            for i, item in enumerate(value):
                place = address._replace(offset=fold(address.offset + i * size))
                self.store(array[1], item, place, align if i * size % align == 0 else 1, state)
        elif isinstance(value, Address):
            self.write(address, parts_of(value), align, state)
        else:
            bytes_ = range(0, 8 * stored_size(type_), 8)[:: -self.order]
            parts = [settle(z3.Extract(i + 7, i, value.bits)) for i in bytes_]
            parts = parts if len(parts) > 1 else [value.bits]
            self.stored[tuple(it.get_id() for it in parts)] = parts, value.bits
            self.write(address, [Number(it, value.poison) for it in parts], align, state)
