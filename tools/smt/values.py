"""Values of LLVM's IR: numbers and addresses, each with the condition under which it is poison."""

from typing import Any, NamedTuple, Union

import z3
from z3 import BitVecRef, BoolRef

NO, YES = z3.BoolVal(False), z3.BoolVal(True)


class Unsupported(Exception):
    """The IR has what this reader does not know."""


class Ended(Exception):
    """A path goes on with undefined behavior, of which a goal has said that it is impossible."""


class Number(NamedTuple):
    bits: BitVecRef
    poison: BoolRef = NO


class Address(NamedTuple):
    """A place in an object, by an offset of 64 bits. The object `None` begins at address zero."""

    object: str | None
    offset: BitVecRef
    poison: BoolRef = NO


Value = Union[Number, Address, list["Value"]]
Names = dict[str, Value]


def constant(number: int, width: int = 64) -> BitVecRef:
    return z3.BitVecVal(number, width)


def is_constant(bits: BitVecRef) -> bool:
    return bool(z3.is_bv_value(bits))


def any_of(*conditions: BoolRef) -> BoolRef:
    real = [it for it in conditions if not z3.is_false(it)]
    return NO if not real else real[0] if len(real) == 1 else z3.Or(real)


def choose(condition: BoolRef, yes: BoolRef, no: BoolRef) -> BoolRef:
    return NO if z3.is_false(yes) and z3.is_false(no) else z3.If(condition, yes, no)


def settle(term: Any) -> Any:
    """Returns a term, or the constant that it is. Other terms stay as they are, so that equal parts
    of two stay equal."""
    found = z3.simplify(term)
    return found if is_constant(found) or z3.is_true(found) or z3.is_false(found) else term


def is_set(bit: BitVecRef) -> BoolRef:
    """Returns whether a number of one bit is 1."""
    if z3.is_app_of(bit, z3.Z3_OP_ITE) and is_constant(bit.arg(1)) and is_constant(bit.arg(2)):
        if bit.arg(1).as_long() and not bit.arg(2).as_long():
            return bit.arg(0)
    return settle(bit == 1)


def bit_of(condition: BoolRef) -> BitVecRef:
    return settle(z3.If(condition, constant(1, 1), constant(0, 1)))


def fold(bits: BitVecRef) -> BitVecRef:
    """Computes with constants, so that counters of loops and offsets stay numbers."""
    return z3.simplify(bits) if all(map(is_constant, bits.children())) else bits


def extend(signed: bool, width: int, bits: BitVecRef) -> BitVecRef:
    """Returns the same integer in more bits."""
    by = width - bits.size()
    return bits if by == 0 else (z3.SignExt if signed else z3.ZeroExt)(by, bits)


def number_of(value: Value) -> Number:
    if isinstance(value, Number):
        return value
    raise Unsupported(f"{value} is not a number")


def address_of(value: Value) -> Address:
    if isinstance(value, Address):
        return value
    raise Unsupported(f"{value} is not an address")
