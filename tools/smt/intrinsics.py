"""What calls of LLVM's intrinsics compute."""

from __future__ import annotations

import re
from typing import TYPE_CHECKING

import z3
from z3 import BitVecRef, BoolRef

import steps
from ir import width_of
from state import State

from values import (
    Number, Unsupported, Value, address_of, any_of, bit_of, constant, extend, fold, is_constant,
    number_of, settle,
)  # fmt: skip

if TYPE_CHECKING:
    from execution import Machine

IGNORED = ("experimental.noalias", "dbg", "donothing")


def call(
    machine: Machine, name: str, type_: str, values: list[Value], state: State
) -> Value | None:
    if name.startswith("assume"):
        claim = number_of(values[0])
        wrong = z3.Or(claim.poison, claim.bits == 0)
        machine.goals.check("an assumption is false", wrong, state)
        return None
    if name.startswith("ubsantrap"):
        machine.goals.panic("a check of undefined behavior", state)
        return None
    if name.startswith(("memcpy", "memmove", "memset")):
        copy(machine, name, values, state)
        return None
    numbers = [number_of(it) for it in values]
    poison, bits = any_of(*(it.poison for it in numbers)), [it.bits for it in numbers]
    kind = re.sub(r"(\.i\d+)+$", "", name)
    if found := re.fullmatch(r"([su])(add|sub|mul)\.with\.overflow", kind):
        result, over = with_overflow(machine, found[2], found[1] == "s", *bits)
        return [Number(fold(result), poison), Number(bit_of(over), poison)]
    if kind == "abs":
        # With the flag 1, the least number gives poison.
        least = z3.And(bits[1] == 1, bits[0] == 1 << bits[0].size() - 1)
        poison = any_of(poison, settle(least))
    result = compute(machine, kind, width_of(type_), bits)
    return Number(result if kind == "abs" else settle(result), poison)


def compute(machine: Machine, kind: str, width: int, bits: list[BitVecRef]) -> BitVecRef:
    """Returns the result of an intrinsic of numbers alone."""
    x = bits[0]
    if kind == "abs":
        return machine.arithmetic.magnitude(x)
    if kind in ("smin", "smax", "umin", "umax"):
        less = steps.COMPARE[kind[0] + "lt"](*bits)
        return z3.If(less, *bits) if kind.endswith("min") else z3.If(less, bits[1], x)
    if kind == "bswap":
        return z3.Concat([z3.Extract(i + 7, i, x) for i in range(0, width, 8)])
    if kind in ("fshl", "fshr"):
        # Both numbers in one, shifted by the third modulo the width.
        both, by = z3.Concat(x, bits[1]), z3.ZeroExt(width, z3.URem(bits[2], width))
        if kind == "fshl":
            return z3.Extract(2 * width - 1, width, both << by)
        return z3.Extract(width - 1, 0, z3.LShR(both, by))
    if kind in ("sadd.sat", "ssub.sat", "uadd.sat", "usub.sat"):
        return saturated(kind[1:4], kind[0] == "s", *bits)
    if kind in ("scmp", "ucmp"):
        less = steps.COMPARE[kind[0] + "lt"]
        below = z3.If(less(*bits), constant(-1, width), constant(0, width))
        return z3.If(less(bits[1], x), constant(1, width), below)
    raise Unsupported(f"llvm.{kind}")


def saturated(op: str, signed: bool, a: BitVecRef, b: BitVecRef) -> BitVecRef:
    """Returns the sum or difference, or the nearest number that there is."""
    width = a.size()
    x, y = (extend(signed, width + 2, it) for it in (a, b))
    exact = x + y if op == "add" else x - y
    least = -(1 << width - 1) if signed else 0
    low, high = constant(least, width + 2), constant(least + (1 << width) - 1, width + 2)
    return z3.Extract(width - 1, 0, z3.If(exact < low, low, z3.If(exact > high, high, exact)))


def with_overflow(
    machine: Machine, op: str, signed: bool, a: BitVecRef, b: BitVecRef
) -> tuple[BitVecRef, BoolRef]:
    if op == "mul":
        over = machine.arithmetic.multiply_overflows(a, b, signed)
        return machine.arithmetic.multiply(a, b), over
    return a + b if op == "add" else a - b, steps.overflows(op, a, b, signed)


def copy(machine: Machine, name: str, values: list[Value], state: State) -> None:
    """Copies bytes, or sets each to one number. What `memcpy` copies is not where it is put,
    except in one place."""
    target, (size, poison) = address_of(values[0]), number_of(values[2])
    size, poison = settle(size), settle(poison)
    is_apart = name.startswith("memcpy")
    if not name.startswith("memset"):
        source = address_of(values[1])
        if not is_constant(size) or is_apart and source.object == target.object:
            count = Number(extend(False, 64, size), poison)
            machine.memory.move(target, source, count, is_apart, state)
            return
    if not is_constant(size) or not z3.is_false(poison):
        raise Unsupported(f"{name} of unknown length")
    length, memory = int(size.as_long()), machine.memory
    if length and name.startswith("memset"):
        memory.write(target, [number_of(values[1])] * length, 1, state)
    elif length:
        memory.write(target, memory.read(source, length, 1, state), 1, state)
