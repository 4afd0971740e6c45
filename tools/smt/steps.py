"""What each instruction of LLVM's IR computes, and when its result is poison."""

from __future__ import annotations

import functools
import operator
import re
from collections.abc import Callable
from typing import TYPE_CHECKING

import z3
from z3 import BitVecRef, BoolRef

import intrinsics
from ir import Instruction, array_of, size_of, split_commas, take_attributes, take_flags, take_type
from memory import Cells
from state import State

from values import (
    NO, Address, Number, Unsupported, Value, address_of, any_of, bit_of, choose, constant, extend,
    fold, is_constant, is_set, number_of, settle,
)  # fmt: skip

if TYPE_CHECKING:
    from execution import Machine

COMPARE: dict[str, Callable[[BitVecRef, BitVecRef], BoolRef]] = {
    "eq": operator.eq, "ne": operator.ne,
    "slt": operator.lt, "sle": operator.le, "sgt": operator.gt, "sge": operator.ge,
    "ult": z3.ULT, "ule": z3.ULE, "ugt": z3.UGT, "uge": z3.UGE,
}  # fmt: skip


def step(machine: Machine, it: Instruction, state: State) -> Value | None:
    """Runs an instruction that has one way to go on, and returns its result if it has one."""
    if it.op not in STEPS:
        raise Unsupported(f"{it.op} {it.text}")
    return STEPS[it.op](machine, it, state)


def operand(machine: Machine, text: str, state: State) -> Value:
    return machine.value(*take_type(text), state)


def pair(machine: Machine, text: str, state: State) -> tuple[Value, Value]:
    type_, rest = take_type(text)
    a, b = split_commas(rest)
    return machine.value(type_, a, state), machine.value(type_, b, state)


# ---------------------------------------------------------------- numbers


def overflows(op: str, a: BitVecRef, b: BitVecRef, signed: bool) -> BoolRef:
    """`nsw`, `nuw`: the sum or difference of the integers, in one bit more, is not the result."""
    x, y = (extend(signed, a.size() + 1, it) for it in (a, b))
    result, wide = (a + b, x + y) if op == "add" else (a - b, x - y)
    return extend(signed, a.size() + 1, result) != wide


def add(machine: Machine, it: Instruction, state: State) -> Value:
    flags, text = take_flags(it.text, "nsw nuw")
    a, b = map(number_of, pair(machine, text, state))
    bits, known = a.bits + b.bits if it.op == "add" else a.bits - b.bits, machine.arithmetic
    greatest = known.greatest(a.bits) + known.greatest(b.bits)
    if it.op == "add" and greatest < 1 << bits.size():
        known.keep(bits, greatest)
    wrong = [overflows(it.op, a.bits, b.bits, flag == "nsw") for flag in sorted(flags)]
    return Number(fold(bits), any_of(a.poison, b.poison, *map(settle, wrong)))


def multiply(machine: Machine, it: Instruction, state: State) -> Value:
    """`nsw`, `nuw`: the product of the integers is not in the width."""
    flags, text = take_flags(it.text, "nsw nuw")
    a, b = map(number_of, pair(machine, text, state))
    known = machine.arithmetic
    wrong = [known.multiply_overflows(a.bits, b.bits, flag == "nsw") for flag in sorted(flags)]
    return Number(fold(known.multiply(a.bits, b.bits)), any_of(a.poison, b.poison, *wrong))


def divide(machine: Machine, it: Instruction, state: State) -> Value:
    """A divisor of zero or poison, and the least number by -1, are undefined behavior. `exact`:
    there is a remainder."""
    flags, text = take_flags(it.text, "exact")
    a, b = map(number_of, pair(machine, text, state))
    known, (x, y) = machine.arithmetic, (a.bits, b.bits)
    machine.goals.check("a divisor is poison", b.poison, state)
    machine.goals.check("division by zero", y == 0, state)
    is_unsigned = it.op[0] == "u"
    if not is_unsigned:
        least = z3.And(x == 1 << x.size() - 1, y == -1)
        machine.goals.check("overflow of a division", z3.Or(least, a.poison), state)
        # LLVM divides two numbers that are not negative in either way.
        ways = [*state.conditions, *known.facts, z3.Or(x < 0, y < 0)]
        is_unsigned = not is_constant(y) and not machine.goals.possible(ways)
    rest = (z3.URem if is_unsigned else z3.SRem)(x, y)
    quotient = {
        ("div", True): known.divide,
        ("rem", True): functools.partial(known.narrowed, z3.URem),
        ("div", False): operator.truediv,
        ("rem", False): z3.SRem,
    }[it.op[1:], is_unsigned]
    inexact = rest != 0 if flags else NO
    return Number(fold(quotient(x, y)), any_of(a.poison, b.poison, settle(inexact)))


def shift(machine: Machine, it: Instruction, state: State) -> Value:
    """A shift by the width or more is poison. `nsw`, `nuw`, `exact`: shifting the result back
    does not give the operand."""
    flags, text = take_flags(it.text, "nsw nuw exact")
    a, b = map(number_of, pair(machine, text, state))
    x, by, known = a.bits, b.bits, machine.arithmetic
    bits = x << by if it.op == "shl" else z3.LShR(x, by) if it.op == "lshr" else x >> by
    if it.op == "ashr" and is_constant(by) and z3.is_app_of(x, z3.Z3_OP_BSHL) and x.arg(1).eq(by):
        # The lower bits of a number, as a signed number.
        bits = extend(True, x.size(), z3.Extract(x.size() - 1 - by.as_long(), 0, x.arg(0)))
    back = {"nsw": bits >> by, "nuw": z3.LShR(bits, by), "exact": bits << by}
    wrong = [z3.UGE(by, x.size()), *(back[flag] != x for flag in sorted(flags))]
    if is_constant(by) and not is_constant(x) and by.as_long() < x.size():
        number, greatest = by.as_long(), known.greatest(x)
        if it.op == "shl" and greatest << number < 1 << x.size():
            known.keep(bits, greatest << number)
        if it.op == "lshr":
            known.keep(bits, greatest >> number)
    return Number(fold(bits), any_of(a.poison, b.poison, *map(settle, wrong)))


def logic(machine: Machine, it: Instruction, state: State) -> Value:
    """`disjoint`: both numbers have a bit."""
    flags, text = take_flags(it.text, "disjoint")
    a, b = map(number_of, pair(machine, text, state))
    x, y = a.bits, b.bits
    bits = x & y if it.op == "and" else x | y if it.op == "or" else x ^ y
    if flags:
        bits = x + y  # which is the same, if no bit is in both
    if it.op == "and":
        known = machine.arithmetic
        known.keep(bits, min(known.greatest(x), known.greatest(y)))
    both = settle(x & y != 0) if flags else NO
    return Number(fold(bits), any_of(a.poison, b.poison, both))


def convert(machine: Machine, it: Instruction, state: State) -> Value:
    """`nneg`: the number is negative. `nsw`, `nuw`: what is cut off is not the sign, or not 0."""
    flags, text = take_flags(it.text, "nsw nuw nneg")
    source, target = text.rsplit(" to i", 1)
    a, width = number_of(operand(machine, source, state)), int(target)
    if it.op != "trunc":
        negative = settle(a.bits < 0) if flags else NO
        return Number(fold(extend(it.op == "sext", width, a.bits)), any_of(a.poison, negative))
    low = z3.Extract(width - 1, 0, a.bits)
    wrong = [extend(flag == "nsw", a.bits.size(), low) != a.bits for flag in sorted(flags)]
    return Number(fold(low), any_of(a.poison, *map(settle, wrong)))


def compare(machine: Machine, it: Instruction, state: State) -> Value:
    """`samesign`: one number is negative, and the other is not."""
    flags, text = take_flags(it.text, "samesign")
    kind, text = text.split(" ", 1)
    a, b = pair(machine, text, state)
    if isinstance(a, Address) and isinstance(b, Address):
        return compare_addresses(machine, kind, a, b, state)
    x, y = number_of(a), number_of(b)
    differ = settle((x.bits < 0) != (y.bits < 0)) if flags else NO
    return Number(bit_of(COMPARE[kind](x.bits, y.bits)), any_of(x.poison, y.poison, differ))


def select(machine: Machine, it: Instruction, state: State) -> Value:
    """Is poison if the condition is, or if the chosen value is."""
    of, yes, no = (operand(machine, text, state) for text in split_commas(it.text))
    choice = number_of(of)
    condition = is_set(choice.bits)
    if z3.is_true(condition) or z3.is_false(condition):
        chosen = yes if z3.is_true(condition) else no
        if isinstance(chosen, list):
            raise Unsupported("select of a structure")
        return chosen._replace(poison=any_of(choice.poison, chosen.poison))
    if isinstance(yes, Address) and isinstance(no, Address) and yes.object and not no.object:
        no = null_of(machine, yes, no, state)
    elif isinstance(yes, Address) and isinstance(no, Address) and no.object and not yes.object:
        yes = null_of(machine, no, yes, state)
    if isinstance(yes, Address) and isinstance(no, Address) and yes.object == no.object:
        poison = any_of(choice.poison, choose(condition, yes.poison, no.poison))
        return Address(yes.object, z3.If(condition, yes.offset, no.offset), poison)
    a, b, known = number_of(yes), number_of(no), machine.arithmetic
    bits = z3.If(condition, a.bits, b.bits)
    known.keep(bits, max(known.greatest(a.bits), known.greatest(b.bits)))
    return Number(bits, any_of(choice.poison, choose(condition, a.poison, b.poison)))


def freeze(machine: Machine, it: Instruction, state: State) -> Value:
    """Turns poison into any one number."""
    value = number_of(operand(machine, it.text, state))
    if z3.is_false(value.poison):
        return value
    return Number(z3.If(value.poison, machine.unknown(value.bits.size()), value.bits))


def member(machine: Machine, it: Instruction, state: State) -> Value:
    """`extractvalue`: a part of a structure. `insertvalue`: the structure with another part."""
    structure, *new, index = split_commas(it.text)
    parts, at = operand(machine, structure, state), int(index)
    if not isinstance(parts, list):
        raise Unsupported(it.text)
    if not new:
        return parts[at]
    return [*parts[:at], operand(machine, new[0], state), *parts[at + 1 :]]


# ---------------------------------------------------------------- addresses


def compare_addresses(machine: Machine, kind: str, a: Address, b: Address, state: State) -> Number:
    """Compares addresses of one object by their offsets, and of two objects as numbers."""
    poison = any_of(a.poison, b.poison)
    if a.object == b.object and kind in ("eq", "ne"):
        return Number(bit_of(COMPARE[kind](a.offset, b.offset)), poison)
    x, y = (number_of_address(machine, it, state) for it in (a, b))
    if a.object != b.object and ("%alloca" in str(a.object) or "%alloca" in str(b.object)):
        # An object of the function's own is apart from each other object: from an address within
        # the lower one it is at least as far to the other as to the end.
        m, n = (machine.memory.object(it, state).length for it in (a, b))
        inside = z3.And(z3.ULE(a.offset, m), z3.ULE(b.offset, n))
        above = z3.And(z3.ULE(x, y), z3.UGE(y - x, m - a.offset))
        below = z3.And(z3.ULE(y, x), z3.UGE(x - y, n - b.offset))
        machine.arithmetic.facts.append(z3.Implies(inside, z3.Or(above, below)))
    return Number(bit_of(COMPARE[kind](x, y)), poison)


def wrapped(machine: Machine, place: BitVecRef) -> BitVecRef:
    """Returns an address or an offset in 64 bits, of which the target may have fewer."""
    by = 64 - machine.module.pointer
    return z3.ZeroExt(by, z3.Extract(63 - by, 0, place)) if by else place


def number_of_address(machine: Machine, address: Address, state: State) -> BitVecRef:
    """Objects are somewhere: aligned, not at zero, and not across the end of memory. For arguments
    that are known, each object has a page of its own."""
    if address.object is None:
        return address.offset
    if machine.arithmetic.exact:
        page = machine.pages.setdefault(address.object, 4096 * (1 + len(machine.pages)))
        return z3.simplify(wrapped(machine, page + address.offset))
    place, base = machine.memory.object(address, state), z3.BitVec(f"at_{address.object}", 64)
    most = constant((1 << machine.module.pointer) - 1)
    facts = [base != 0, z3.ULE(base, most - place.length), base & place.align - 1 == 0]
    machine.arithmetic.facts += facts
    return wrapped(machine, base + address.offset)


def null_of(machine: Machine, of: Address, null: Address, state: State) -> Address:
    """An address without an object, by its distance from an object, out of whose bounds it is."""
    base = number_of_address(machine, of._replace(offset=constant(0)), state)
    return Address(of.object, wrapped(machine, null.offset - base), null.poison)


def address_as_number(machine: Machine, it: Instruction, state: State) -> Value:
    source, target = it.text.rsplit(" to ", 1)
    address = address_of(operand(machine, source, state))
    width = machine.module.pointer
    if target != f"i{width}":
        raise Unsupported(it.text)
    number = number_of_address(machine, address, state)
    return Number(number if width == 64 else z3.Extract(width - 1, 0, number), address.poison)


def element(machine: Machine, text: str, state: State) -> Address:
    """`inbounds`, `nusw`: the distance wraps, or the address leaves the object or its end. `nuw`:
    the distance is negative, or the address leaves the object."""
    flags, text = take_flags(text, "inbounds nusw nuw")
    type_, rest = take_type(text)
    first, *indices = split_commas(rest)
    base = address_of(operand(machine, first, state))
    distance, poison, wrong = constant(0), base.poison, []
    for i, text in enumerate(indices):
        index = number_of(operand(machine, text, state))
        if i > 0:
            type_ = (array_of(type_) or (0, f"({type_}"))[1]
        size, number = size_of(type_), extend(True, 64, index.bits)
        poison = any_of(poison, index.poison)
        # Neither the product with the size of an element nor the sum wraps.
        if size > 1:
            most, least = ((1 << 63) - 1) // size, -((1 << 63) // size)
            wrong.append(z3.Or(number > most, number < least))
        wrong.append(overflows("add", distance, number * size, True))
        distance = distance + number * size
    offset = settle(base.offset + distance)
    if not flags:
        return Address(base.object, settle(wrapped(machine, offset)), poison)
    length = constant(0)
    if base.object is not None:
        length = machine.memory.object(base, state).length
    wrong += [z3.UGT(it, length) for it in (base.offset, offset)]
    if "nuw" in flags:
        wrong.append(distance < 0)
    return Address(base.object, offset, any_of(poison, *map(settle, wrong)))


# ---------------------------------------------------------------- memory


def aligned(texts: list[str]) -> int:
    """The alignment that a load or a store claims."""
    found = [re.fullmatch(r"align (\d+)", it) for it in texts]
    if len(found) != 1 or not found[0]:
        raise Unsupported(f"access {texts}")
    return int(found[0][1])


def load(machine: Machine, it: Instruction, state: State) -> Value:
    type_, rest = take_type(it.text.removeprefix("volatile "))
    place, *others = split_commas(rest)
    address = address_of(operand(machine, place, state))
    return machine.memory.load(type_, address, aligned(others), state)


def store(machine: Machine, it: Instruction, state: State) -> None:
    of, place, *others = split_commas(it.text.removeprefix("volatile "))
    value, address = operand(machine, of, state), address_of(operand(machine, place, state))
    machine.memory.store(take_type(of)[0], value, address, aligned(others), state)


def allocate(machine: Machine, it: Instruction, state: State) -> Value:
    type_, align = split_commas(it.text)
    name = machine.name("%alloca")
    state.memory[name] = machine.owned[name] = Cells((None,) * size_of(type_), aligned([align]))
    return Address(name, constant(0))


def compare_memory(machine: Machine, name: str, values: list[Value], state: State) -> Number:
    """`memcmp` is 0 if and only if all bytes are equal, and negative if and only if the first that
    differs is less. More is not known of it."""
    size = number_of(values[2]).bits
    if not is_constant(size) or not size.as_long():
        raise Unsupported(f"{name} of such a size")
    both = [machine.memory.read(address_of(it), size.as_long(), 1, state) for it in values[:2]]
    known = [it for it in both[0] + both[1] if isinstance(it, Number)]
    if len(known) < len(both[0] + both[1]):
        raise Unsupported(f"{name} of what was not stored")
    bits = [it.bits for it in known] + [constant(0, 8)] * 2
    a, b = z3.Concat(bits[: len(both[0])] + bits[-1:]), z3.Concat(bits[len(both[0]) : -1])
    poison = any_of(*(it.poison for it in known))
    if machine.arithmetic.exact:
        less = z3.If(z3.ULT(a, b), constant(-1, 32), constant(1, 32))
        return Number(z3.simplify(z3.If(a == b, constant(0, 32), less)), poison)
    answer = machine.unknown(32)
    machine.arithmetic.facts.append((answer == 0) == (a == b))
    if name == "@memcmp":
        machine.arithmetic.facts.append((answer < 0) == z3.ULT(a, b))
    return Number(answer, poison)


def intrinsic(machine: Machine, it: Instruction, state: State) -> Value | None:
    returns, text = take_attributes(it.text)
    type_, text = take_type(text)
    found = re.fullmatch(r"@llvm\.([\w.]+)\((.*)\)", text)
    if not found:
        raise Unsupported(text)
    if found[1].startswith(intrinsics.IGNORED):
        return None
    if found[1].startswith("lifetime"):
        # Before its life and after it, an object is not there.
        name = str(address_of(machine.value("ptr", found[2].split()[-1], state)).object)
        state.memory.pop(name, None)
        if "start" in found[1]:
            state.memory[name] = machine.owned[name]
        return None
    values = [machine.argument(argument, state) for argument in split_commas(found[2])]
    result = intrinsics.call(machine, found[1], type_, values, state)
    return result if result is None else machine.promised(result, returns, state)


STEPS: dict[str, Callable[[Machine, Instruction, State], Value | None]] = {
    **dict.fromkeys(("add", "sub"), add),
    **dict.fromkeys(("udiv", "urem", "sdiv", "srem"), divide),
    **dict.fromkeys(("shl", "lshr", "ashr"), shift),
    **dict.fromkeys(("and", "or", "xor"), logic),
    **dict.fromkeys(("zext", "sext", "trunc"), convert),
    "mul": multiply,
    "icmp": compare,
    "select": select,
    "freeze": freeze,
    **dict.fromkeys(("extractvalue", "insertvalue"), member),
    "ptrtoint": address_as_number,
    "getelementptr": lambda machine, it, state: element(machine, it.text, state),
    "load": load,
    "store": store,
    "alloca": allocate,
    "call": intrinsic,
}
