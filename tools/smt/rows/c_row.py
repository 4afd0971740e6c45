"""How a row states what a function of the C header returns and writes: as a call in C, and as its
rule. A call names the parameters; `view` is of the first text."""

from collections.abc import Callable
from typing import Any

import z3
from z3 import BitVecRef

from rows.cases import Case, Rule
from inputs import width_of
from values import constant

# Statuses, and what an out-parameter has before a call.
OUT_OF_RANGE, BAD_FRACTION, OUT_OF_BOUNDS, KEPT = 2, 3, 6, 7
# By the name, how many bytes an integer of OpenType has, and its type.
FIELDS = {
    name: (int(name[1:]) // 8, "u32" if name == "u24" else name)
    for name in ("u8", "i8", "u16", "i16", "u24", "u32", "i32", "i64")
}
ROWS: list[Case] = []


def row(
    name: str, parameters: str, returns: str, body: str, rule: Rule, is_relation: bool = False
) -> None:
    pairs = [(it.split(": ")[0], it.split(": ")[1]) for it in parameters.split(", ")]
    ROWS.append(Case(name, pairs, returns, body, rule, is_relation, f"row{len(ROWS)}"))


def always(name: str, parameters: str, returns: str, body: str, result: int) -> None:
    """A call that returns the same for all arguments."""
    row(name, parameters, returns, body, lambda *_: constant(result, width_of(returns)))


def in_c(type_: str) -> str:
    if type_ == "size":
        return "size_t"
    return ("uint" if type_[0] == "u" else "int") + type_[1:] + "_t"


def status(is_done: z3.BoolRef, fault: int = OUT_OF_BOUNDS) -> BitVecRef:
    return z3.If(is_done, constant(0, 32), constant(fault, 32))


def fallible(
    name: str, parameters: str, type_: str, call: str, outcome: Callable[..., tuple[Any, Any]]
) -> None:
    """A function that returns a status, and stores at `&it` if that is 0. `outcome` returns the
    status, and what is stored."""

    def value(*given: Any) -> BitVecRef:
        answer, stored = outcome(*given)
        return z3.If(answer == 0, stored, constant(KEPT, stored.size()))

    it = f"{in_c(type_)} it"
    body = f"({{ {it}; (uint32_t){call}; }})"
    row(f"{name}, status", parameters, "u32", body, lambda *given: outcome(*given)[0])
    body = f"({{ {it} = {KEPT}; (void)!{call}; it; }})"
    row(f"{name}, value", parameters, type_, body, value)
