"""All rows of the second proof: functions of numbers, parsing, and printing."""

import ctypes
from collections.abc import Sequence

import parsing
import printing
from build import wrapper
from rows.cases import CASES, Case
from rows.cases import LONG as LONG
from ir import Module
from parsing import Parsing
from printing import Printing
from proof import Proof

Row = Case | parsing.Row | printing.Row


# The rows of the gate, those that take long first, and those of functions that take f, for each f.
ROWS: list[Row] = [*printing.ROWS, *parsing.ROWS, *CASES]
OF_EACH: list[Row] = [*parsing.OF_EACH, *printing.OF_EACH]


def wrappers(some: Sequence[Row]) -> str:
    """Returns the functions of C of some rows."""
    found = {}
    for it in some:
        if isinstance(it, printing.Row):
            found[it.symbol] = it.wrapper
        else:
            found[it.symbol] = wrapper(it.case if isinstance(it, parsing.Row) else it)
    return "".join(found.values())


def key(module: Module, row: Row) -> tuple[int, int, tuple[int, int] | None, bool] | None:
    """Returns what two rows of parsing have in common, if one proof is that of both."""
    if not isinstance(row, parsing.Row):
        return None
    return id(module.functions[f"@{row.symbol}"]), row.f, row.range, row.is_literal


def proof_of(module: Module, row: Row, library: ctypes.CDLL | None) -> Proof | Parsing | Printing:
    if isinstance(row, parsing.Row):
        return Parsing(module, row, library)
    if isinstance(row, printing.Row):
        return Printing(module, row, library)
    return Proof(module, row, library)
