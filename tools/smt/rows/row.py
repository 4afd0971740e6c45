"""A row: a function as an expression of Rust, and its rule.

The parameters of a row are the unknown arguments. `?i32` is an `Option<i32>`, `[4]` an array of
bytes. A rule gives the result as a vector; that of a `relation` takes the result too, and says
whether it is right."""

from collections.abc import Callable
from typing import Any, NamedTuple

Rule = Callable[..., Any]


class Case(NamedTuple):
    name: str
    parameters: list[tuple[str, str]]
    returns: str
    body: str
    rule: Rule
    is_relation: bool
    symbol: str

    def has(self, *types: str) -> bool:
        return any(type_ in types for _, type_ in self.parameters)


CASES: list[Case] = []
# Rows that need more than a minute, or say of other types the same: `--long` proves them.
LONG: list[Case] = []
FORMATS = [
    ("Fixed", 32, 16),
    ("F26Dot6", 32, 6),
    ("F2Dot30", 32, 30),
    ("F2Dot14", 16, 14),
    ("F4Dot12", 16, 12),
    ("F6Dot10", 16, 10),
    ("F48Dot16", 64, 16),
]


def case(
    name: str,
    parameters: str,
    returns: str,
    body: str,
    rule: Rule,
    is_relation: bool = False,
    is_long: bool = False,
) -> None:
    pairs = [(it.split(": ")[0], it.split(": ")[1]) for it in parameters.split(", ")]
    rows, kind = (LONG, "long") if is_long else (CASES, "case")
    rows.append(Case(name, pairs, returns, body, rule, is_relation, f"{kind}{len(rows)}"))


def relation(name: str, parameters: str, returns: str, body: str, rule: Rule) -> None:
    case(name, parameters, returns, body, rule, True)
