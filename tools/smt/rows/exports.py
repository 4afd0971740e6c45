"""Rows of the exports of the library for C, called by their names, by the rules of the Rust that
they call."""

from typing import Any

import z3
from z3 import BitVecRef

from rows.geometry import ENTRIES, entries, image, product, two
from rows.row import CASES, Rule, case
from rows.rules import S, U, Text, checked_tag, fits, fits_unsigned, up, validated, wrap

# fmt: off
RUST = {it.name: it for it in CASES}
OUT_OF_RANGE = 2
# The status of each kind of an answer on a tag: none, a length, a byte, a byte after a space.
TAG = (0, 10, 11, 12)


def as_rust(name: str, call: str) -> None:
    """A row of the same parameters and rule as one of Rust."""
    CASES.append(RUST[name]._replace(
        name=call, body=f"unsafe {{ {call} }}", symbol=f"case{len(CASES)}"))


for it, T in (("fixed", "Fixed"), ("f26dot6", "F26Dot6")):
    as_rust(f"{T} *", f"fty_{it}_mul(x, y)")
    as_rust(f"{T} /", f"fty_{it}_div(x, y)")
as_rust("Fixed::mul_div", "fty_fixed_mul_div(x, a, c)")


def stores(call: str, parameters: str, type_: str, rule: Rule) -> None:
    """An export that returns a status, and stores a number at its last argument, where `old` is
    before: the status is in the upper half of the result."""
    width = int(type_[1:])
    case(call, f"{parameters}, old: {type_}", "u64",
         f"unsafe {{ let mut old = old; (({call}) as u64) << 32 | old as u{width} as u64 }}", rule)


def answer(status: BitVecRef, stored: BitVecRef) -> BitVecRef:
    return z3.Concat(status, z3.ZeroExt(32 - stored.size(), stored))


def moved_by_delta(i: str) -> None:
    """By the rule of `checked_add_delta`. If it fails, what was there stays."""
    number, fit = (S, fits) if i == "i16" else (U, fits_unsigned)
    total = lambda x, old: up(number(old) * 65536 + S(x), 16)
    stores(f"fty_checked_add_delta_{i}(x, &mut old)", "x: i64", i,
           lambda p, x, old: z3.If(
               fit(16, total(x, old)), answer(z3.BitVecVal(0, 32), wrap(16, total(x, old))),
               answer(z3.BitVecVal(OUT_OF_RANGE, 32), old)))


moved_by_delta("i16")
moved_by_delta("u16")


def status(kind: BitVecRef) -> BitVecRef:
    found = z3.BitVecVal(TAG[0], 32)
    for i, it in enumerate(TAG):
        found = z3.If(kind == i, z3.BitVecVal(it, 32), found)
    return found


def validate(p: Any, tag: BitVecRef, old: BitVecRef) -> BitVecRef:
    """Of an invalid byte its index is stored."""
    of_tag = validated(p, *(z3.Extract(i + 7, i, tag) for i in (24, 16, 8, 0)))
    kind = z3.Extract(63, 60, of_tag)
    return answer(status(kind), z3.If(z3.UGE(kind, 2), wrap(32, of_tag) & 3, old))


def new_tag(p: Any, text: Text, old: BitVecRef) -> BitVecRef:
    of_text = checked_tag(p, text)
    kind = z3.Extract(63, 60, of_text)
    return answer(status(kind), z3.If(kind == 0, wrap(32, of_text), old))


case("fty_tag_validate(tag, &mut index)", "tag: u32, old: u32", "u64",
     "unsafe { let mut index = old as usize;"
     " (fty_tag_validate(tag, &mut index) as u64) << 32 | index as u64 }", validate)
stores("fty_tag_parse(text.as_ptr(), text.len(), &mut old)", "text: bytes", "u32", new_tag)

matrix = lambda of: "FontMatrix { " + ", ".join(f"{it}: {of}{it}" for it in ENTRIES) + " }"
both = "(it.{} as u32 as u64) << 32 | it.{} as u32 as u64"
for m, n in zip(ENTRIES[::2], ENTRIES[1::2]):
    case(f"fty_matrix_product(a, b), {m} and {n}", f"{entries('a')}, {entries('b')}", "u64",
         f"{{ let it = unsafe {{ fty_matrix_product({matrix('a')}, {matrix('b')}) }};"
         f" {both.format(m, n)} }}",
         lambda p, *v, m=m, n=n: (lambda it: two(it[m], it[n]))(product(p, *v)))
point = lambda call: "{{ let it = unsafe {{ {}({}, FontPoint {{ x, y }}) }}; {} }}".format(
    call, matrix("a"), both.format("x", "y"))
given = f"{entries('a')}, x: i32, y: i32"
case("fty_matrix_transform_point(m, p)", given, "u64", point("fty_matrix_transform_point"),
     lambda p, *v: z3.Concat(*image(p, *v)))
# A vector is not shifted.
case("fty_matrix_transform_vector(m, v)", given, "u64", point("fty_matrix_transform_vector"),
     lambda p, *v: z3.Concat(*image(p, *v[:4], z3.BitVecVal(0, 32), z3.BitVecVal(0, 32), *v[6:])))
# fmt: on
