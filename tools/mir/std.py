"""What `core` has on one side in another form than on the other: each row with its reason. What is
in no row is called on both sides, as a function of one name, type and trait."""

from __future__ import annotations

import json
import re
import types
from typing import TYPE_CHECKING, Any

from terms import FALSE, WIDTHS, Events, Term, Terms, at, cast, compared, length, number, operation
from terms import part, place_of, pointer, project, referred, tag, text_of

if TYPE_CHECKING:
    from machine import Machine

ZERO = number(0, 64)


def known(body: Machine, callee: Term, terms: Terms) -> Events:
    """Returns the result of what is called, by the row that it has, or None."""
    for pattern, _, run in KNOWN:
        if found := pattern.fullmatch(callee[1]):
            result = run(body, found, terms, callee)
            return (yield from result) if isinstance(result, types.GeneratorType) else result
    return None


def widened(body: Machine, found: re.Match[str], terms: Terms, callee: Term) -> Term:
    to, of = found[1].lower(), found[2].lower()
    return cast(of[0] == "i", WIDTHS[of], WIDTHS[to], terms[0])


def integers_equal(body: Machine, kind: str, name: str, terms: Terms, references: str = "") -> Term:
    for _ in ("&", *references):
        terms = [body.memory.read(place_of(it)) for it in terms]
    return compared(name.title(), False, WIDTHS[kind.lower()], *terms)


def diverging(*_: Any) -> Events:
    yield ("dead",)


# ---- slices, and iterators in a `for`


def sliced(body: Machine, found: re.Match[str], terms: Terms, callee: Term) -> Term:
    whole = body.function.count_of(found[1]) if found[1] else length(terms[0])
    bounds = {"Range": (0, 1), "RangeTo": (None, 0), "RangeFrom": (0, None)}[found[2]]
    first, end = (None if it is None else project(terms[1], ("f", None, it)) for it in bounds)
    count = operation("Sub", False, 64, end or whole, first or ZERO)
    body.memory.check_part(first or ZERO, count, whole)
    return part(terms[0], first or ZERO, count)


def slice_of_c(body: Machine, found: re.Match[str], terms: Terms, callee: Term) -> Term:
    if terms[0][0] != "ptr_of" or terms[1] != length(terms[0][1]):
        raise ValueError(f"a slice of {terms}")
    whole: Term = terms[0][1]
    return whole


def into_iter(body: Machine, found: re.Match[str], terms: Terms, callee: Term) -> Term:
    if found[1].startswith("core"):
        return terms[0]
    whole = part(terms[0], ZERO, body.function.count_of(found[2])) if found[2] else terms[0]
    return ("iter", whole, ZERO)


def next_of_slice(body: Machine, found: re.Match[str], terms: Terms, callee: Term) -> Events:
    place = place_of(terms[0])
    state = body.memory.read(place)
    if state[0] != "iter":
        return None  # the method of an iterator, which is called
    _, of, now = state
    if not (yield ("if", compared("Lt", False, 64, now, length(of)))):
        return ("agg", 0, ())
    root, inner = place_of(of)
    body.memory.write(place, ("iter", of, operation("Add", False, 64, now, number(1, 64))))
    return ("agg", 1, (pointer(root, at(inner, now)),))


def next_of_range(body: Machine, found: re.Match[str], terms: Terms, callee: Term) -> Events:
    place, integer = place_of(terms[0]), (found[1][0] == "i", WIDTHS[found[1]])
    _, _, (first, end) = body.memory.read(place)
    if not (yield ("if", compared("Lt", *integer, first, end))):
        return ("agg", 0, ())
    after = operation("Add", *integer, first, number(1, integer[1]))
    body.memory.write(place, ("agg", None, (after, end)))
    return ("agg", 1, (first,))


# ---- derived traits


def and_eq(body: Machine, found: re.Match[str], terms: Terms, callee: Term) -> Events:
    if not (yield ("if", terms[0])):
        return FALSE
    kind = callee[2]["Fn"][1]["types"][0]
    if kind == "Bool" or "Int" in kind:
        name = "bool" if kind == "Bool" else f"u{kind['Int']}"
        return integers_equal(body, name, "eq", terms[1:])
    return (yield from body.called(("eq", *callee[1:]), terms[1:]))


def or_cmp(body: Machine, found: re.Match[str], terms: Terms, callee: Term) -> Events:
    """Goes on if an `Option` is `Some`, and an `Ordering` is `Equal`."""
    for it in (terms[0], *([project(terms[0], ("f", 1, 0))] if found[1] else [])):
        if not (yield ("if", compared("Eq", False, 8, tag(it), number(1, 8)))):
            return terms[0]
    return (yield from body.called((f"{found[1] or ''}cmp", *callee[1:]), terms[1:]))


def derived_name(body: Machine, found: re.Match[str], terms: Terms, callee: Term) -> Events:
    word = text_of(terms[1][1][1][terms[2][1] :].split(b" ")[0])
    name = "core::fmt::formatter::Formatter::write_str"
    callee = "write_str", name, {"Fn": [name, callee[2]["Fn"][1]]}
    return (yield from body.called(callee, (terms[0], word)))


def debug(body: Machine, found: re.Match[str], terms: Terms, callee: Term) -> Events:
    formatter, name, *rest = map(body.memory.seen, terms)
    labels, fields = (rest[::2], rest[1::2]) if found[1] == "struct" else ([None] * len(rest), rest)
    if found[2] == "s":
        lists = (body.memory.seen(body.memory.read(place_of(it))) for it in terms[2:])
        labels, fields = (it[1][2] if it[0] == "part" else it[2] for it in lists)
    words = [it[1][1].decode() if it else "" for it in (name, *labels)]
    text = " ".join([*words, ")" if found[1] == "tuple" else "}"])
    fields = [shown("debug", *(it[1:] if it[0] == "dyn" else (None, it))) for it in fields]
    return (yield ("call", ("derived_fields", *callee[1:]), (formatter, text, *fields)))


def derived_fields(body: Machine, found: re.Match[str], terms: Terms, callee: Term) -> Events:
    formatter, before, text, *fields = map(body.memory.seen, terms)
    by, text = map(integer_of, callee[2]["Fn"][1]["dicts"][1:]), text[1][1].decode()
    fields = [shown("debug", *it) for it in zip(by, fields)]
    if before[0] == "begun":  # what has many fields is shown by several calls
        text, fields = before[1].rstrip(" ") + text, [*before[2], *fields]
    if text[-1] not in ")}":
        return ("begun", text, fields)
    return (yield ("call", ("derived_fields", *callee[1:]), (formatter, text, *fields)))


# ---- texts


def shown(how: str, integer: str | None, term: Term, *layout: Term) -> Term:
    """Returns a piece that is shown: an integer in decimal by its type, a reference as what it
    refers to."""
    how = f"{how} {integer}" if integer and how in ("display", "debug") else how
    return ("shown", how, referred(term), *layout)


def integer_of(impl: Any, trait: str = "Debug") -> str | None:
    """Returns the integer of which this is the impl of a trait, or of references to it."""
    text = json.dumps(impl)
    found = re.search(rf"::([UI]\d+|[UI]size){trait}", text)
    return found[1].lower() if found and "Slice" not in text else None


def write(body: Machine, found: re.Match[str], terms: Terms, callee: Term) -> Events:
    formatter, (_, some) = map(body.memory.seen, terms)
    some = (shown(it[1], None, *it[2:]) if it[0] == "shown" else it for it in some)
    return (yield ("call", callee, (formatter, ("pieces", *some))))


def write_format(body: Machine, found: re.Match[str], terms: Terms, callee: Term) -> Events:
    formatter, text = map(body.memory.seen, terms)
    pieces, by = [], callee[2]["Fn"][1]["dicts"][1]["Impl"][2][0]["Impl"][2]
    for it, impl in zip(text[2][0][2], by):
        if it[0] == "agg" and it[2] and it[2][0][0] == "shown":
            it = shown(it[2][0][1], None, it[2][0][2], it[2][1])
        elif it[0] != "shown" and not (it[0] == "&" and it[1][0] == "static"):
            it = shown("display", integer_of(impl, "Display"), it)
        pieces.append(it)
    return (yield ("call", callee, (formatter, ("pieces", *pieces))))


def in_radix(body: Machine, found: re.Match[str], terms: Terms, callee: Term) -> Term:
    names = {2: "binary", 8: "octal", 10: "display", 16: ("lower_hex", "upper_hex")[terms[2][1]]}
    return shown(names[terms[1][1]], None, terms[0])


def texts(body: Machine, found: re.Match[str], terms: Terms, callee: Term) -> Term:
    """Reads what `format_args!` makes of a text: texts, and what is shown with its layout."""
    code, arguments = (body.memory.read(place_of(it)) for it in terms)
    data, some, place, n = code[1], [], 0, 0

    def take(count: int) -> int:
        nonlocal place
        place += count
        return int.from_bytes(data[place - count : place], "little")

    while first := take(1):
        if first <= 128:
            count = first if first < 128 else take(2)
            take(count)
            some.append(text_of(data[place - count : place]))
            continue
        if first & 0xF0 != 0xC0:
            raise ValueError(f"a width or precision that is an argument, {first}")
        flags, wide = take(4) if first & 1 else 0x20, take(2) if first & 2 else 0
        precise, n = take(2) if first & 4 else (1 << 64) - 1, take(2) if first & 8 else n
        align, signs = {3: 0, 0: 1, 1: 2, 2: 3}[flags >> 29 & 3], 4 * (flags >> 24 & 1)
        layout = ("spec", flags & 0x1FFFFF, align, signs + (flags & 0x06E00000), wide, precise)
        some.append((*arguments[2][n], *([] if first == 192 else [layout])))
        n += 1
    return ("pieces", tuple(some))


def rows(*given: tuple[str, str, Any]) -> list[tuple[re.Pattern[str], str, Any]]:
    return [(re.compile(pattern), reason, run) for pattern, reason, run in given]


INT, ARRAY = r"([iu]\d+|[iu]size)", r"\[.*?(?:; (\w+))?\]"
ITER = "core::iter::Iterator>::next"
NAME = "(Char|Bool|[UI](?:8|16|32|64|128|size))"
KNOWN = rows(
    # What rustc calls.
    (r"core::(?:slice|str)::<impl (?:\[.*\]|str)>::len", "the second field of a slice in Rattle",
     lambda body, found, terms, callee: length(terms[0])),
    (rf"core::num::<impl {INT}>::wrapping_(add|sub|mul)", "an operator in Rattle",
     lambda body, found, terms, callee:
         operation(f"Wrap{found[2].title()}", False, WIDTHS[found[1]], *terms)),
    (r"<([iu]\d+|[iu]size|char) as core::convert::From<([iu]\d+|bool|char)>>::from", "a cast",
     widened),
    (rf"<(&*)(bool|char|{INT}) as core::cmp::PartialEq(?:<.*>)?>::(eq|ne)", "an operator",
     lambda body, found, terms, callee: integers_equal(body, found[2], found[4], terms, found[1])),
    (rf"<{ARRAY} as core::ops::Index(?:Mut)?<core::ops::(Range|RangeFrom|RangeTo)<usize>>>"
     r"::index(?:_mut)?", "a pointer to an element, with a length", sliced),
    (rf"<(&(?:mut )?{ARRAY}|core::ops::Range<\w+>|core::slice::IterMut<.*>) as "
     r"core::iter::IntoIterator>::into_iter", "a `for`, in Rattle a loop over indices", into_iter),
    (r"core::slice::<impl \[.*\]>::iter_mut", "a `for`",
     lambda body, found, terms, callee: ("iter", terms[0], ZERO)),
    (rf"<core::slice::Iter(?:Mut)?<.*> as {ITER}", "a `for`", next_of_slice),
    (rf"<core::ops::Range<{INT}> as {ITER}", "a `for`", next_of_range),
    (r"core::fmt::Formatter::<.*?>::debug_(tuple|struct)_field(\d|s)_finish",
     "derived `Debug`, for which each compiler calls functions of its own", debug),
    (rf"core::fmt::rt::Argument::<.*?>::new_(\w+)::<&*({INT}|.*)>", "what a text shows",
     lambda body, found, terms, callee: shown(found[1], found[3], terms[0])),
    (r"core::fmt::Arguments::<.*?>::from_str(?:::<.*>)?", "a text",
     lambda body, found, terms, callee: ("pieces", (terms[0],))),
    (r"core::fmt::Arguments::<.*?>::new(?:::<.*>)?", "a text as bytes of rustc's", texts),
    (r"core::fmt::Formatter::<.*?>::write_fmt", "a text, as terms and not as what has them", write),
    (r"core::panicking::\w+(?:::<.*>)?", "never called, as Rattle proves", diverging),
    (r"slice(?:_mut)?::<.*>", "a slice from C, which is one parameter in Rattle", slice_of_c),
    # What Rattle calls.
    (r"core::cmp::(?:\w+::)*and_eq", "derived: `&&`, and then a comparison", and_eq),
    (r"core::cmp::(?:\w+::)*or_(partial_)?cmp", "derived: the next field, if equal so far", or_cmp),
    (r"core::fmt::formatter::Formatter::derived_name", "derived `Debug`", derived_name),
    (r"core::fmt::formatter::Formatter::derived_fields\d", "derived `Debug`", derived_fields),
    (r"core::fmt::formatter::Formatter::write_fmt", "a text", write_format),
    (r"core::fmt::literal::in_radix", "what a text shows", in_radix),
    (r"core::fmt::literal::laid_out", "the layout of what a text shows",
     lambda body, found, terms, callee: ("spec", *(it[1] for it in terms))),
    (rf"core::convert::(?:\w+::)*{NAME}From{NAME}::from", "a cast", widened),
    (rf"core::cmp::numbers::{NAME}PartialEq::(eq|ne)", "an operator",
     lambda body, found, terms, callee: integers_equal(body, found[1], found[2], terms)),
    (r"core::assertions::unreachable", "never called, as it proves", diverging),
)  # fmt: skip
