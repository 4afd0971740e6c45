"""Rows of the C header: fields that are read, taken and written, parts of a view, and copies."""

from collections.abc import Callable
from typing import Any

import z3
from z3 import BitVecRef

import inputs

from rows.c_row import (
    FIELDS, KEPT, OUT_OF_BOUNDS, OUT_OF_RANGE, always, fallible, in_c, row, status,
)  # fmt: skip
from rows.cases import Rule

from rows.rules import (
    Products, S, Text, U, fits_unsigned, region_scalar, stored, together, wrap,
)  # fmt: skip
from rows.scalars import ZERO
from values import constant

Outcome = tuple[Any, ...]
ABSENT = constant(-1)
PLACE = "(uint64_t)(uintptr_t){}.bytes - (uintptr_t)view.bytes"
SPANNED = "(uint64_t)(uintptr_t){}.bytes - (uintptr_t)span.bytes"
IS_ABSENT = "{0}.bytes == NULL && {0}.length == 0"

# fmt: off
# ---------------------------------------------------------------- fields of a view, or of none
def number(text: Text, at: BitVecRef | int, size: int, type_: str) -> BitVecRef:
    return wrap(int(type_[1:]), (S if type_[0] == "i" else U)(together(text.bytes(at, size))))


def out_of_bounds(type_: str = "u32") -> Rule:
    """No field is there."""
    return lambda *_: (constant(OUT_OF_BOUNDS, 32), constant(0, int(type_[1:])))


def field(name: str, size: int, type_: str) -> None:
    none = constant(0, int(type_[1:]))
    row(name, "text: bytes, at: size", type_, f"fty_{name}(view, at)",
        lambda p, text, at: z3.If(text.has(at, size), number(text, at, size, type_), none))
    always(f"{name}, absent", "at: size", type_, f"fty_{name}(fty_absent(), at)", 0)
    fallible(f"read_{name}", "text: bytes, at: size", type_, f"fty_read_{name}(view, at, &it)",
             lambda p, text, at: (status(text.has(at, size)), number(text, at, size, type_)))
    fallible(f"read_{name}, absent", "at: size", type_,
             f"fty_read_{name}(fty_absent(), at, &it)", out_of_bounds(type_))
    if size > 1:
        row(f"peek_{name}", "text: bytes", type_,
            f"text_length < {size} ? 0 : fty_peek_{name}(text)",
            lambda p, text: z3.If(text.has(ZERO, size), number(text, 0, size, type_), none))


for name, (size, type_) in FIELDS.items():
    field(name, size, type_)


def sized(text: Text, n: BitVecRef) -> tuple[Any, Any]:
    """The unsigned integer of the first bytes, 1 to 4."""
    answer, value = constant(OUT_OF_BOUNDS, 32), constant(0, 32)
    for size in range(1, 5):
        here = z3.And(n == size, text.has(ZERO, size))
        answer = z3.If(here, constant(0, 32), answer)
        value = z3.If(here, number(text, 0, size, "u32"), value)
    return answer, value


row("uint", "text: bytes", "u32", "fty_uint(view)", lambda p, text: sized(text, text.length)[1])
always("uint, absent", "x: u8", "u32", "fty_uint(fty_absent())", 0)
fallible("read_uint", "text: bytes", "u32", "fty_read_uint(view, &it)",
         lambda p, text: sized(text, text.length))
fallible("read_uint, absent", "x: u8", "u32", "fty_read_uint(fty_absent(), &it)", out_of_bounds())


# ---------------------------------------------------------------- what is taken from a view
def taken(name: str, extra: str, call: str, moved: Callable[..., tuple[Any, Any]]) -> None:
    """`moved` returns whether the bytes are there, and how many they are. Else the view stays."""

    def gone(p: Products, text: Text, *given: Any) -> BitVecRef:
        is_there, count = moved(text, *given)
        return z3.If(is_there, count, ZERO)

    of, start = f"text: bytes{extra}", f"({{ uint64_t it; fty_view rest = view; {call};"
    row(f"{name}, rest", of, "u64", f"{start} {PLACE.format('rest')}; }})", gone)
    row(f"{name}, length of the rest", of, "u64", f"{start} rest.length; }})",
        lambda p, text, *given: text.length - gone(p, text, *given))


def take(name: str, size: int, type_: str) -> None:
    fallible(f"take_{name}", "text: bytes", type_,
             f"({{ fty_view rest = view; fty_take_{name}(&rest, &it); }})",
             lambda p, text: (status(text.has(ZERO, size)), number(text, 0, size, type_)))
    taken(f"take_{name}", "", f"(void)!fty_take_{name}(&rest, ({in_c(type_)} *)&it)",
          lambda text: (text.has(ZERO, size), constant(size)))
    always(f"take_{name}, absent", "x: u8", "bool",
           f"({{ fty_view rest = fty_absent(); {in_c(type_)} it; fty_take_{name}(&rest, &it)"
           f" == {OUT_OF_BOUNDS} && {IS_ABSENT.format('rest')}; }})", 1)


for name, (size, type_) in FIELDS.items():
    take(name, size, type_)
TAKEN = "({ fty_view rest = view; const fty_view it = fty_take(&rest, n); %s; })"
IN_VIEW = f"it.bytes == NULL ? UINT64_MAX : {PLACE.format('it')}"
row("take, place", "text: bytes, n: size", "u64", TAKEN % IN_VIEW,
    lambda p, text, n: z3.If(z3.ULE(n, text.length), ZERO, ABSENT))
row("take, length", "text: bytes, n: size", "u64", TAKEN % "it.length",
    lambda p, text, n: z3.If(z3.ULE(n, text.length), n, 0))
taken("take", ", n: size", "it = fty_take(&rest, n).length",
      lambda text, n: (z3.ULE(n, text.length), n))
always("take, absent", "n: size", "bool",
       "({ fty_view rest = fty_absent(); const fty_view it = fty_take(&rest, n);"
       f" {IS_ABSENT.format('it')} && {IS_ABSENT.format('rest')}; }})", 1)
row("skip", "text: bytes, n: size", "u32",
    "({ fty_view rest = view; (uint32_t)fty_skip(&rest, n); })",
    lambda p, text, n: status(z3.ULE(n, text.length)))
taken("skip", ", n: size", "(void)!fty_skip(&rest, n)",
      lambda text, n: (z3.ULE(n, text.length), n))
always("skip, absent", "n: size", "bool",
       "({ fty_view rest = fty_absent(); const fty_status it = fty_skip(&rest, n);"
       f" it == (n == 0 ? FTY_OK : FTY_OUT_OF_BOUNDS) && {IS_ABSENT.format('rest')}; }})", 1)


# ---------------------------------------------------------------- fields that are written
def is_kept(text: Text, after: Text) -> z3.BoolRef:
    """No byte is changed: any place stands for each of them."""
    place = z3.BitVec("place", 64)
    return z3.Implies(z3.ULT(place, text.length), after.byte(place) == text.byte(place))


def wrote(
    text: Text, x: Any, at: Any, size: int, result: Any, after: Text, fit: Any = z3.BoolVal(True)
) -> Any:
    """The low bytes of `x` are at `at`, and no other byte is changed; or no byte is, and the status
    says which fails first: that the field is there, or that `x` fits in it."""
    place, is_there = z3.BitVec("place", 64), text.has(at, size)
    expected = text.byte(place)
    for i, it in enumerate(stored(x, size)):
        expected = z3.If(z3.And(is_there, fit, place == at + i), it, expected)
    answer = z3.If(is_there, status(fit, OUT_OF_RANGE), constant(OUT_OF_BOUNDS, 32))
    is_right = z3.Implies(z3.ULT(place, text.length), after.byte(place) == expected)
    return z3.And(result == answer, is_right)


def fits_in(x: BitVecRef, name: str) -> z3.BoolRef:
    """Only 24 bits have no type of their own."""
    return fits_unsigned(24, U(x)) if name == "u24" else z3.BoolVal(True)


REST = "fty_span rest = span;"


def moved(name: str, extra: str, call: str, gone: Callable[..., BitVecRef]) -> None:
    """By how many bytes a call moves `rest`, which it gets as `span` is."""
    of, start = f"text: room{extra}", f"({{ {REST} {call};"
    row(f"{name}, rest", of, "u64", f"{start} {SPANNED.format('rest')}; }})", gone)
    row(f"{name}, length of the rest", of, "u64", f"{start} rest.length; }})",
        lambda p, text, *given: text.length - gone(p, text, *given))


def write(name: str, size: int, type_: str) -> None:
    row(f"put_{name}", f"text: room, x: {type_}", "u32",
        f"({{ {REST} (uint32_t)fty_put_{name}(&rest, x); }})",
        lambda p, text, x, result, after: wrote(
            text, x, ZERO, size, result, after, fits_in(x, name)), True)
    moved(f"put_{name}", f", x: {type_}", f"(void)!fty_put_{name}(&rest, x)",
          lambda p, text, x: z3.If(
              z3.And(text.has(ZERO, size), fits_in(x, name)), constant(size), ZERO))
    always(f"put_{name} and write_{name}, absent", f"x: {type_}", "bool",
           f"({{ fty_span rest = {{NULL, 0}}; fty_put_{name}(&rest, x) == {OUT_OF_BOUNDS}"
           f" && fty_write_{name}(rest, x) == {OUT_OF_BOUNDS} && {IS_ABSENT.format('rest')};"
           " })", 1)
    row(f"write_{name}", f"text: room, x: {type_}, at: size", "u32",
        f"fty_write_{name}(fty_span_from(span, at), x)",
        lambda p, text, x, at, result, after: wrote(
            text, x, at, size, result, after, fits_in(x, name)), True)


def poke(name: str, size: int, type_: str) -> None:
    row(f"poke_{name}", f"text: room, x: {type_}", "u32",
        f"text_length < {size} ? {OUT_OF_BOUNDS} : (fty_poke_{name}(text, x), 0)",
        lambda p, text, x, result, after: wrote(text, x, ZERO, size, result, after), True)


for name, (size, type_) in FIELDS.items():
    write(name, size, type_)
    if size > 1:
        poke(name, size, type_)


def wrote_sized(p: Products, text: Text, x: Any, result: Any, after: Text) -> Any:
    """Of all bytes, 1 to 4."""
    is_refused = z3.And(result == OUT_OF_BOUNDS, is_kept(text, after))
    known = [z3.Implies(z3.Or(text.length == 0, z3.UGT(text.length, 4)), is_refused)]
    for size in range(1, 5):
        is_right = wrote(text, x, ZERO, size, result, after, fits_unsigned(8 * size, U(x)))
        known.append(z3.Implies(text.length == size, is_right))
    return z3.And(known)


row("write_uint", "text: room, x: u32", "u32", "fty_write_uint(span, x)", wrote_sized, True)
always("write_uint, absent", "x: u32", "u32", "fty_write_uint((fty_span){NULL, 0}, x)",
       OUT_OF_BOUNDS)


# ---------------------------------------------------------------- parts of a span
def spanned(name: str, extra: str, it: str, place: Rule) -> None:
    """A part: `place` returns where it begins, how long it is, and whether it is there."""
    of = f"text: room, {extra}"
    found = f"it.bytes == NULL ? UINT64_MAX : {SPANNED.format('it')}"
    row(f"{name}, place", of, "u64", f"({{ {REST} const fty_span it = {it}; {found}; }})",
        lambda *given: (lambda start, n, is_there: z3.If(is_there, start, ABSENT))(*place(*given)))
    row(f"{name}, length", of, "u64", f"({{ {REST} {it}.length; }})",
        lambda *given: (lambda start, n, is_there: z3.If(is_there, n, ZERO))(*place(*given)))
    always(f"{name}, absent", extra, "bool", f"({{ fty_span span = {{NULL, 0}}, rest = span,"
           f" it = {it}; {IS_ABSENT.format('it')} && {IS_ABSENT.format('rest')}; }})", 1)


spanned("span_from", "at: size", "fty_span_from(span, at)",
        lambda p, text, at: (at, text.length - at, z3.ULE(at, text.length)))
spanned("span_take", "n: size", "fty_span_take(&rest, n)",
        lambda p, text, n: (ZERO, n, z3.ULE(n, text.length)))
moved("span_take", ", n: size", "(void)!fty_span_take(&rest, n).bytes",
      lambda p, text, n: z3.If(z3.ULE(n, text.length), n, ZERO))

# The part of `n` bytes at `from`, which is the end of the array or is not.
PART = f"from > text_length || n > text_length - from ? {OUT_OF_BOUNDS}"
PART += " : ({ fty_span part = {text + from, n}; %s; })"


def wrote_offset(size: int) -> Callable[..., Any]:
    def rule(
        p: Products, text: Text, at: Any, start: Any, n: Any, result: Any, after: Text
    ) -> Any:
        """The field has to be there, and the part to be the end; then its place to fit, and not to
        be 0."""
        is_end = z3.And(z3.ULE(start, text.length), n == text.length - start)
        fit = z3.And(start != 0, fits_unsigned(8 * size, U(start)))
        is_refused = z3.And(result == OUT_OF_BOUNDS, is_kept(text, after))
        right = wrote(text, start, at, size, result, after, fit)
        return z3.If(is_end, right, is_refused)

    return rule


for size in (2, 3, 4):
    name = f"write_offset{8 * size}"
    row(name, "text: room, at: size, from: size, n: size", "u32",
        PART % f"(uint32_t)fty_{name}(span, at, part)", wrote_offset(size), True)
    for one, other in (("span", "none"), ("none", "span")):
        row(f"{name}, of {one} to {other}", "text: room, at: size", "u32",
            f"({{ const fty_span none = {{NULL, 0}}; (uint32_t)fty_{name}({one}, at, {other}); }})",
            lambda p, text, at, result, after: z3.And(
                result == OUT_OF_BOUNDS, is_kept(text, after)), True)
    # A part that begins before its table, or with it.
    row(f"{name}, before", "text: room, from: size", "u32",
        f"(uint32_t)fty_{name}(fty_span_from(span, from), 0, span)",
        lambda p, text, start, result, after, size=size: z3.And(
            is_kept(text, after), result == z3.If(
                z3.And(start == 0, text.has(ZERO, size)), constant(OUT_OF_RANGE, 32),
                constant(OUT_OF_BOUNDS, 32))), True)


def zeros(text: Text, start: Any, n: Any) -> tuple[Any, Any]:
    """How many bytes are missing to a multiple of 4, and whether they are there."""
    count = z3.URem(4 - z3.URem(start, 4), 4)
    is_end = z3.And(z3.ULE(start, text.length), n == text.length - start)
    return count, z3.And(is_end, z3.ULE(count, n))


def wrote_zeros(
    p: Products, text: Text, start: Any, n: Any, result: Any, after: Text
) -> Any:
    place = z3.BitVec("place", 64)
    count, is_done = zeros(text, start, n)
    new = z3.If(z3.And(is_done, z3.ULT(place - start, count)), constant(0, 8), text.byte(place))
    is_right = z3.Implies(z3.ULT(place, text.length), after.byte(place) == new)
    return z3.And(result == status(is_done), is_right)


row("put_zeros_to_4", "text: room, from: size, n: size", "u32",
    PART % "(uint32_t)fty_put_zeros_to_4(&part, span)", wrote_zeros, True)
for name, it, of in (
    ("rest", SPANNED.format("part"), lambda start, n, count: start + count),
    ("length of the rest", "part.length", lambda start, n, count: n - count),
):
    row(f"put_zeros_to_4, {name}", "text: room, from: size, n: size", "u64",
        PART % f"(void)!fty_put_zeros_to_4(&part, span); (uint64_t)({it})",
        lambda p, text, start, n, of=of: z3.If(
            z3.And(z3.ULE(start, text.length), z3.ULE(n, text.length - start)),
            of(start, n, z3.If(zeros(text, start, n)[1], zeros(text, start, n)[0], ZERO)),
            constant(OUT_OF_BOUNDS)))
row("put_zeros_to_4, before", "text: room, from: size", "u32",
    f"({{ {REST} (uint32_t)fty_put_zeros_to_4(&rest, fty_span_from(span, from)); }})",
    lambda p, text, start, result, after: z3.And(
        is_kept(text, after), result == status(start == 0)), True)
for name, it, then in (
    ("place", "it.bytes == NULL ? UINT64_MAX : (uint64_t)(" + SPANNED.format("it") + ")",
     lambda start, is_end: z3.If(is_end, ZERO, ABSENT)),
    ("length", "(uint64_t)it.length", lambda start, is_end: z3.If(is_end, start, ZERO)),
):
    row(f"written, {name}", "text: room, from: size, n: size", "u64",
        PART % f"const fty_view it = fty_written(span, part); {it}",
        lambda p, text, start, n, then=then: z3.If(
            z3.And(z3.ULE(start, text.length), z3.ULE(n, text.length - start)),
            then(start, n == text.length - start), constant(OUT_OF_BOUNDS)))
row("written, before", "text: room, from: size", "u64",
    "fty_written(fty_span_from(span, from), span).length", lambda p, text, start: ZERO)
always("written, absent", "x: u8", "bool",
       "({ const fty_span rest = {NULL, 0}; const fty_view it = fty_written(rest, rest);"
       f" {IS_ABSENT.format('it')}; }})", 1)
always("put_zeros_to_4, absent", "x: u8", "bool",
       f"({{ fty_span rest = {{NULL, 0}}; fty_put_zeros_to_4(&rest, rest) == {OUT_OF_BOUNDS}"
       f" && {IS_ABSENT.format('rest')}; }})", 1)

# ---------------------------------------------------------------- parts of a view
always("absent", "x: u8", "bool",
       f"({{ const fty_view it = fty_absent(); {IS_ABSENT.format('it')}; }})", 1)


def part(name: str, extra: str, call: str, place: Rule) -> None:
    """`place` returns where the part begins, how long it is, and whether it is there. Of an absent
    view, each part has null bytes and no length."""


    def found(which: int, none: BitVecRef) -> Rule:
        def value(*given: Any) -> BitVecRef:
            outcome = place(*given)
            return z3.If(outcome[2], outcome[which], none)

        return value

    of, it = f"text: bytes, {extra}", f"it = fty_{call}"
    row(f"{name}, place", of, "u64", f"({{ const fty_view {it}; {IN_VIEW}; }})", found(0, ABSENT))
    row(f"{name}, length", of, "u64", f"fty_{call}.length", found(1, ZERO))
    always(f"{name}, absent", extra, "bool",
           f"({{ const fty_view view = fty_absent(), {it}; {IS_ABSENT.format('it')}; }})", 1)


def to_the_end(p: Products, text: Text, at: BitVecRef) -> Outcome:
    return at, text.length - at, z3.ULE(at, text.length)


def at_offset(size: int) -> Rule:
    def place(p: Products, text: Text, at: BitVecRef) -> Outcome:
        offset = z3.ZeroExt(64 - 8 * size, together(text.bytes(at, size)))
        start, count, is_there = to_the_end(p, text, offset)
        return start, count, z3.And(text.has(at, size), offset != 0, is_there)

    return place


def items(p: Products, text: Text, n: Any, size: Any) -> Outcome:
    """As many as the size fits in what is there, computed in the bits of a length."""
    low: Rule = lambda it: z3.simplify(z3.Extract(inputs.POINTER - 1, 0, it))
    fit = z3.Or(size == 0, z3.ULE(low(n), p.arithmetic.divide(low(text.length), low(size))))
    length = z3.ZeroExt(64 - inputs.POINTER, p.arithmetic.multiply(low(n), low(size)))
    return ZERO, length, fit


part("first", "n: size", "first(view, n)",
     lambda p, text, n: (ZERO, n, z3.ULE(n, text.length)))
part("items", "n: size, size: size", "items(view, n, size)", items)
part("from", "at: size", "from(view, at)", to_the_end)
part("follow", "at: size", "follow(view, at)", lambda p, text, at: (
    at, text.length - at, z3.And(at != 0, z3.ULE(at, text.length))))
for size in (2, 3, 4):
    part(f"at_offset{8 * size}", "at: size", f"at_offset{8 * size}(view, at)", at_offset(size))


# ---------------------------------------------------------------- the scalar of a region
def region(p: Products, text: Text, at: Text) -> BitVecRef:
    """Of a region of 6 bytes for each coordinate. Else nothing is stored."""
    is_fit = U(text.length) == 6 * U(at.count)
    scalar = region_scalar(p, text, ZERO, at.count, lambda k: at.held(2 * k, 2))
    return z3.Concat(status(is_fit), z3.If(is_fit, scalar, constant(KEPT, 32)))


REGION = (f"({{{{ int32_t it = {KEPT}; const uint64_t status = fty_region_scalar({{}}, at,"
          " at_length, &it); status << 32 | (uint32_t)it; }})")
row("region_scalar", "text: bytes, at: coordinates", "u64", REGION.format("view"), region)
row("region_scalar, absent", "at: coordinates", "u64", REGION.format("fty_absent()"),
    lambda p, at: constant(OUT_OF_BOUNDS << 32 | KEPT))


# ---------------------------------------------------------------- copies
def copied(
    text: Text, at: BitVecRef, of: Text, start: BitVecRef, n: BitVecRef, result: Any, after: Text
) -> Any:
    """Each byte is that of the view before, or what it was."""
    place, within = z3.BitVec("place", 64), z3.And(z3.ULE(at, text.length), z3.ULE(start, of.length))
    fit = z3.And(within, z3.ULE(n, text.length - at), z3.ULE(n, of.length - start))
    here = z3.And(fit, z3.ULT(place - at, n))
    new = z3.If(here, of.byte(z3.simplify(start + (place - at))), text.byte(place))
    is_right = z3.Implies(z3.ULT(place, text.length), after.byte(place) == new)
    return z3.And(result == status(fit), is_right)


row("write_bytes", "text: room, at: size, other: bytes", "u32",
    "fty_write_bytes(fty_span_from(span, at), (fty_view){other, other_length})",
    lambda p, text, at, other, after, result, _: copied(
        text, at, other, ZERO, other.length, result, after), True)
row("write_bytes, own", "text: room, at: size, from: size, n: size", "u32",
    f"n > text_length || from > text_length - n ? {OUT_OF_BOUNDS}"
    " : (uint32_t)fty_write_bytes(fty_span_from(span, at), (fty_view){text + from, n})",
    lambda p, text, at, start, n, result, after: copied(
        text, at, text, start, n, result, after), True)
row("write_bytes, absent", "text: room, at: size", "u32",
    "fty_write_bytes(fty_span_from(span, at), fty_absent())",
    lambda p, text, at, result, after: z3.And(
        result == status(z3.ULE(at, text.length)), is_kept(text, after)), True)
always("write_bytes, to none", "other: bytes", "u32",
       "fty_write_bytes((fty_span){NULL, 0}, (fty_view){other, other_length})", OUT_OF_BOUNDS)
OTHER = "fty_put_bytes(&rest, (fty_view){other, other_length})"
row("put_bytes", "text: room, other: bytes", "u32", f"({{ {REST} (uint32_t){OTHER}; }})",
    lambda p, text, other, after, result, _: copied(
        text, ZERO, other, ZERO, other.length, result, after), True)
moved("put_bytes", ", other: bytes", f"(void)!{OTHER}",
      lambda p, text, other: z3.If(z3.ULE(other.length, text.length), other.length, ZERO))
moved("put_bytes, absent", "", "(void)!fty_put_bytes(&rest, fty_absent())", lambda p, text: ZERO)
# fmt: on
