"""Rows of arrays of scalars, of fields, of headers, and of what an offset points to, in bytes of
any length. Of what a function returns as bytes, a row asks for any one byte, which is there or not:
so it says where the bytes begin, and how many they are."""

from collections.abc import Callable

import z3
from z3 import BitVecRef, BoolRef

from rows.row import Rule, case, relation
from rows.rules import B, S, Text, U, low, some, together
from rows.scalars import BYTES, SCALARS, ZERO, Kind, written

# fmt: off

I = "i: size"
BYTE = ".get(i).copied()"


def of(made: str, body: str) -> str:
    """What a body returns of what is made, which is `None` or not. It is no closure, so that the
    wrapper itself calls the functions."""
    return f"{{ let Some(it) = {made} else {{ return 0 }}; {body} }}"


# ---------------------------------------------------------------- arrays of scalars
# Of each number of bytes, all functions of arrays. What differs in other types is how an element is
# decoded, which the rows of fields have too.
WIDTHS = ("u8", "u16", "Uint24", "u32", "i64")


def count(length: BitVecRef, size: int) -> BitVecRef:
    """How many elements so many bytes hold."""
    return z3.UDiv(length, z3.BitVecVal(size, 64))


def has(text: Text, at: BitVecRef, n: BitVecRef, size: int) -> BoolRef:
    """Whether so many elements are there, from an offset on."""
    return z3.And(z3.ULE(at, text.length), z3.ULE(n, count(text.length - at, size)))


def element(kind: Kind, text: Text, at: BitVecRef, i: BitVecRef) -> BitVecRef:
    """The elements are one after another."""
    return kind.value(text.bytes(at + i * kind.size, kind.size))


def elements_of(kind: Kind) -> None:
    case(f"ScalarArray::<{kind.name}>::read_at", f"text: bytes, at: size, n: size, {I}",
         f"?{kind.result}", of(f"ScalarArray::<{kind.type}>::read_at(text, at, n)",
                               f"it.get(i).map(|it| it{kind.get})"), lambda p, text, at, n, i: some(
             z3.And(has(text, at, n, kind.size), z3.ULT(i, n)), element(kind, text, at, i)),
         is_long=kind.name not in WIDTHS)


def array_of(kind: Kind) -> None:
    T, size, result = f"ScalarArray::<{kind.name}>", kind.size, f"?{kind.result}"
    array, get = f"ScalarArray::<{kind.type}>", f".map(|it| it{kind.get})"
    is_whole = lambda text: z3.URem(text.length, z3.BitVecVal(size, 64)) == 0

    def of_new(name: str, more: str, call: str, index: Rule, fit: Callable[..., BoolRef]) -> None:
        """A function that returns an element of an array of all bytes."""
        case(f"{T}::{name}", f"text: bytes{more}", result,
             of(f"{array}::new(text)", f"{call}{get}"),
             lambda p, text, *given: (lambda n: some(
                 z3.And(is_whole(text), fit(n, *given)), element(kind, text, ZERO, index(n, *given))
             ))(count(text.length, size)))

    case(f"{T}::len", "text: bytes", "?u64", of(f"{array}::new(text)", "Some(it.len() as u64)"),
         lambda p, text: some(is_whole(text), count(text.length, size)))
    case(f"{T}::is_empty", "text: bytes", "?u8",
         of(f"{array}::new(text)", "Some(it.is_empty() as u8)"),
         lambda p, text: some(is_whole(text), z3.ZeroExt(7, B(text.length == 0))))
    case(f"{T}::default", I, result, f"{array}::default().get(i){get}",
         lambda p, i: some(z3.BoolVal(False), z3.BitVecVal(0, int(kind.result[1:]))))
    of_new("get", f", {I}", "it.get(i)", lambda n, i: i, lambda n, i: z3.ULT(i, n))
    of_new("first", "", "it.first()", lambda n: ZERO, lambda n: n != 0)
    of_new("last", "", "it.last()", lambda n: n - 1, lambda n: n != 0)
    of_new("slice", f", a: size, b: size, {I}", of("it.slice(a..b)", "it.get(i)"),
           lambda n, a, b, i: a + i,
           lambda n, a, b, i: z3.And(z3.ULE(a, b), z3.ULE(b, n), z3.ULT(i, b - a)))
    of_new("as_raw", f", {I}",
           f"it.as_raw().get(i).map(|it| <{kind.type} as Scalar>::from_raw(*it))",
           lambda n, i: i, lambda n, i: z3.ULT(i, n))
    # What a quotient by 3 leaves takes long.
    chunks = f"<[u8; {size}] as ByteChunks>::as_chunks(text)"
    case(f"[u8; {size}]::as_chunks", f"text: bytes, {I}", result,
         f"{chunks}.0.get(i).map(|it| <{kind.type} as Scalar>::from_raw(*it){kind.get})",
         lambda p, text, i: some(
             z3.ULT(i, count(text.length, size)), element(kind, text, ZERO, i)))
    case(f"[u8; {size}]::as_chunks, rest", f"text: bytes, {I}", "?u8", f"{chunks}.1{BYTE}",
         lambda p, text, i: (lambda start: some(
             z3.ULT(i, text.length - start), text.byte(start + i)
         ))(count(text.length, size) * size), is_long=size == 3)
    given = "text: bytes, at: size, n: size"
    read = f"{array}::read_at(text, at, n)"
    case(f"{T}::read_at, len", given, "?u64", of(read, "Some(it.len() as u64)"),
         lambda p, text, at, n: some(has(text, at, n, size), n))
    case(f"{T}::as_bytes", f"{given}, {I}", "?u8",
         of(read, f"it.as_bytes(){BYTE}"),
         lambda p, text, at, n, i: some(
             z3.And(has(text, at, n, size), z3.ULT(i, n * size)), text.byte(at + i)))
    taken = f"{{ let mut rest = text; let taken = {array}::take_from(&mut rest, n);"
    case(f"{T}::take_from", f"text: bytes, n: size, {I}", result,
         f"{taken} {of('taken', 'it.get(i)')}{get} }}",
         lambda p, text, n, i: some(
             z3.And(has(text, ZERO, n, size), z3.ULT(i, n)), element(kind, text, ZERO, i)))
    case(f"{T}::take_from, rest", f"text: bytes, n: size, {I}", "?u8",
         f"{taken} let _ = taken; rest{BYTE} }}",
         lambda p, text, n, i: (lambda start: some(
             z3.ULT(i, text.length - start), text.byte(start + i)
         ))(z3.If(has(text, ZERO, n, size), n * size, ZERO)), is_long=size == 3)


def iterator_of(kind: Kind) -> None:
    """An iterator has nothing but the array that is left. So what is shown of the iterator of any
    array is shown of each."""
    T, new = f"ScalarArray::<{kind.name}>::into_iter", f"ScalarArray::<{kind.type}>::new(text)"
    is_whole = lambda text: z3.URem(text.length, z3.BitVecVal(kind.size, 64)) == 0

    def of_left(name: str, more: str, call: str, index: Rule, fit: Callable[..., BoolRef]) -> None:
        """A function that returns an element, of an array of all bytes."""
        body = f"{{ let mut left = it.into_iter(); {call}.map(|it| it{kind.get}) }}"
        case(f"{T}, {name}", f"text: bytes{more}", f"?{kind.result}", of(new, body),
             lambda p, text, *given: (lambda n: some(
                 z3.And(is_whole(text), n != 0, fit(n, *given)),
                 element(kind, text, ZERO, index(n, *given))))(count(text.length, kind.size)))

    is_any, is_left = lambda n: z3.BoolVal(True), lambda n, i: z3.ULT(i, n - 1)
    rest = "let _ = left.{}(); left.as_array().get(i)".format
    of_left("next", "", "left.next()", lambda n: ZERO, is_any)
    of_left("next, rest", f", {I}", rest("next"), lambda n, i: i + 1, is_left)
    of_left("next_back", "", "left.next_back()", lambda n: n - 1, is_any)
    of_left("next_back, rest", f", {I}", rest("next_back"), lambda n, i: i, is_left)
    of_left("clone", f", {I}", "left = (&it).into_iter().clone(); left.as_array().get(i)",
            lambda n, i: i, lambda n, i: z3.ULT(i, n))
    case(f"{T}, len", "text: bytes", "?u64",
         of(new, "{ let it = it.into_iter(); Some(if it.size_hint() == (it.len(), Some(it.len()))"
            " { it.len() as u64 } else { u64::MAX }) }"),
         lambda p, text: some(is_whole(text), count(text.length, kind.size)))


# ---------------------------------------------------------------- fields
def field_of(kind: Kind) -> None:
    T, size, result = f"BigEndian::<{kind.name}>", kind.size, f"?{kind.result}"
    field = f"BigEndian::<{kind.type}>"
    exact = lambda p, text: some(text.length == size, kind.value(text.bytes(0, size)))
    case(f"{kind.name}::read", "text: bytes", result,
         f"<{kind.type} as Scalar>::read(text).map(|it| it{kind.get})", exact)
    case(f"{T}::from_slice", "text: bytes", result,
         of(f"{field}::from_slice(text)", f"Some(it.get(){kind.get})"), exact)
    case(f"{T}::read_at", "text: bytes, at: size", result,
         of(f"{field}::read_at(text, at)", f"Some(it.get(){kind.get})"),
         lambda p, text, at: some(text.has(at, size), kind.value(text.bytes(at, size))))
    one, other = BYTES[:size], BYTES.upper()[:size]
    given = ", ".join(f"{it}: u8" for it in one)
    made = lambda names: f"{field}::new([{', '.join(names)}])"
    relation(f"{T}::write_at", f"text: room, {given}, at: size", "bool",
             f"{made(one)}.write_at(text, at).is_some()",
             lambda p, text, *v: written(text, U(together(v[:size])), v[size], size, *v[size + 1:]))
    case(f"{T}::be_bytes", f"{given}, {I}", "?u8", f"{made(one)}.be_bytes().get(i).copied()",
         lambda p, *v: (lambda i, text: some(z3.ULT(i, z3.BitVecVal(size, 64)), text))(
             v[-1], byte_at(v[:-1], v[-1])))
    both = ", ".join(f"{it}: u8" for it in one + other)
    values = lambda v: (kind.value(v[:size]), kind.value(v[size:]))
    case(f"{T} ==", both, "bool", f"{made(one)} == {made(other)}",
         lambda p, *v: B(z3.And([a == b for a, b in zip(v[:size], v[size:])])))
    case(f"{T} == {kind.name}", both, "bool",
         f"{made(one)} == <{kind.type} as Scalar>::from_raw([{', '.join(other)}])",
         lambda p, *v: B(values(v)[0] == values(v)[1]))
    if "Nullable" not in kind.name:
        case(f"{T}::cmp", both, "i8", f"{made(one)}.cmp(&{made(other)}) as i8",
             lambda p, *v: order(*map(S if kind.integer[0] == "i" else U, values(v))))


def byte_at(some_bytes: tuple[BitVecRef, ...], i: BitVecRef) -> BitVecRef:
    found = z3.BitVecVal(0, 8)
    for at, it in enumerate(some_bytes):
        found = z3.If(i == at, it, found)
    return found


def order(x: BitVecRef, y: BitVecRef) -> BitVecRef:
    """-1 if x is less than y, 1 if it is greater, and else 0."""
    one = lambda n: z3.BitVecVal(n, 8)
    return z3.If(x < y, one(-1), z3.If(x > y, one(1), one(0)))


for kind in SCALARS:
    field_of(kind)
for kind in SCALARS:
    elements_of(kind)
    if kind.name in WIDTHS:
        array_of(kind)
    # What a quotient by 3 leaves takes long.
    if kind.name in WIDTHS and kind.size != 3:
        iterator_of(kind)

# ---------------------------------------------------------------- offsets, headers and records
for size, make in ((2, "Offset16::new(x)"), (3, "Offset24::new(Uint24::new(x))"),
                   (4, "Offset32::new(x)")):
    case(f"Offset{8 * size}::follow", f"x: {'u16' if size == 2 else 'u32'}, text: bytes, {I}",
         "?u8", of(f"OffsetValue::follow({make}, text)", f"it{BYTE}"),
         lambda p, x, text, i, size=size: (lambda start: some(
             z3.And(start != 0, z3.ULE(start, text.length), z3.ULT(i, text.length - start)),
             text.byte(start + i)))(z3.Extract(63, 0, low(U(x), (1 << 8 * size) - 1))))

case("Tag == [u8]", "x: u32, text: bytes", "bool", "Tag::from_u32(x).eq_slice(text)",
     lambda p, x, text: B(z3.And(text.length == 4, together(text.bytes(0, 4)) == x)))
case("Tag == str", "x: u32, text: bytes", "bool",
     "Tag::from_u32(x).eq_str(unsafe { core::str::from_utf8_unchecked(text) })",
     lambda p, x, text: B(z3.And(text.length == 4, together(text.bytes(0, 4)) == x)))

# A header of six bytes: `a` of two, and `b` of four.
HEADER, TABLE = z3.BitVecVal(6, 64), "TableDataRef::<font_types::SampleHeader>::new(text)"
HEAD = "Some((it.a.get() as u64) << 32 | it.b.get() as u64)"
of_header = lambda p, text: some(
    z3.ULE(HEADER, text.length), z3.ZeroExt(16, together(text.bytes(0, 6))))
rest = lambda p, text, i: some(
    z3.And(z3.ULE(HEADER, text.length), z3.ULT(i, text.length - 6)), text.byte(HEADER + i))
case("TableDataRef::header", "text: bytes", "?u64",
     of(TABLE, f"let it = it.header(); {HEAD}"), of_header)
case("TableDataRef::split, header", "text: bytes", "?u64",
     of(TABLE, f"let it = it.split().0; {HEAD}"), of_header)
case("TableDataRef::split, rest", f"text: bytes, {I}", "?u8",
     of(TABLE, f"it.split().1{BYTE}"), rest)
case("TableDataRef::rest", f"text: bytes, {I}", "?u8",
     of(TABLE, f"it.rest(){BYTE}"), rest)
case("TableDataRef::data", f"text: bytes, {I}", "?u8",
     of(TABLE, f"it.data(){BYTE}"),
     lambda p, text, i: some(
         z3.And(z3.ULE(HEADER, text.length), z3.ULT(i, text.length)), text.byte(i)))
# fmt: on
