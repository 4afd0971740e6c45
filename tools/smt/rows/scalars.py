"""Rows of integers of 24 bits, and of the bytes of scalars."""

import re
from typing import Any, NamedTuple

import z3

from rows.fixed import of_bits
from rows.row import CASES, case, relation

from rows.rules import (
    B, S, U, Text, big_endian, fits, fits_unsigned, low, saturate, some, stored, together, wrap,
)  # fmt: skip

# fmt: off
# ---------------------------------------------------------------- integers of 24 bits
LARGEST, ZERO = 0xFF_FFFF, z3.BitVecVal(0, 64)
for T in ("Uint24", "GlyphId24"):
    case(f"{T}::new", "x: u32", "u32", f"{T}::new(x).to_u32()",
         lambda p, x: wrap(32, low(U(x), LARGEST)))
    case(f"{T}::checked_new", "x: u32", "?u32", f"{T}::checked_new(x).map({T}::to_u32)",
         lambda p, x: some(fits_unsigned(24, U(x)), x))
case("Uint24: TryFrom<usize>", "x: size", "?u32",
     "Uint24::try_from(x).ok().map(Uint24::to_u32)",
     lambda p, x: some(fits_unsigned(24, U(x)), wrap(32, U(x))))
case("Uint24::to_be_bytes", "x: u32", "[3]", "Uint24::new(x).to_be_bytes()",
     lambda p, x: big_endian(low(U(x), LARGEST), 3))
case("Int24::new", "x: i32", "i32", "Int24::new(x).to_i32()",
     lambda p, x: z3.SignExt(8, saturate(24, S(x))))
case("Int24::checked_new", "x: i32", "?i32", "Int24::checked_new(x).map(Int24::to_i32)",
     lambda p, x: some(fits(24, S(x)), x))
case("i32: From<Int24>", "x: i32", "i32", "i32::from(Int24::new(x))",
     lambda p, x: z3.SignExt(8, saturate(24, S(x))))
case("Int24::to_be_bytes", "x: i32", "[3]", "Int24::new(x).to_be_bytes()",
     lambda p, x: big_endian(saturate(24, S(x)), 3))


# ---------------------------------------------------------------- bytes of scalars
class Kind(NamedTuple):
    """A scalar: how many bytes store it, an integer type, its maker, and how to get the integer."""
    name: str
    size: int
    integer: str
    make: str
    get: str

    @property
    def type(self) -> str:
        return self.name.replace("::<", "<")

    @property
    def result(self) -> str:
        """The type of the integer that `get` returns."""
        return self.integer if "u32" not in self.get else "u32"

    def value(self, stored_bytes: list[Any]) -> Any:
        """The integer of the bytes."""
        extend = S if self.integer[0] == "i" else U
        return wrap(int(self.result[1:]), extend(together(stored_bytes)))


SCALARS = [Kind(name, int(size), *others) for name, size, *others in map(str.split, """\
Fixed 4 i32 Fixed::from_bits(x) .to_bits()
F2Dot30 4 i32 F2Dot30::from_bits(x) .to_bits()
F2Dot14 2 i16 F2Dot14::from_bits(x) .to_bits()
F4Dot12 2 i16 F4Dot12::from_bits(x) .to_bits()
F6Dot10 2 i16 F6Dot10::from_bits(x) .to_bits()
FWord 2 i16 FWord::new(x) .to_i16()
UfWord 2 u16 UfWord::new(x) .to_u16()
LongDateTime 8 i64 LongDateTime::new(x) .as_secs()
Uint24 3 u32 Uint24::new(x) .to_u32()
Int24 3 i32 Int24::new(x) .to_i32()
GlyphId16 2 u16 GlyphId16::new(x) .to_u16()
GlyphId24 3 u32 GlyphId24::new(x) .to_u32()
Offset16 2 u16 Offset16::new(x) .to_u32()
Offset24 3 u32 Offset24::new(Uint24::new(x)) .to_u32()
Offset32 4 u32 Offset32::new(x) .to_u32()
Nullable::<Offset16> 2 u16 Nullable::<Offset16>::from_raw(x.to_be_bytes()) .offset().to_u32()
Nullable::<Offset24> 3 u32 Nullable::<Offset24>::from_raw(Uint24::new(x).to_raw()) \
    .offset().to_u32()
Nullable::<Offset32> 4 u32 Nullable::<Offset32>::from_raw(x.to_be_bytes()) .offset().to_u32()
Tag 4 u32 Tag::from_u32(x) .to_u32()
NameId 2 u16 NameId::new(x) .to_u16()""".splitlines())]
SCALARS += [Kind(T, int(T[1:]) // 8, T, "x", ".to_le()")
            for T in ("u8", "i8", "u16", "i16", "u32", "i32", "i64")]
BYTES = "abcdefgh"


def bytes_of(kind: Kind) -> None:
    """"Decoding is the inverse of encoding", and both are by the stored integer."""
    T, size, i, make, get = kind
    value, result, extended = kind.type, kind.result, kind.value
    # Integers of 24 bits saturate.
    clip = (lambda x: S(saturate(24, S(x)))) if T == "Int24" else (
        lambda x: low(U(x), LARGEST) if size == 3 else U(x))
    decoded, encoded = lambda p, *v: extended(v), lambda p, *v: big_endian(clip(v[-1]), size)
    read = lambda p, text, at=ZERO: some(text.has(at, size), extended(text.bytes(at, size)))
    given, array = ", ".join(f"{it}: u8" for it in BYTES[:size]), f"[{', '.join(BYTES[:size])}]"
    case(f"{T}::from_raw", given, result, f"<{value} as Scalar>::from_raw({array}){get}", decoded)
    case(f"{T}::to_raw", f"x: {i}", f"[{size}]", f"Scalar::to_raw({make})", encoded)
    field = f"BigEndian::<{value}>"
    case(f"BigEndian::<{T}>::get", given, result, f"{field}::new({array}).get(){get}", decoded)
    case(f"BigEndian::<{T}>::set", f"{given}, x: {i}", f"[{size}]",
         f"{{ let mut field = {field}::new({array}); field.set({make});"
         " Scalar::to_raw(field.get()) }", encoded)
    case(f"{T}::read_at", "text: bytes, at: size", f"?{result}",
         f"<{value} as Scalar>::read_at(text, at).map(|it| it{get})", read)
    taken = f"{{ let mut rest = text; let taken = <{value} as Scalar>::take_from(&mut rest);"
    case(f"{T}::take_from", "text: bytes", f"?{result}", f"{taken} taken.map(|it| it{get}) }}",
         read)
    case(f"{T}::take_from, rest", "text: bytes, at: size", "?u8",
         f"{taken} let _ = taken; rest.get(at).copied() }}",
         lambda p, text, at: rest_byte(text, at, size))
    if T in "FWord UfWord GlyphId16 GlyphId24 NameId LongDateTime".split():
        case(f"{T}::to_be_bytes", f"x: {i}", f"[{size}]", f"{make}.to_be_bytes()", encoded)
    if T in ("Uint24", "Int24", "GlyphId24", "Tag"):
        case(f"{T}::from_be_bytes", given, result, f"{T}::from_be_bytes({array}){get}", decoded)
    relation(f"{T}::write_at", f"text: room, x: {i}, at: size", "bool",
             f"{make}.write_at(text, at).is_some()",
             lambda p, text, x, at, result, after: written(text, clip(x), at, size, result, after))


def rest_byte(text: Text, at: Any, size: int) -> Any:
    """The byte at `at` after the first `size` bytes, which are passed if they are there."""
    start = z3.If(text.has(ZERO, size), z3.BitVecVal(size, 64), ZERO)
    return some(z3.ULT(at, text.length - start), text.byte(start + at))


def written(text: Text, n: Any, at: Any, size: int, result: Any, after: Text) -> Any:
    """The value is stored at its place, if there is room, and "`write_at` leaves all other bytes as
    they were". Any place stands for each of them."""
    place, has = z3.BitVec("place", 64), text.has(at, size)
    expected = text.byte(place)
    for i, it in enumerate(stored(n, size)):
        expected = z3.If(z3.And(has, place == at + i), it, expected)
    is_kept = z3.Implies(z3.ULT(place, text.length), after.byte(place) == expected)
    return z3.And(result == B(has), is_kept)


for kind in SCALARS:
    bytes_of(kind)


def of_each_f(w: int) -> None:
    """`FixedI16<F>`, `FixedI32<F>` and `FixedI64<F>`, of each F less than the width: one function
    that takes F, whose arms are what the rows of a format call."""
    first = len(CASES)
    of_bits("T", w)
    if w == 16:
        bytes_of(Kind("T", w // 8, f"i{w}", "T::from_bits(x)", ".to_bits()"))
    for at, row in enumerate(CASES[first:], first):
        arms = (f"{f if f + 1 < w else '_'} => {{ type T = FixedI{w}<{f}>; {row.body} }}"
                for f in range(w))
        CASES[at] = row._replace(
            name=re.sub(r"\bT\b", f"FixedI{w}<F>", row.name), body=f"match f {{ {' '.join(arms)} }}",
            parameters=[("f", "u8"), *row.parameters],
            rule=lambda p, f, *v, rule=row.rule: rule(p, *v))


for w in (16, 32, 64):
    of_each_f(w)
# fmt: on
