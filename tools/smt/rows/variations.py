"""Rows of variations of fonts, by OpenType's chapters on `fvar`, `avar`, `HVAR` and item variation
stores."""

from typing import Any

import z3
from z3 import BitVecRef, BoolRef

from rows.row import case, relation
from rows.rules import ONE, B, Products, Text, along, region_scalar, some, together
from rows.scalars import ZERO

# fmt: off
# ---------------------------------------------------------------- the scalar along one axis
F2 = "F2Dot14::from_bits({})".format
REGION = (f"RegionAxisCoordinates {{ start_coord: {F2('start')}, peak_coord: {F2('peak')},"
          f" end_coord: {F2('end')} }}")
relation("RegionAxisCoordinates::scalar", "start: i16, peak: i16, end: i16, x: i16", "i32",
         f"variations::{REGION}.scalar({F2('x')}).to_bits()",
         lambda p, *given: z3.Or([z3.And(it, given[-1] == scalar)
                                  for scalar, it in along(p, ONE, *given[:-1])]))


# ---------------------------------------------------------------- indices of delta sets
INDEX = "|it: variations::DeltaSetIndex| (it.outer as u64) << 32 | it.inner as u64"


def split(entry: BitVecRef, bits: BitVecRef) -> BitVecRef:
    """The inner index is the low bits of an entry, and the outer index the bits above."""
    inner = entry & (z3.BitVecVal(1, 32) << bits) - 1
    return z3.Concat(z3.LShR(entry, bits), inner)


case("DeltaSetIndex::from_u32", "x: u32", "u64",
     f"({INDEX})(variations::DeltaSetIndex::from_u32(x))",
     lambda p, x: split(x, z3.BitVecVal(16, 32)))
case("DeltaSetIndex::is_no_variation", "x: u32, y: u32", "bool",
     "variations::DeltaSetIndex { outer: x, inner: y }.is_no_variation()",
     lambda p, x, y: B(z3.And(x == 0xFFFF, y == 0xFFFF)))


def number(text: Text, at: Any, size: int) -> BitVecRef:
    """An unsigned number of a table, in 64 bits."""
    return z3.ZeroExt(64 - 8 * size, together(text.bytes(at, size)))


def C(n: int) -> BitVecRef:
    return z3.BitVecVal(n, 64)


def has(text: Text, at: Any, n: Any) -> BoolRef:
    """Whether so many bytes are there. No sum of offsets of a table reaches 2^64."""
    return z3.ULE(at + n, text.length)


def entry(text: Text, x: BitVecRef, base: BitVecRef = ZERO) -> tuple[BoolRef, BitVecRef]:
    """Whether a map that begins at `base` has the entry of an index, and its indices. The map has a
    format, the format of entries, their count, and the entries; the last entry is that of each
    index past it. Format 0 has a count of two bytes, and format 1 of four."""
    is_long = text.byte(base) == 1
    format_ = z3.ZeroExt(24, text.byte(base + 1))
    count = z3.If(is_long, number(text, base + 2, 4), number(text, base + 2, 2))
    start = z3.If(is_long, C(6), C(4))
    size = z3.ZeroExt(32, z3.LShR(format_ & 0x30, 4)) + 1
    last, index = count - 1, z3.ZeroExt(64 - x.size(), x)
    at = base + start + z3.If(z3.ULT(last, index), last, index) * size
    found = z3.BitVecVal(0, 32)
    for n in range(1, 5):
        found = z3.If(size == n, z3.Extract(31, 0, number(text, at, n)), found)
    is_there = z3.And(has(text, base, C(1)), z3.ULE(text.byte(base), 1), has(text, base, start),
                      count != 0, has(text, at, size))
    return is_there, split(found, (format_ & 0x0F) + 1)


case("DeltaSetIndexMap::get", "text: bytes, x: u32", "?u64",
     f"variations::DeltaSetIndexMap::new(text).and_then(|it| it.get(x)).map({INDEX})",
     lambda p, text, x: some(*entry(text, x)))
case("DeltaSetIndexMap::new", "text: bytes", "bool",
     "variations::DeltaSetIndexMap::new(text).is_some()",
     lambda p, text: B(z3.And(text.length != 0, z3.ULE(text.byte(ZERO), 1))))


# ---------------------------------------------------------------- tables and their headers
def is_version(text: Text, at: Any, version: int) -> BoolRef:
    """The first field of a table: its major version, or its format."""
    return z3.And(has(text, at, C(2)), number(text, at, 2) == version)


def target(text: Text, start: Any, at: int) -> tuple[BoolRef, BitVecRef]:
    """Whether an `Offset32` of a part of a table points into the part, and where in the table. An
    offset of 0 points to nothing."""
    offset = number(text, start + at, 4)
    fit = z3.And(has(text, start, C(at + 4)), offset != 0, has(text, start, offset))
    return fit, start + offset


def is_avar(text: Text) -> BoolRef:
    return z3.And(is_version(text, ZERO, 1), z3.ULE(C(8), text.length))


def is_fvar(text: Text) -> BoolRef:
    """A header is 16 bytes, and a record of an axis at least 20."""
    return z3.And(is_version(text, ZERO, 1), z3.ULE(C(16), text.length),
                  z3.UGE(number(text, 10, 2), 20))


def regions_of(text: Text, start: Any) -> tuple[BoolRef, BitVecRef]:
    """Whether an item variation store is there, and where its list of regions is."""
    fit, regions = target(text, start, 2)
    return z3.And(is_version(text, start, 1), fit), regions


def region_count(p: Products, text: Text) -> BitVecRef:
    fit, regions = regions_of(text, ZERO)
    count = z3.If(has(text, regions, C(4)), z3.Extract(15, 0, number(text, regions + 2, 2)), 0)
    return some(fit, count)


def is_hvar(text: Text) -> BoolRef:
    """A header is 20 bytes, and has the offset of the store at byte 4."""
    fit, store = target(text, ZERO, 4)
    return z3.And(is_version(text, ZERO, 1), z3.ULE(C(20), text.length), fit,
                  regions_of(text, store)[0])


for T, rule in (("Avar", is_avar), ("Fvar", is_fvar), ("Hvar", is_hvar),
                ("ItemVariationStore", lambda text: regions_of(text, ZERO)[0])):
    case(f"{T}::new", "text: bytes", "bool",
         f"variations::{T}::new({'Some(text)' if T == 'Avar' else 'text'}).is_some()",
         lambda p, text, rule=rule: B(rule(text)))
case("ItemVariationStore::region_count", "text: bytes", "?u16",
     "variations::ItemVariationStore::new(text).map(|it| it.region_count())", region_count)


# ---------------------------------------------------------------- the scalar of a region
def scalar_of_one(p: Products, text: Text, given: Text) -> BitVecRef:
    """Of the region of a store that has one: 6 bytes for each axis. Past the coordinates that are
    given, an axis is at its default, which is 0."""
    fit, regions = regions_of(text, ZERO)
    count = number(text, regions, 2)
    is_one = z3.simplify(z3.And(fit, has(text, regions, C(4)), number(text, regions + 2, 2) == 1,
                                has(text, regions, 4 + 6 * count)))
    # Of a known store without a region, the count of axes says nothing.
    axes = ZERO if z3.is_false(is_one) else count
    at = lambda k: z3.If(z3.ULT(k, given.count), given.held(2 * k, 2), 0)
    return some(is_one, region_scalar(p, text, regions + 4, axes, at, True))


case("ItemVariationStore::instance, of one region", "text: bytes, given: coordinates", "?i32",
     "{ let mut scalars = [Fixed::ZERO]; variations::ItemVariationStore::new(text)"
     ".filter(|it| it.region_count() == 1).and_then(|it| it.instance(given, &mut scalars))"
     ".and_then(|it| it.scalar(0)).map(Fixed::to_bits) }", scalar_of_one, is_long=True)
case("Fvar::axis_count", "text: bytes", "?u16",
     "variations::Fvar::new(text).map(|it| it.axis_count())",
     lambda p, text: some(is_fvar(text), z3.Extract(15, 0, number(text, 8, 2))))


def axis(name: str, type_: str, body: str, at: int, size: int) -> None:
    """A part of the record of an axis, from a byte of it on."""
    def rule(p: Products, text: Text, x: BitVecRef) -> BitVecRef:
        index = z3.ZeroExt(48, x)
        before = p.arithmetic.multiply(number(text, 10, 2), index)
        start = before + number(text, 4, 2)
        is_there = z3.And(is_fvar(text), z3.ULT(index, number(text, 8, 2)), has(text, start, C(20)))
        return some(is_there, z3.Extract(8 * size - 1, 0, number(text, start + at, size)))

    case(f"Fvar::axis, {name}", "text: bytes, x: u16", type_,
         f"variations::Fvar::new(text).and_then(|it| it.axis(x)).map(|it| {body})", rule)


two = "(it.{} as u32 as u64) << 32 | it.{} as u32 as u64".format
axis("tag and least value", "?u64", two("axis_tag.to_u32()", "min_value.to_bits()"), 0, 8)
axis("default and greatest value", "?u64", two("default_value.to_bits()", "max_value.to_bits()"),
     8, 8)
axis("flags and name", "?u32", "(it.flags as u32) << 16 | it.axis_name_id.to_u16() as u32", 16, 4)
# fmt: on
