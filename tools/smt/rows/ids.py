"""Rows of versions, ids, offsets and tags."""

import re

import z3

from rows.row import case
from rows.scalars import LARGEST

from rows.rules import (
    B, N, S, U, big_endian, checked_tag, fits_unsigned, low, some, together, validated, wrap,
)  # fmt: skip

# fmt: off
# ---------------------------------------------------------------- versions
VERSION = "<Version16Dot16 as Scalar>::from_raw(x.to_be_bytes())"
SECOND = VERSION.replace("x.", "y.")
# "The major version is the upper 16 bits, and the minor version the upper four of the lower".
major, minor = lambda x: U(x) >> 16, lambda x: U(x) >> 12 & 15
case("Version16Dot16::new", "a: u16, b: u16", "[4]", "Version16Dot16::new(a, b).to_be_bytes()",
     lambda p, a, b: big_endian(U(a) * 65536 + low(U(b), 9) * 4096, 4))
case("Version16Dot16::to_major_minor, major", "x: u32", "u16", f"{VERSION}.to_major_minor().0",
     lambda p, x: wrap(16, major(x)))
case("Version16Dot16::to_major_minor, minor", "x: u32", "u16", f"{VERSION}.to_major_minor().1",
     lambda p, x: wrap(16, minor(x)))
case("Version16Dot16::compatible", "x: u32, y: u32", "bool", f"{VERSION}.compatible({SECOND})",
     lambda p, x, y: B(z3.And(major(x) == major(y), minor(x) >= minor(y))))
case("Version16Dot16::compatible, pair", "x: u32, a: u16, b: u16", "bool",
     f"{VERSION}.compatible((a, b))",
     lambda p, x, a, b: B(z3.And(major(x) == U(a), minor(x) >= low(U(b), 9))))
case("Version16Dot16::from_raw, to_raw", "a: u8, b: u8, c: u8, d: u8", "[4]",
     "Scalar::to_raw(<Version16Dot16 as Scalar>::from_raw([a, b, c, d]))",
     lambda p, *v: together(v[::-1]))
FOUR = "a: u16, b: u16, c: u16, d: u16"
same_major = lambda p, a, b, c, d: B(z3.And(U(a) == U(c), U(b) >= U(d)))
case("MajorMinor::compatible", FOUR, "bool",
     "MajorMinor::new(a, b).compatible(MajorMinor::new(c, d))", same_major)
case("MajorMinor::compatible, pair", FOUR, "bool", "MajorMinor::new(a, b).compatible((c, d))",
     same_major)
case("u16::compatible", "a: u16, b: u16", "bool", "a.compatible(b)",
     lambda p, a, b: B(U(a) >= U(b)))
for name, body in (("to_raw", "Scalar::to_raw({})"), ("to_be_bytes", "{}.to_be_bytes()")):
    case(f"MajorMinor::{name}", "a: u16, b: u16", "[4]", body.format("MajorMinor::new(a, b)"),
         lambda p, a, b: big_endian(z3.Concat(a, b), 4))
case("MajorMinor::from_raw", "a: u8, b: u8, c: u8, d: u8", "u32",
     "{ let v = <MajorMinor as Scalar>::from_raw([a, b, c, d]);"
     " (v.major as u32) << 16 | v.minor as u32 }", lambda p, *v: together(v))

# ---------------------------------------------------------------- ids and offsets
GLYPH, NARROW = "GlyphId::new(x)", "GlyphId16::try_from(GlyphId::new(x))"
case("GlyphId16: TryFrom<GlyphId>", "x: u32", "?u16", f"{NARROW}.ok().map(GlyphId16::to_u16)",
     lambda p, x: some(fits_unsigned(16, U(x)), wrap(16, U(x))))
case("GlyphId24: TryFrom<GlyphId>", "x: u32", "?u32",
     f"GlyphId24::try_from({GLYPH}).ok().map(GlyphId24::to_u32)",
     lambda p, x: some(fits_unsigned(24, U(x)), x))
for w, narrow in ((16, NARROW), (24, f"GlyphId24::try_from({GLYPH})")):
    case(f"TryFromGlyphIdError::value, {w} bits", "x: u32", "u32",
         f"match {narrow} {{ Ok(_) => 0, Err(e) => e.value() }}",
         lambda p, x, w=w: wrap(32, z3.If(fits_unsigned(w, U(x)), N(0), U(x))))
ordered = lambda x, y: z3.If(U(x) < U(y), z3.BitVecVal(-1, 8), z3.If(
    U(x) == U(y), z3.BitVecVal(0, 8), z3.BitVecVal(1, 8)))
IDS = "GlyphId16::new(x)", "GlyphId::new(y)"
case("GlyphId16::eq_gid", "x: u16, y: u32", "bool", "{}.eq_gid(&{})".format(*IDS),
     lambda p, x, y: B(U(x) == U(y)))
case("GlyphId16::cmp_gid", "x: u16, y: u32", "i8", "{}.cmp_gid(&{}) as i8".format(*IDS),
     lambda p, x, y: ordered(x, y))
case("GlyphId::eq_gid16", "x: u16, y: u32", "bool", "{1}.eq_gid16(&{0})".format(*IDS),
     lambda p, x, y: B(U(x) == U(y)))
case("GlyphId::cmp_gid16", "x: u16, y: u32", "i8", "{1}.cmp_gid16(&{0}) as i8".format(*IDS),
     lambda p, x, y: ordered(y, x))
case("GlyphId16 == GlyphId", "x: u16, y: u32", "bool", "GlyphId16::new(x) == GlyphId::new(y)",
     lambda p, x, y: B(U(x) == U(y)))
case("GlyphId16 < GlyphId", "x: u16, y: u32", "bool", "GlyphId16::new(x) < GlyphId::new(y)",
     lambda p, x, y: B(U(x) < U(y)))
case("Nullable<Offset16>::get", "a: u8, b: u8", "?u32",
     "<Nullable<Offset16> as Scalar>::from_raw([a, b]).get().map(Offset16::to_u32)",
     lambda p, *v: some(together(v) != 0, wrap(32, U(together(v)))))
case("NameId::checked_add", "x: u16, y: u16", "?u16",
     "NameId::new(x).checked_add(y).map(NameId::to_u16)",
     lambda p, x, y: some(U(x) + U(y) <= 32767, wrap(16, U(x) + U(y))))
case("NameId::is_reserved", "x: u16", "bool", "NameId::new(x).is_reserved()",
     lambda p, x: B(U(x) < 256))
for T in ("Offset16", "Offset32", "Offset24"):
    w, value = (32, "Offset24::new(Uint24::new(x))") if T == "Offset24" else (
        int(T[6:]), f"{T}::new(x)")
    case(f"{T}::is_null", f"x: u{w}", "bool", f"{value}.is_null()", lambda p, x: B(U(x) == 0))
    case(f"{T}::value_u32", f"x: u{w}", "u32", f"OffsetValue::value_u32(&{value})",
         lambda p, x, T=T: wrap(32, low(U(x), LARGEST) if T == "Offset24" else U(x)))
    case(f"{T}::eq_u32", f"x: u{w}, y: u32", "bool", f"{value}.eq_u32(&y)",
         lambda p, x, y, T=T: B((low(U(x), LARGEST) if T == "Offset24" else U(x)) == U(y)))


def conversions(rows: str) -> None:
    """The same number in another type. A row has a name, both integer types, and the Rust."""
    for row in rows.splitlines():
        name, source, target, body = re.split(" {2,}", row)
        number, limit = S if source[0] == "i" else U, "24::new" in body
        case(name, f"x: {source}", target, body, lambda p, x, number=number, limit=limit, w=int(
            target[1:]): wrap(w, low(number(x), LARGEST) if limit else number(x)))


conversions("""\
GlyphId: From<GlyphId16>  u16  u32  GlyphId::from(GlyphId16::new(x)).to_u32()
GlyphId: From<GlyphId24>  u32  u32  GlyphId::from(GlyphId24::new(x)).to_u32()
GlyphId: From<u16>  u16  u32  GlyphId::from(x).to_u32()
GlyphId: From<u32>  u32  u32  GlyphId::from(x).to_u32()
GlyphId16: From<u16>  u16  u16  GlyphId16::from(x).to_u16()
NameId: From<u16>  u16  u16  NameId::from(x).to_u16()
FWord: From<i16>  i16  i16  FWord::from(x).to_i16()
UfWord: From<u16>  u16  u16  UfWord::from(x).to_u16()
u32: From<Uint24>  u32  u32  u32::from(Uint24::new(x))
usize: From<Uint24>  u32  u64  usize::from(Uint24::new(x)) as u64
u16: From<NameId>  u16  u16  u16::from(NameId::new(x))
i16: From<FWord>  i16  i16  i16::from(FWord::new(x))
i32: From<FWord>  i16  i32  i32::from(FWord::new(x))
u16: From<UfWord>  u16  u16  u16::from(UfWord::new(x))
i32: From<UfWord>  u16  i32  i32::from(UfWord::new(x))
u16: From<GlyphId16>  u16  u16  u16::from(GlyphId16::new(x))
u32: From<GlyphId16>  u16  u32  u32::from(GlyphId16::new(x))
usize: From<GlyphId16>  u16  u64  usize::from(GlyphId16::new(x)) as u64
u32: From<GlyphId24>  u32  u32  u32::from(GlyphId24::new(x))
usize: From<GlyphId24>  u32  u64  usize::from(GlyphId24::new(x)) as u64
u32: From<GlyphId>  u32  u32  u32::from(GlyphId::new(x))
usize: From<Offset16>  u16  u64  usize::from(Offset16::new(x)) as u64
usize: From<Offset24>  u32  u64  usize::from(Offset24::new(Uint24::new(x))) as u64
Offset16::to_usize  u16  u64  Offset16::new(x).to_usize() as u64
Offset16: OffsetValue::to_usize  u16  u64  OffsetValue::to_usize(Offset16::new(x)) as u64
Offset32::to_usize  u32  u64  Offset32::new(x).to_usize() as u64
Offset32: OffsetValue::to_usize  u32  u64  OffsetValue::to_usize(Offset32::new(x)) as u64
Offset24::to_usize  u32  u64  Offset24::new(Uint24::new(x)).to_usize() as u64
Offset24: OffsetValue::to_usize  u32  u64  OffsetValue::to_usize(Offset24::new(Uint24::new(x))) as u64
GlyphId16::to_u32  u16  u32  GlyphId16::new(x).to_u32()
GlyphId16::to_usize  u16  u64  GlyphId16::new(x).to_usize() as u64
GlyphId24::to_usize  u32  u64  GlyphId24::new(x).to_usize() as u64
GlyphId::to_usize  u32  u64  GlyphId::new(x).to_usize() as u64
LongDateTime::as_secs  i64  i64  LongDateTime::new(x).as_secs()""")

# ---------------------------------------------------------------- tags
TAG = "Tag::new(&[a, b, c, d])"
LETTERS = "a: u8, b: u8, c: u8, d: u8"
case("Tag::to_u32", LETTERS, "u32", f"{TAG}.to_u32()", lambda p, *v: together(v))
case("Tag::from_u32", "x: u32", "[4]", "Tag::from_u32(x).to_be_bytes()",
     lambda p, x: big_endian(x, 4))
case("Tag < Tag", "x: u32, y: u32", "bool", "Tag::from_u32(x) < Tag::from_u32(y)",
     lambda p, x, y: B(U(x) < U(y)))
case("Tag::cmp", "x: u32, y: u32", "i8", "Tag::from_u32(x).cmp(&Tag::from_u32(y)) as i8",
     lambda p, x, y: ordered(x, y))
case("Tag::partial_cmp", "x: u32, y: u32", "i8",
     "Tag::from_u32(x).partial_cmp(&Tag::from_u32(y)).unwrap() as i8",
     lambda p, x, y: ordered(x, y))
case("Tag::into_bytes", "x: u32", "[4]", "Tag::from_u32(x).into_bytes()",
     lambda p, x: big_endian(x, 4))
case("Tag::as_bytes", "x: u32", "[4]", "*Tag::from_u32(x).as_bytes()",
     lambda p, x: big_endian(x, 4))
case("Tag::eq_bytes", "x: u32, y: u32", "bool",
     "Tag::from_u32(x).eq_bytes(&y.to_be_bytes())", lambda p, x, y: B(U(x) == U(y)))
# Of `Ok`, the bytes. Of an error, its kind, the byte, and the index or the length.
ANSWER = """match {} {{
    Ok(tag) => tag as u64,
    Err(InvalidTag::InvalidLength(n)) => 1 << 60 | (n as u64).min((1 << 60) - 1),
    Err(InvalidTag::InvalidByte {{ pos, byte }}) => {{
        2 << 60 | (byte as u64) << 48 | pos.min(99) as u64
    }}
    Err(InvalidTag::ByteAfterSpace {{ pos }}) => 3 << 60 | pos.min(99) as u64,
}}"""
case("Tag::validate", LETTERS, "u64", ANSWER.format(f"{TAG}.validate().map(|_| 0u32)"), validated)
case("Tag::new_checked", "text: bytes", "u64",
     ANSWER.format("Tag::new_checked(text).map(Tag::to_u32)"), checked_tag)
# fmt: on
