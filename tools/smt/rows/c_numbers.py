"""Rows of the C header: arithmetic, rounding, constants, and names by format."""

import z3
from z3 import BitVecRef

from rows.c_row import BAD_FRACTION, KEPT, OUT_OF_RANGE, always, fallible, row, status
from rows.cases import Rule
from rows.rules import N, Products, S, U, fits, near, together, up, whole, wrap
from values import constant

# fmt: off
for name, rule in {
    "fixed_mul": lambda p, x, y: wrap(32, near(p.times(x, y), 16)),
    "f26dot6_mul": lambda p, x, y: wrap(32, near(p.times(x, y), 6)),
    "add_i32": lambda p, x, y: wrap(32, S(x) + S(y)),
    "sub_i32": lambda p, x, y: wrap(32, S(x) - S(y)),
}.items():
    row(name, "x: i32, y: i32", "i32", f"fty_{name}(x, y)", rule)


def quotient(
    p: Products, x: BitVecRef, a: BitVecRef, c: BitVecRef, result: BitVecRef
) -> z3.BoolRef:
    """ "x * a / c, rounded once, half away from zero. If c is 0, INT32_MAX, negated if exactly one
    of x and a is negative"."""
    largest, known = N((1 << 31) - 1), p.arithmetic
    product = known.multiply(z3.SignExt(32, x), z3.SignExt(32, a))
    m, d = U(known.magnitude(product)), z3.ZeroExt(32, known.magnitude(c))
    of_zero = z3.If(z3.Xor(x < 0, a < 0), -largest, largest)
    is_negative = z3.Xor(product < 0, c < 0)
    found = [z3.And(c == 0, result == wrap(64, of_zero))]
    if known.exact:
        q = z3.UDiv(2 * m + U(d), 2 * U(d))
        found.append(z3.And(c != 0, result == wrap(64, z3.If(is_negative, -q, q))))
    for it, divisor in known.quotients:
        by, q = U(known.multiply(it, divisor)), z3.If(is_negative, -U(it), U(it))
        is_nearest = z3.And(divisor == d, 2 * (by - m) <= U(d), 2 * (m - by) < U(d))
        found.append(z3.And(c != 0, is_nearest, result == wrap(64, q)))
    return z3.Or(found)


row("mul_div_i64", "x: i32, a: i32, c: i32", "i64", "fty_mul_div_i64(x, a, c)", quotient, True)
row("fixed_from_i32", "x: i32", "i32", "fty_fixed_from_i32(x)", lambda p, x: wrap(32, S(x) << 16))
for T, f in (("fixed", 16), ("f26dot6", 6)):
    for name, rule in {
        "floor": lambda p, x, f=f: wrap(32, whole(S(x), f)),
        "ceil": lambda p, x, f=f: wrap(32, -whole(-S(x), f)),
        "round": lambda p, x, f=f: wrap(32, up(S(x), f) << f),
    }.items():
        row(f"{T}_{name}", "x: i32", "i32", f"fty_{T}_{name}(x)", rule)
row("fixed_round_away", "x: i32", "i32", "fty_fixed_round_away(x)",
    lambda p, x: wrap(32, near(S(x), 16) << 16))
for name, w, k, to, out in (
    ("fixed_to_i32", 32, 16, 16, 32), ("fixed_to_f26dot6", 32, 10, 22, 32),
    ("fixed_to_f2dot14", 32, 2, 16, 16), ("f26dot6_to_i32", 32, 6, 26, 32),
    ("f48dot16_to_i64", 64, 16, 48, 64),
):
    row(name, f"x: i{w}", f"i{out}", f"fty_{name}(x)",
        lambda p, x, k=k, to=to, out=out: wrap(to, up(S(x), k), out))
fallible("f48dot16_checked_to_fixed", "x: i64", "i32", "fty_f48dot16_checked_to_fixed(x, &it)",
         lambda p, x: (status(fits(32, S(x)), OUT_OF_RANGE), wrap(32, S(x))))


def rounded(w: int, most: int) -> None:
    """ "Fails by FTY_BAD_FRACTION, FTY_OUT_OF_RANGE"."""

    def outcome(p: Products, x: BitVecRef, f: BitVecRef) -> tuple[BitVecRef, BitVecRef]:
        n = N(0)
        for k in range(6, 31):
            n = z3.If(f == k, up(S(x), k) << k, n)
        is_known = z3.And(z3.UGE(f, 6), z3.ULE(f, most))
        of_known = status(fits(w, n), OUT_OF_RANGE)
        return z3.If(is_known, of_known, constant(BAD_FRACTION, 32)), wrap(w, n)

    fallible(f"checked_round_i{w}", f"x: i{w}, f: u32", f"i{w}",
             f"fty_checked_round_i{w}(x, FTY_FRACTION(f), &it)", outcome)


for w, most in ((16, 14), (32, 30), (64, 30)):
    rounded(w, most)
# Of each count of an array that fits in memory.
row("delta_set_length", "n: size, x: u16", "u64",
    "({ const fty_numbers scalars = {NULL, n / 4}; fty_delta_set_length(scalars, x); })",
    lambda p, n, x: (lambda it: wrap(64, z3.If(z3.ULT(x, 0x8000), it, 2 * it)))(
        U(x & 0x7FFF) + U(z3.LShR(n, 2))))
row("FTY_TAG", "a: i32, b: i32, c: i32, d: i32", "u32", "FTY_TAG(a, b, c, d)",
    lambda p, *v: together([z3.Extract(7, 0, it) for it in v]))
row("FTY_PAD_INIT, width", "n: size", "u64", "({ fty_pad it = FTY_PAD_INIT(n); it.width; })",
    lambda p, n: n)
always("FTY_PAD_INIT, others", "n: size", "u32", "({ fty_pad it = FTY_PAD_INIT(n);"
       " (uint32_t)it.fill << 24 | it.align << 16 | it.plus << 8 | it.zeros; })",
       ord(" ") << 24 | 2 << 16)
TEXTS = ["done", "not a decimal number", "result out of range", "unsupported number of fraction bits",
         "buffer too small", "invalid padding", "field out of bounds",
         "different numbers of scalars and deltas", "too many scalars", "unknown status",
         "wrong length of a tag", "invalid byte in a tag", "printable byte after a space in a tag"]
DIFFERS = '__builtin_memcmp(it, "%s", sizeof "%s")'
of_status = "".join(f"x == {k} ? {DIFFERS % (it, it)} : " for k, it in enumerate(TEXTS))
always("status_text", "x: u32", "bool", "({ const char *const it = fty_status_text((fty_status)x);"
       f" ({of_status}{DIFFERS % (TEXTS[9], TEXTS[9])}) == 0; }})", 1)

# ---------------------------------------------------------------- what calls the library
# What the exports do here, by which a row sees each argument that they get: of parsing the bits and
# the status, and else a sum with a weight for each argument.
EXPORTS = """
#define PARSE(W)                                                                                 \\
    fty_status fty_parse_i##W(const char *text, size_t length, fty_fraction f, int##W##_t *it) { \\
        *it = (int##W##_t)(f.bits << 8 | (uint8_t)*text);                                        \\
        return (fty_status)(length ^ (uint64_t)length >> 32);                                    \\
    }
PARSE(16)
PARSE(32)
static fty_status sees(int kind, uint64_t a, uint64_t b, uint64_t c, uint64_t d, void *sum) {
    const uint64_t seen = 3 * a + 5 * b + 7 * c + 9 * d;
    __builtin_memcpy(sum, &seen, sizeof seen);
    return (fty_status)kind;
}
fty_status fty_abi_format(int64_t bits, fty_fraction f, char *out, size_t room, size_t *length) {
    *length = 8;
    return sees(1, bits, f.bits, room, 0, out) * (room & 1);
}
fty_status fty_abi_format_padded(int64_t bits, fty_fraction f, const fty_pad *pad, char *out,
                                 size_t room, size_t *length) {
    *length = 9;
    return sees(2, bits, f.bits, room, pad->width, out) * (room & 1);
}
fty_status fty_abi_tag_format(uint32_t tag, char *out, size_t room, size_t *length) {
    *length = 10;
    return sees(3, tag, 0, room, 0, out) * (room & 1);
}
fty_status fty_abi_delta_sum(const int32_t *x, size_t n, const int32_t *y, size_t m, int64_t *sum) {
    return sees(4, *x, *y, n, m, sum);
}
fty_status fty_abi_delta_set_sum(const int32_t *x, size_t n, const uint8_t *y, size_t m,
                                 uint16_t words, int64_t *sum) {
    return sees(5, *x, *y + 256 * words, n, m, sum);
}
"""


def written(name: str, of: str, call: str, kind: int, total: Rule) -> None:
    """A function that writes text: it hands on each argument, and what the export returns, which
    fails here if the room is odd. Else it ends the text, here of 7 bytes and the kind."""
    end = 7 + kind
    start = "({ char text[16]; const fty_buffer out = {text, n}; size_t length; uint64_t it;"
    row(name, f"n: size, {of}", "u64", f"{start} (void)!{call};"
        " __builtin_memcpy(&it, text, 8); it; })",
        lambda p, n, *given: wrap(64, 7 * U(n) + total(*given)))
    row(f"{name}, status and length", f"n: size, {of}", "u32",
        f"{start} length = {KEPT};"
        f" const uint32_t found = (uint32_t){call}; found << 8 | (uint32_t)length; }})",
        lambda p, n, *_: z3.If(n & 1 == 1, constant(kind << 8 | KEPT, 32), constant(end, 32)))
    row(f"{name}, end", f"n: size, {of}", "u8",
        f"{start} text[{end}] = {KEPT}; (void)!{call}; (uint8_t)text[{end}]; }})",
        lambda p, n, *_: z3.If(z3.And(n & 1 == 0, z3.UGT(n, end)), constant(0, 8),
                               constant(KEPT, 8)))


for T, w, f in (("fixed", 32, 16), ("f2dot14", 16, 14), ("f26dot6", 32, 6)):
    row(f"{T}_parse, value", "c: u8", f"i{w}", f"({{ const char text = (char)c; int{w}_t it;"
        f" (void)!fty_{T}_parse(&text, 0, &it); it; }})",
        lambda p, c, w=w, f=f: wrap(w, U(c) + (f << 8)))
    row(f"{T}_parse, status", "n: size", "u32", f"({{ const char text = 0; int{w}_t it;"
        f" (uint32_t)fty_{T}_parse(&text, n, &it); }})",
        lambda p, n: z3.Extract(63, 32, n) ^ z3.Extract(31, 0, n))
    written(f"{T}_format", f"x: i{w}", f"fty_{T}_format(x, out, &length)", 1,
            lambda x, f=f: 3 * S(x) + 5 * f)
written("format", "x: i64, f: u32", "fty_format(x, FTY_FRACTION(f), out, &length)", 1,
        lambda x, f: 3 * S(x) + 5 * U(f))
written("format_padded", "x: i64, f: u32, m: size", "({ const fty_pad pad = FTY_PAD_INIT(m);"
        " fty_format_padded(x, FTY_FRACTION(f), &pad, out, &length); })", 2,
        lambda x, f, m: 3 * S(x) + 5 * U(f) + 9 * U(m))
written("tag_format", "x: u32", "fty_tag_format(x, out, &length)", 3, lambda x: 3 * U(x))
for name, of, value, given, words, kind in (
    ("delta_sum", "fty_numbers", "int32_t", "y: i32", "", 4),
    ("delta_set_sum", "fty_view", "uint8_t", "y: u8, z: u16", "z, ", 5),
):
    call = f"fty_{name}(scalars, other, {words}&it)"
    start = f"({{ const int32_t first = x; const {value} second = y; int64_t it;"
    start += f" const fty_numbers scalars = {{&first, n}}; const {of} other = {{&second, m}};"
    total = f"x: i32, n: size, m: size, {given}"
    row(name, total, "i64", f"{start} (void)!{call}; it; }})",
        lambda p, x, n, m, y, z=None: wrap(64, 3 * S(x) + 7 * U(n) + 9 * U(m) + (
            5 * S(y) if z is None else 5 * U(y) + 1280 * U(z))))
    always(f"{name}, status", total, "u32", f"{start} (uint32_t){call}; }})", kind)
# fmt: on
