/*
 * Calls each export, in C and in C++: that it is what the header declares, with rows for what its
 * comment says. Rattle proves what the exports return, and header.sh compares their types with
 * those of the Rust. Expected values are exact: rational arithmetic, rounded and wrapped as
 * font_types.h says. tools/smt/header.py has rows of all inline functions.
 */
/* The functions of the header that the library exports too get other names here. */
#define fty_fixed_mul inline_fixed_mul
#define fty_f26dot6_mul inline_f26dot6_mul
#include "font_types.h"
#undef fty_fixed_mul
#undef fty_f26dot6_mul

#include <stdio.h>
#include <string.h>

/* What a call must leave in an out-parameter if it fails. */
enum { KEPT = 7, BUFFER = 64, TOO_MANY_SCALARS = 65536 };

#define COUNT(ROWS) (sizeof(ROWS) / sizeof(ROWS)[0])

static int checks, failures;

static void check(const char *table, size_t row, int64_t found, int64_t expected) {
    checks++;
    if (found != expected && failures++ < 20)
        printf("%s, row %zu: %lld, not %lld\n", table, row, (long long)found, (long long)expected);
}

/* The status of a call, and the value at its out-parameter. */
struct result {
    fty_status status;
    int64_t value;
};

static void check_result(const char *table, size_t row, struct result found, fty_status status,
                         int64_t value) {
    check(table, row, found.status, status);
    check(table, row, found.value, status == FTY_OK ? value : (int64_t)KEPT);
}

/* Defines a function that returns the result of a call with the out-parameter `&place`. */
#define RESULT(NAME, PLACE, PARAMETERS, CALL)                                                  \
    static struct result NAME PARAMETERS {                                                     \
        PLACE place = KEPT;                                                                    \
        struct result result;                                                                  \
        result.status = CALL;                                                                  \
        result.value = (int64_t)place;                                                         \
        return result;                                                                         \
    }

/* ---- decimals ---- */

RESULT(parsed_16, int16_t, (const char *text, size_t length, uint32_t f),
       fty_parse_i16(text, length, FTY_FRACTION(f), &place))
RESULT(parsed_32, int32_t, (const char *text, size_t length, uint32_t f),
       fty_parse_i32(text, length, FTY_FRACTION(f), &place))
RESULT(parsed_64, int64_t, (const char *text, size_t length, uint32_t f),
       fty_parse_i64(text, length, FTY_FRACTION(f), &place))

typedef struct result parser(const char *, size_t, uint32_t);

/* What is written is at most `room` bytes of this, after which none is changed. */
static char out[BUFFER];
static size_t given;
static fty_buffer to(size_t room) {
    const fty_buffer buffer = {out, given = room};
    return buffer;
}

RESULT(formatted, size_t, (int64_t bits, uint32_t f, size_t room),
       fty_format(bits, FTY_FRACTION(f), to(room), &place))
RESULT(padded, size_t, (int64_t bits, uint32_t f, const fty_pad *pad, size_t room),
       fty_format_padded(bits, FTY_FRACTION(f), pad, to(room), &place))
RESULT(tag_text, size_t, (uint32_t tag, size_t room), fty_tag_format(tag, to(room), &place))

/* Checks a text that was written to `out`, its NUL, and the error with too little room. */
static void check_written(const char *table, size_t row, struct result found, const char *text) {
    const size_t length = strlen(text);
    check_result(table, row, found, FTY_OK, (int64_t)length);
    check(table, row, memcmp(out, text, length) == 0, 1);
    check(table, row, out[length], length < given ? 0 : KEPT);
    check(table, row, out[length + 1], KEPT);
    memset(out, KEPT, sizeof out);
}

static void check_short(const char *table, size_t row, struct result found) {
    check_result(table, row, found, FTY_BUFFER_TOO_SMALL, 0);
    check(table, row, out[0], KEPT);
}

/* Texts, with how they are parsed; those that are the shortest are formatted too. */
static const struct {
    parser *parse;
    uint32_t f;
    const char *text;
    fty_status status;
    int64_t bits;
    int is_shortest;
} decimals[] = {
    {parsed_16, 14, "1.5", FTY_OK, 24576, 1},
    {parsed_16, 12, "1.5", FTY_OK, 6144, 1},
    {parsed_16, 10, "1.5", FTY_OK, 1536, 1},
    {parsed_32, 16, "1.5", FTY_OK, 98304, 1},
    {parsed_32, 6, "1.5", FTY_OK, 96, 1},
    {parsed_32, 30, "1.5", FTY_OK, 1610612736, 1},
    {parsed_64, 16, "1.5", FTY_OK, 98304, 1},
    {parsed_16, 14, "-2", FTY_OK, -32768, 1},
    {parsed_32, 16, "32767.99998", FTY_OK, INT32_MAX, 1},
    {parsed_64, 16, "-140737488355327.99998", FTY_OK, INT64_C(-9223372036854775807), 1},
    {parsed_64, 16, "-140737488355328", FTY_OK, INT64_MIN, 1},
    {parsed_64, 16, "140737488355327.99998", FTY_OK, INT64_MAX, 1},
    {parsed_64, 16, "-140737488355328.00000762939453124", FTY_OK, INT64_MIN, 0},
    {parsed_32, 16, "-0.00000762939453125", FTY_OK, -1, 0},
    {parsed_32, 16, "0.00000762939453124999", FTY_OK, 0, 0},
    {parsed_16, 14, "\xC3\xA9", FTY_NOT_DECIMAL, 0, 0},
    {parsed_32, 16, ".5", FTY_NOT_DECIMAL, 0, 0},
    {parsed_32, 6, "1.", FTY_NOT_DECIMAL, 0, 0},
    {parsed_32, 30, " 1", FTY_NOT_DECIMAL, 0, 0},
    {parsed_64, 16, "-", FTY_NOT_DECIMAL, 0, 0},
    {parsed_64, 16, "+1", FTY_NOT_DECIMAL, 0, 0},
    {parsed_16, 10, "31.99951171875", FTY_OUT_OF_RANGE, 0, 0},
    {parsed_32, 30, "1.9999999995343387126922607421875", FTY_OUT_OF_RANGE, 0, 0},
    {parsed_64, 16, "140737488355327.99999237060546875", FTY_OUT_OF_RANGE, 0, 0},
    /* Of two errors, the first; and the fraction bits of a width. */
    {parsed_16, 5, "", FTY_BAD_FRACTION, 0, 0},
    {parsed_16, 15, "0", FTY_BAD_FRACTION, 0, 0},
    {parsed_32, 31, "", FTY_BAD_FRACTION, 0, 0},
    {parsed_64, 262, "", FTY_BAD_FRACTION, 0, 0},
    {parsed_32, 15, "0", FTY_OK, 0, 1},
    {parsed_32, 29, "-0", FTY_OK, 0, 0},
    {parsed_64, 30, "0", FTY_OK, 0, 1},
};

/* Of 1.5, padded: the pad is width, fill, align, plus, zeros. */
static const struct {
    fty_pad pad;
    fty_status status;
    const char *text;
} pads[] = {
    {FTY_PAD_INIT(6), FTY_OK, "   1.5"},
    {{6, 0, FTY_ALIGN_LEFT, 0, 0}, FTY_OK, "1.5   "},
    {{13, 0x7F, FTY_ALIGN_CENTER, 2, 0}, FTY_OK, "\x7F\x7F\x7F\x7F+1.5\x7F\x7F\x7F\x7F\x7F"},
    {{7, '#', FTY_ALIGN_LEFT, 0, 128}, FTY_OK, "00001.5"},
    {{6, '\n', FTY_ALIGN_RIGHT, 0, 0}, FTY_OK, "\n\n\n1.5"},
    {{30, '#', FTY_ALIGN_RIGHT, 0, 0}, FTY_OK, "###########################1.5"},
    {{4, 0x80, 2, 0, 1}, FTY_BAD_PAD, ""},
    {{4, ' ', 3, 0, 0}, FTY_BAD_PAD, ""},
};

/* 1.5, by the names of a format. */
#define NAMED(FORMAT, TYPE, BITS)                                                              \
    do {                                                                                       \
        TYPE bits = KEPT;                                                                      \
        size_t length = KEPT;                                                                  \
        check(#FORMAT, 0, fty_##FORMAT##_parse("1.5", 3, &bits), FTY_OK);                      \
        check(#FORMAT, 1, bits, BITS);                                                         \
        check(#FORMAT, 2, fty_##FORMAT##_format(BITS, to(BUFFER), &length), FTY_OK);           \
        check(#FORMAT, 3, length == 3 && memcmp(out, "1.5", length) == 0, 1);                  \
        memset(out, KEPT, sizeof out);                                                         \
    } while (0)

static void check_decimals(void) {
    memset(out, KEPT, sizeof out);
    for (size_t i = 0; i < COUNT(decimals); i++) {
        const char *text = decimals[i].text;
        const size_t length = strlen(text);
        const int64_t bits = decimals[i].bits;
        const uint32_t f = decimals[i].f;
        check_result("parsed", i, decimals[i].parse(text, length, f), decimals[i].status, bits);
        if (!decimals[i].is_shortest)
            continue;
        check_short("formatted", i, formatted(bits, f, length - 1));
        check_written("formatted", i, formatted(bits, f, length), text);
    }
    for (size_t i = 0; i < COUNT(pads); i++) {
        const fty_pad *pad = &pads[i].pad;
        if (pads[i].status == FTY_OK) {
            const size_t length = strlen(pads[i].text);
            check_short("padded", i, padded(98304, 16, pad, length - 1));
            check_written("padded", i, padded(98304, 16, pad, length), pads[i].text);
        } else {
            check_result("padded", i, padded(98304, 16, pad, 0), FTY_BAD_PAD, 0);
        }
        check_result("padded", i, padded(98304, 31, pad, 0), FTY_BAD_FRACTION, 0);
    }
    /* By the names of the members. */
    fty_pad named = FTY_PAD_INIT(6);
    named.plus = 1;
    check_written("named", 0, padded(98304, 16, &named, BUFFER), "  +1.5");
    named.zeros = 1;
    check_written("named", 1, padded(98304, 16, &named, BUFFER), "+001.5");
    check_written("named", 2, padded(-98304, 16, &named, BUFFER), "-001.5");
    named.zeros = 0, named.align = FTY_ALIGN_LEFT, named.fill = '*';
    check_written("named", 3, padded(98304, 16, &named, BUFFER), "+1.5**");
    const fty_fraction fractions[] = {FTY_F2DOT14, FTY_F4DOT12, FTY_F6DOT10, FTY_FIXED,
                                      FTY_F26DOT6, FTY_F2DOT30, FTY_F48DOT16};
    for (size_t i = 0; i < COUNT(fractions); i++)
        check("fractions", i, fractions[i].bits, decimals[i].f);
    NAMED(fixed, int32_t, 98304);
    NAMED(f2dot14, int16_t, 24576);
    NAMED(f26dot6, int32_t, 96);
    check_result("formatted, 5 bits", 0, formatted(0, 5, 0), FTY_BAD_FRACTION, 0);
    check_result("parsed, with the NUL", 0, parsed_32("1.5", 4, 16), FTY_NOT_DECIMAL, 0);
    char digits[300];
    /* There is room for the longest, and for its NUL. */
    check_written("room", 0, formatted(-INT64_MAX, 16, FTY_DECIMAL_ROOM), "-140737488355327.99998");
    check("room", 1, given > strlen("-140737488355327.99998"), 1);
    memset(digits, '0', sizeof digits);
    digits[0] = '-', digits[sizeof digits - 1] = '1';
    check_result("parsed, long", 0, parsed_32(digits, sizeof digits, 16), FTY_OK, -65536);
}

/* ---- products and conversions ---- */

#ifdef __cplusplus
extern "C" {
#endif
int32_t fty_fixed_mul(int32_t x, int32_t y);
int32_t fty_f26dot6_mul(int32_t x, int32_t y);
#ifdef __cplusplus
}
#endif

static const struct {
    int32_t (*call)(int32_t, int32_t);
    int32_t x, y, expected;
} products[] = {
    {fty_fixed_mul, -1, 32768, -1},
    {fty_fixed_mul, INT32_MIN, INT32_MAX, 32768},
    {fty_fixed_div, -8, 3, -174763},
    {fty_fixed_div, -1, 0, -2147483647},
    {fty_f26dot6_mul, -1, 32, -1},
    {fty_f26dot6_mul, -18824, 1450175, -426532722},
    {fty_f26dot6_div, -18824, 1450175, -1},
    {fty_f26dot6_div, INT32_MAX, 3, -1431655787},
    {fty_f26dot6_div, 0, 0, INT32_MAX},
    {fty_fixed_div, 0, 0, INT32_MAX},
    {fty_fixed_div, -1, 131072, -1},
    {fty_f26dot6_div, -1, 128, -1},
};

static void check_numbers(void) {
    for (size_t i = 0; i < COUNT(products); i++)
        check("products", i, products[i].call(products[i].x, products[i].y), products[i].expected);
    check("mul_div", 0, fty_fixed_mul_div(-7, 5, 2), -18);
    check("mul_div", 1, fty_fixed_mul_div(INT32_MAX, INT32_MAX, 1), 1);
    check("mul_div", 2, fty_fixed_mul_div(0, -1, 0), -2147483647);
}

/* ---- matrices ---- */

static void check_point(const char *table, fty_point found, int32_t x, int32_t y) {
    check(table, 0, found.x, x);
    check(table, 1, found.y, y);
}

static void check_matrices(void) {
    const fty_matrix a = {-378574442, 414221304, -2093928787, -60996900, 103178631, 8877533};
    const fty_matrix b = {-146468662, 52695503, 256691801, -259037822, 531082539, -242991319};
    const fty_point p = {-439908701, 972252473};
    const fty_matrix product = fty_matrix_product(a, b);
    check("product", 0, product.xx, -56735709);
    check("product", 1, product.yx, 154376490);
    check("product", 2, product.xy, -970704319);
    check("product", 3, product.yy, -494739248);
    check("product", 4, product.dx, 1630468099);
    check("product", 5, product.dy, 883029838);
    check_point("point", fty_matrix_transform_point(a, p), -109377813, -272076778);
    check_point("vector", fty_matrix_transform_vector(a, p), -212556444, -280954311);
    fty_point points[1000] = {{98304, -98304}, {0, 0}};
    for (size_t i = 1; i < COUNT(points); i++)
        points[i].x = 10, points[i].y = 100;
    const fty_matrix m = {65536, 131072, 196608, 262144, 5, 7};
    fty_matrix_transform_points(&m, points, COUNT(points) - 1);
    check_point("points", points[0], -196603, -196601);
    check_point("points", points[1], 315, 427);
    check_point("points", points[998], 315, 427);
    check_point("no point", points[999], 10, 100);
}

/* ---- sums of deltas ---- */

static fty_numbers of(const int32_t *first, size_t count) {
    const fty_numbers numbers = {first, count};
    return numbers;
}

static fty_view bytes(const void *first, size_t length) {
    const fty_view view = {(const uint8_t *)first, length};
    return view;
}

RESULT(sum_of_deltas, int64_t, (fty_numbers scalars, fty_numbers deltas),
       fty_delta_sum(scalars, deltas, &place))
RESULT(sum_of_set, int64_t, (fty_numbers scalars, fty_view set, int word_count),
       fty_delta_set_sum(scalars, set, (uint16_t)word_count, &place))

/* Font units that are moved in place: KEPT if the call fails and they stay. */
#define MOVED(NAME, UNITS)                                                                     \
    static struct result moved_##NAME(UNITS base, int64_t delta) {                             \
        UNITS units = base;                                                                    \
        struct result result = {fty_checked_add_delta_##NAME(delta, &units), KEPT};            \
        if (result.status == FTY_OK || units != base)                                          \
            result.value = units;                                                              \
        return result;                                                                         \
    }
MOVED(i16, int16_t)
MOVED(u16, uint16_t)

/* Delta sets: the number of words, the bytes, and the scalars. */
static const struct {
    int word_count;
    const char *set;
    size_t length, count;
    int32_t scalars[5];
    fty_status status;
    int64_t sum;
} sets[] = {
    {0, "", 0, 0, {0}, FTY_OK, 0},
    {1, "\x01\x2C\xFD", 3, 2, {65536, 32768}, FTY_OK, 19562496},
    {2, "\x7F\xFF\x80\x00\x7F\x80\xFF", 7, 5, {INT32_MAX, INT32_MIN, INT32_MAX, INT32_MIN, 1},
     FTY_OK, INT64_C(141282949169025)},
    {1, "\x01\x2C\xFD", 3, 3, {65536, 32768, 1}, FTY_COUNT_MISMATCH, 0},
    {1, "\x01\x2C\xFD\x05", 4, 2, {65536, 32768}, FTY_COUNT_MISMATCH, 0},
    {2, "\x01\x2C\xFD", 3, 1, {65536}, FTY_COUNT_MISMATCH, 0},
    /* long words */
    {0x8002, "\x00\x01\x86\xA0\xFF\xFE\x79\x60\x80\x00\x7F\xFF", 12, 4,
     {65536, 32768, 65536, -1}, FTY_OK, INT64_C(1129283585)},
    {0x8002, "\x80\x00\x00\x00\x80\x00\x00\x00", 8, 2, {INT32_MIN, INT32_MIN},
     FTY_OUT_OF_RANGE, 0},
    {0x8003, "\x80\x00\x00\x00\x80\x00\x00\x00\xFF\xFF\xFF\xFF", 12, 3,
     {INT32_MIN, INT32_MIN, 1}, FTY_OK, INT64_MAX},
    {0x8001, "\x00\x00\x00\x01\x02", 5, 1, {65536}, FTY_COUNT_MISMATCH, 0},
    {0xFFFF, "", 0, 0, {0}, FTY_COUNT_MISMATCH, 0},
};

static void check_sums(void) {
    const int32_t scalars[] = {98304, INT32_MIN, INT32_MIN, 1};
    const int32_t deltas[] = {100, INT32_MIN, INT32_MIN, -9830401};
    check_result("sums", 0, sum_of_deltas(of(scalars, 2), of(deltas, 2)), FTY_OK,
                 (INT64_C(1) << 62) + 9830400);
    check_result("sums", 1, sum_of_deltas(of(scalars, 2), of(deltas, 1)), FTY_COUNT_MISMATCH, 0);
    check_result("sums", 2, sum_of_deltas(of(scalars, 1), of(deltas, 2)), FTY_COUNT_MISMATCH, 0);
    check_result("sums", 3, sum_of_deltas(of(scalars, 3), of(deltas, 3)), FTY_OUT_OF_RANGE, 0);
    check_result("sums", 4, sum_of_deltas(of(scalars, 4), of(deltas, 4)), FTY_OK, INT64_MAX);
    for (size_t i = 0; i < COUNT(sets); i++)
        check_result("sets", i, sum_of_set(of(sets[i].scalars, sets[i].count),
                                           bytes(sets[i].set, sets[i].length),
                                           sets[i].word_count), sets[i].status, sets[i].sum);
    /* As many scalars as a font can have, and one more; of two errors, the first. */
    static const int32_t many[TOO_MANY_SCALARS] = {0};
    static const uint8_t set[TOO_MANY_SCALARS] = {0};
    const size_t most = TOO_MANY_SCALARS - 1;
    check_result("many scalars", 0, sum_of_set(of(many, most), bytes(set, most), 0), FTY_OK, 0);
    const fty_numbers more = of(many, most + 1);
    check_result("many scalars", 1, sum_of_set(more, bytes(set, most), 1), FTY_TOO_MANY, 0);
    check_result("many deltas", 0, sum_of_deltas(more, more), FTY_OK, 0);
    check_result("signed", 0, moved_i16(32767, 32767), FTY_OK, 32767);
    check_result("signed", 1, moved_i16(32767, 32768), FTY_OUT_OF_RANGE, 0);
    check_result("signed", 2, moved_i16(-32768, -32768), FTY_OK, -32768);
    check_result("signed", 3, moved_i16(-32768, INT64_MIN), FTY_OUT_OF_RANGE, 0);
    check_result("unsigned", 0, moved_u16(65535, 32767), FTY_OK, 65535);
    check_result("unsigned", 1, moved_u16(65535, 32768), FTY_OUT_OF_RANGE, 0);
    check_result("unsigned", 2, moved_u16(600, -6553600), FTY_OK, 500);
    check_result("unsigned", 3, moved_u16(0, -32769), FTY_OUT_OF_RANGE, 0);
}

/* The length of a set is the only one that fty_delta_set_sum takes. */
static void check_lengths(void) {
    static const uint16_t numbers[] = {0, 1, 3, 255, 256, 0x8000, 0x8001, 0x80FF, 0x8100};
    static const int32_t scalars[0x8100] = {0};
    static const uint8_t set[0x10000] = {0};
    for (size_t i = 0; i < COUNT(numbers) * COUNT(numbers); i++) {
        const uint16_t count = numbers[i % COUNT(numbers)], words = numbers[i / COUNT(numbers)];
        const fty_numbers first = of(scalars, count);
        const size_t length = fty_delta_set_length(first, words);
        if (length >= sizeof set || (words & 0x7FFF) > count)
            continue;
        check_result("lengths", i, sum_of_set(first, bytes(set, length), words), FTY_OK, 0);
        check_result("more", i, sum_of_set(first, bytes(set, length + 1), words),
                     FTY_COUNT_MISMATCH, 0);
    }
}

/* ---- tags ---- */

RESULT(new_tag, uint32_t, (const char *text, size_t length),
       fty_tag_parse(text, length, &place))
RESULT(validated, size_t, (uint32_t tag), fty_tag_validate(tag, &place))

static void check_tags(void) {
    check_result("new", 0, new_tag("cvt", 3), FTY_OK, 0x63767420);
    check_result("new", 1, new_tag("GSUB ", 5), FTY_BAD_TAG_LENGTH, 0);
    check_result("new", 2, new_tag("a b ", 4), FTY_BAD_TAG_BYTE, 0);
    check_result("validated", 0, validated(0x63767420), FTY_OK, KEPT);
    check_result("validated", 1, validated(0x20202020), FTY_BAD_TAG_LENGTH, 0);
    size_t index = KEPT;
    check("byte", 0, fty_tag_validate(0x6376740A, &index), FTY_BAD_TAG_BYTE);
    check("byte", 1, (int64_t)index, 3);
    check("after a space", 0, fty_tag_validate(0x41202042, &index), FTY_BAD_TAG_SPACE);
    check("after a space", 1, (int64_t)index, 3);
    check_short("text", 0, tag_text(0x00FF1F99, 23));
    check_written("text", 0, tag_text(0x00FF1F99, FTY_TAG_ROOM), "{0x00}{0xFF}{0x1F}{0x99}");
    check("text", 1, given > strlen("{0x00}{0xFF}{0x1F}{0x99}"), 1);
    check_written("text", 1, tag_text(0x0A20417E, BUFFER), "{0x0A} A~");
}

/* ---- null pointers, with no values ---- */

static void check_nulls(void) {
    const fty_pad pad = FTY_PAD_INIT(0);
    const fty_matrix identity = {65536, 0, 0, 65536, 0, 0};
    size_t length = KEPT;
    check_result("null text", 16, parsed_16(NULL, 0, 14), FTY_NOT_DECIMAL, 0);
    check_result("null text", 32, parsed_32(NULL, 0, 16), FTY_NOT_DECIMAL, 0);
    check_result("null text", 64, parsed_64(NULL, 0, 16), FTY_NOT_DECIMAL, 0);
    const fty_buffer none = {NULL, 0};
    check("null out", 0, fty_format(0, FTY_FIXED, none, &length), FTY_BUFFER_TOO_SMALL);
    check("null out", 1, fty_format_padded(0, FTY_FIXED, &pad, none, &length),
          FTY_BUFFER_TOO_SMALL);
    check("null out", 2, fty_tag_format(0, none, &length), FTY_BUFFER_TOO_SMALL);
    check("null out", 3, (int64_t)length, KEPT);
    check_result("null deltas", 0, sum_of_deltas(of(NULL, 0), of(NULL, 0)), FTY_OK, 0);
    check_result("null set", 0, sum_of_set(of(NULL, 0), bytes(NULL, 0), 0), FTY_OK, 0);
    check_result("null tag", 0, new_tag(NULL, 0), FTY_BAD_TAG_LENGTH, 0);
    fty_matrix_transform_points(&identity, NULL, 0);
}

int main(int count, char **arguments) {
    /* With an argument, a value that is wrong. */
    if (count > 1)
        check(arguments[1], 0, 1, 2);
    check("version", 0, fty_version(), FTY_VERSION_NUMBER);
    check_decimals();
    check_numbers();
    check_matrices();
    check_sums();
    check_lengths();
    check_tags();
    check_nulls();
    printf("table: %d checks, %d failed\n", checks, failures);
    return failures == 0 ? 0 : 1;
}
