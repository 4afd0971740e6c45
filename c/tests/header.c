/*
 * Calls the functions that the header has in C, in C and C++, with values of OpenType, ends and
 * ties. tools/smt/header.py proves them for every argument.
 */
#include "font_types.h"

#include <stdio.h>
#include <string.h>

/* What a call must leave at an out-parameter if it fails. */
enum { KEPT = 7 };

static int checks, failures;

static void state(int holds, const char *fact) {
    checks++;
    if (!holds && failures++ < 20)
        printf("not %s\n", fact);
}
#define STATE(FACT) state(FACT, #FACT)

/* ---- in C++14, two constant expressions; tools/smt/header.py has one of each function ---- */

#if defined(__cplusplus) && __cplusplus >= 201402L
static constexpr uint8_t numbers[] = {0, 0, 0, 4, 0xFF, 0xFE, 0xFD, 0xFC};
static_assert(fty_i32(fty_at_offset32({numbers, sizeof numbers}, 0), 0) == -66052, "a field");
static_assert(fty_fixed_mul(98304, -98304) == -147456 && fty_f26dot6_round(32) == 64, "numbers");
#endif

/* ---- values from outside: a field of each kind, read and written, and rounded numbers ---- */

/* One of each kind. */
static struct {
    uint8_t u8;
    int8_t i8;
    uint16_t u16;
    int16_t i16;
    uint32_t u24, u32;
    int32_t i32;
    int64_t i64;
} found;

#define FIELD_OF(NAME, BYTES, NUMBER)                                                             \
    do {                                                                                          \
        const fty_view view = {(const uint8_t *)BYTES, sizeof BYTES - 1};                         \
        STATE(fty_##NAME(view, 0) == NUMBER && fty_##NAME(view, 1) == 0);                         \
        STATE(fty_read_##NAME(view, 0, &found.NAME) == FTY_OK && found.NAME == NUMBER);           \
        fty_view rest = view;                                                                     \
        found.NAME = KEPT;                                                                        \
        STATE(fty_take_##NAME(&rest, &found.NAME) == FTY_OK && found.NAME == NUMBER               \
              && fty_take_##NAME(&rest, &found.NAME) == FTY_OUT_OF_BOUNDS);                       \
        uint8_t written[8];                                                                       \
        fty_span room = {written, sizeof BYTES - 1};                                              \
        STATE(fty_write_##NAME(room, NUMBER) == FTY_OK                                            \
              && memcmp(written, BYTES, sizeof BYTES - 1) == 0);                                  \
        memset(written, KEPT, sizeof written);                                                    \
        STATE(fty_put_##NAME(&room, NUMBER) == FTY_OK && room.length == 0                         \
              && memcmp(written, BYTES, sizeof BYTES - 1) == 0                                    \
              && fty_put_##NAME(&room, NUMBER) == FTY_OUT_OF_BOUNDS);                             \
    } while (0)

/* The scalar of a region of up to three axes at coordinates, all of 2.14, or KEPT. */
static int32_t scalar_of(const int16_t *axes, const int16_t *coordinates, size_t count) {
    uint8_t bytes[18];
    int32_t scalar = KEPT;
    fty_span rest = {bytes, sizeof bytes};
    fty_status status = FTY_OK;
    for (size_t i = 0; i < 3 * count && status == FTY_OK; i++)
        status = fty_put_i16(&rest, axes[i]);
    const fty_view region = {bytes, 6 * count};
    return fty_region_scalar(region, coordinates, count, &scalar) == status ? scalar : -KEPT;
}

/* Of one axis, as fontTools has it, times 65536. */
static int32_t scalar_along(int start, int peak, int end, int coordinate) {
    const int16_t axis[] = {(int16_t)start, (int16_t)peak, (int16_t)end};
    const int16_t at = (int16_t)coordinate;
    return scalar_of(axis, &at, 1);
}

static void scalars_of_regions(void) {
    /* At 0.625 of (0, 0.5, 1), on its other side, at its peak, at its ends and beyond. */
    STATE(scalar_along(0, 8192, 16384, 10240) == 49152
          && scalar_along(-16384, -8192, 0, -2048) == 16384
          && scalar_along(0, 8192, 16384, 8192) == 65536
          && scalar_along(0, 8192, 16384, 0) == 0 && scalar_along(0, 8192, 16384, 16384) == 0
          && scalar_along(4096, 8192, 12288, 4095) == 0
          && scalar_along(4096, 8192, 12288, 16384) == 0
          && scalar_along(0, 16384, 16384, 16384) == 65536
          && scalar_along(16384, 16384, 16384, 16383) == 0);
    /* Ignored axes: of peak 0, on both sides of 0, and out of order. */
    STATE(scalar_along(-16384, 0, 16384, 8192) == 65536
          && scalar_along(-1, 8192, 16384, 4096) == 65536
          && scalar_along(-16384, -8192, 1, 8192) == 65536
          && scalar_along(8193, 8192, 16384, 4096) == 65536
          && scalar_along(0, 8192, 8191, 16384) == 65536
          && scalar_along(0, 0, 0, -16384) == 65536);
    /* Of the longest distances; a third; its half, a tie; and 5/6 of that, a tie too, which would be
     * 9102 if the scalar along the axis were rounded by itself. FT_MulDiv gives the same. */
    STATE(scalar_along(-32768, -32768, 0, -1) == 2
          && scalar_along(0, 32767, 32767, 32766) == 65534);
    static const int16_t axes[] = {0, 3, 6, -4, -2, 0, 4, 10, 10}, at[] = {1, -1, 9};
    STATE(scalar_of(axes, at, 1) == 21845 && scalar_of(axes, at, 2) == 10923
          && scalar_of(axes, at, 3) == 9103 && scalar_of(axes, at, 0) == 65536);
    /* The second axis at its peak, and the third at its start. */
    static const int16_t at_ends[] = {1, -2, 4};
    STATE(scalar_of(axes, at_ends, 2) == 21845 && scalar_of(axes, at_ends, 3) == 0);
    int32_t scalar = KEPT;
    static const uint8_t bytes[13] = {0};
    const fty_view region = {bytes, 12}, longer = {bytes, 13};
    STATE(fty_region_scalar(region, at, 1, &scalar) == FTY_OUT_OF_BOUNDS
          && fty_region_scalar(region, at, 3, &scalar) == FTY_OUT_OF_BOUNDS
          && fty_region_scalar(longer, at, 2, &scalar) == FTY_OUT_OF_BOUNDS
          && fty_region_scalar(fty_absent(), NULL, 0, &scalar) == FTY_OUT_OF_BOUNDS
          && fty_region_scalar(region, at, SIZE_MAX / 6 + 3, &scalar) == FTY_OUT_OF_BOUNDS
          && scalar == KEPT);
}

static void values_of_opentype(void) {
    FIELD_OF(u8, "\x87", 135);                             /* gvar, packed deltas: 8 zeros */
    FIELD_OF(i8, "\xC6", -58);                             /* gvar, packed deltas */
    FIELD_OF(u16, "\xF0\x20", 61472);                      /* OS/2: U+F020 of a symbol font */
    FIELD_OF(i16, "\xFB\x34", -1228);                      /* gvar, packed deltas */
    FIELD_OF(u24, "\x0E\x01\x00", 917760);                 /* cmap, format 14: U+E0100 */
    FIELD_OF(u32, "\xB1\xB0\xAF\xBA", 2981146554);         /* head: of its checksum */
    FIELD_OF(i32, "\xFF\xF4\x80\x00", -753664);            /* post: an angle of -11.5 degrees */
    FIELD_OF(i64, "\0\0\0\0\x7C\x25\xB0\x80", 2082844800); /* head: the first second of 1970 */
    /* GPOS, example 2: a coverage table of one range, of glyphs that are lowered by 80 units. */
    static const uint8_t bytes[] = {0, 1, 0,    8, 0,    2, 0xFF, 0xB0, 0,
                                    2, 0, 1, 0x01, 0xB3, 1, 0xBC, 0,    0};
    const fty_view subtable = {bytes, sizeof bytes}, coverage = fty_at_offset16(subtable, 2);
    const fty_view range = fty_items(fty_from(coverage, 4), fty_u16(coverage, 2), 6);
    STATE(fty_i16(subtable, 6) == -80);
    STATE(fty_follow(subtable, 8).bytes == bytes + 8 && fty_follow(subtable, 0).bytes == NULL);
    STATE(range.bytes == bytes + 12 && range.length == 6 && fty_u16(range, 2) == 444);
    STATE(fty_from(subtable, 18).bytes == bytes + 18 && fty_from(subtable, 19).bytes == NULL);
    fty_view left = subtable;
    STATE(fty_skip(&left, 8) == FTY_OK && left.bytes == coverage.bytes && left.length == 10
          && fty_skip(&left, 11) == FTY_OUT_OF_BOUNDS && left.length == 10
          && fty_skip(&left, 10) == FTY_OK && left.bytes == bytes + 18 && left.length == 0);
    STATE(fty_at_offset16(subtable, 16).bytes == NULL && fty_u24(subtable, 16) == 0);
    STATE(fty_at_offset24(subtable, 16).bytes == NULL && fty_at_offset32(range, 4).bytes == NULL);
    /* In either order; at the end; of no bytes; and one item too many, or one byte. */
    STATE(fty_items(subtable, 6, 3).length == 18 && fty_items(subtable, 3, 6).length == 18
          && fty_items(subtable, 3, 7).bytes == NULL && fty_items(subtable, 7, 3).bytes == NULL
          && fty_items(fty_from(subtable, 18), 0, 6).bytes == bytes + 18
          && fty_items(subtable, 7, 0).bytes == bytes && fty_items(subtable, 7, 0).length == 0
          && fty_first(subtable, 18).length == 18 && fty_first(subtable, 19).bytes == NULL);
    /* More bytes than 16 bits count: a part of no bytes at their end, and a copy. */
    static uint8_t far[2 * 65536] = {0, 1, 0, 0};
    far[65535] = 7;
    const fty_view table = {far, 65536};
    STATE(fty_at_offset24(table, 1).bytes == far + 65536);
    const fty_span all_far = {far, sizeof far};
    STATE(fty_write_bytes(fty_span_from(all_far, 65536), table) == FTY_OK
          && memcmp(far, far + 65536, 65536) == 0);
    /* The end of them is too far for an offset of 16 bits, and not for one of 24. */
    STATE(fty_write_offset16(all_far, 4, fty_span_from(all_far, 65536)) == FTY_OUT_OF_RANGE
          && fty_write_offset16(all_far, 4, fty_span_from(all_far, 65535)) == FTY_OK
          && fty_write_offset24(all_far, 6, fty_span_from(all_far, 65536)) == FTY_OK
          && fty_write_offset32(all_far, 9, fty_span_from(all_far, 65536)) == FTY_OK
          && memcmp(far + 4, "\xFF\xFF\1\0\0\0\1\0\0", 9) == 0);
    /* Offsets of each size, of the end, in fields that are not the first. */
    const fty_view five = {(const uint8_t *)"\0\0\0\0\5", 5};
    STATE(fty_at_offset16(five, 3).bytes == five.bytes + 5
          && fty_at_offset24(five, 2).bytes == five.bytes + 5
          && fty_at_offset32(five, 1).bytes == five.bytes + 5);
    /* Numbers of each size, at the end; and of none. */
    const fty_view four = {(const uint8_t *)"\1\2\3\4", 4};
    for (size_t size = 1, at = 3; size <= 4; size++, at--) {
        uint8_t last[4];
        uint32_t read = KEPT;
        const fty_span end = {last + at, size};
        const uint32_t number = UINT32_C(0x01020304) & UINT32_MAX >> 8 * at;
        STATE(fty_write_uint(end, number) == FTY_OK && memcmp(last + at, four.bytes + at, size) == 0
              && fty_write_uint(end, UINT32_MAX) == (size == 4 ? FTY_OK : FTY_OUT_OF_RANGE));
        const fty_view its = fty_from(four, at);
        STATE(fty_uint(its) == number && fty_read_uint(its, &read) == FTY_OK && read == number);
    }
    STATE(fty_uint(five) == 0 && fty_read_uint(five, &found.u32) == FTY_OUT_OF_BOUNDS);
    /* A record, of which each field ends where an array does: a Tag, a uint24, the date above, a
     * uint16 and a uint8. */
    static const char record[] = "glyf\x01\xF0\x20\0\0\0\0\x7C\x25\xB0\x80\xF0\x20\x87";
    uint8_t written[18] = {0};
    fty_span rest = {written, sizeof written}, nine = {written, 9};
    STATE(fty_put_u32(&rest, FTY_TAG('g', 'l', 'y', 'f')) == FTY_OK
          && fty_put_u24(&rest, 0x101F020) == FTY_OUT_OF_RANGE
          && fty_put_u24(&rest, 0x1F020) == FTY_OK
          && fty_put_i64(&rest, 2082844800) == FTY_OK
          && fty_put_u16(&rest, 61472) == FTY_OK
          && fty_put_u16(&rest, 7) == FTY_OUT_OF_BOUNDS
          && fty_put_u8(&rest, 135) == FTY_OK
          && fty_put_u8(&rest, 7) == FTY_OUT_OF_BOUNDS && rest.bytes == written + 18
          && fty_write_uint(rest, 0) == FTY_OUT_OF_BOUNDS
          && fty_write_uint(nine, 0) == FTY_OUT_OF_BOUNDS
          && memcmp(written, record, 18) == 0);
    /* GSUB: version 1.0, and three lists, of which the last begins at the end. Then parts that are
     * not the end of the table, begin before it, or are absent. */
    uint8_t lists[24];
    memset(lists, KEPT, sizeof lists);
    const fty_span gsub = {lists, sizeof lists}, inside = {lists + 10, 4}, none_left = {NULL, 0};
    rest = gsub;
    STATE(fty_put_u32(&rest, 0x10000) == FTY_OK && fty_span_take(&rest, 6).bytes == lists + 4
          && fty_write_offset16(gsub, 4, rest) == FTY_OK && fty_put_u16(&rest, 0) == FTY_OK
          && fty_put_u8(&rest, 9) == FTY_OK && fty_put_zeros_to_4(&rest, gsub) == FTY_OK
          && fty_put_zeros_to_4(&rest, gsub) == FTY_OK
          && fty_write_offset16(gsub, 6, rest) == FTY_OK
          && fty_span_take(&rest, 9).bytes == NULL && fty_span_take(&rest, 8).length == 8
          && fty_write_offset16(gsub, 8, rest) == FTY_OK && fty_span_take(&rest, 0).bytes != NULL
          && fty_written(gsub, rest).length == 24 && fty_u16(fty_written(gsub, rest), 8) == 24
          && memcmp(lists, "\0\1\0\0\0\xA\0\x10\0\x18\0\0\t\0\0\0\7\7\7\7\7\7\7\7", 24) == 0);
    STATE(fty_write_offset16(gsub, 4, gsub) == FTY_OUT_OF_RANGE
          && fty_write_offset16(gsub, 23, rest) == FTY_OUT_OF_BOUNDS
          && fty_write_offset16(gsub, 4, inside) == FTY_OUT_OF_BOUNDS
          && fty_write_offset16(rest, 0, gsub) == FTY_OUT_OF_BOUNDS
          && fty_write_offset16(gsub, 4, none_left) == FTY_OUT_OF_BOUNDS
          && fty_write_offset16(none_left, 0, none_left) == FTY_OUT_OF_BOUNDS
          && fty_write_offset16(none_left, 0, rest) == FTY_OUT_OF_BOUNDS
          && lists[5] == 10);
    /* Zeros that do not fit, or would be of another table. */
    fty_span three = {lists, 3}, last = fty_span_from(three, 1), other = inside;
    STATE(fty_put_zeros_to_4(&last, three) == FTY_OUT_OF_BOUNDS && last.length == 2
          && fty_put_zeros_to_4(&other, gsub) == FTY_OUT_OF_BOUNDS && other.length == 4
          && fty_span_from(three, 4).bytes == NULL && fty_span_from(three, 3).bytes == lists + 3);
    STATE(fty_written(three, last).length == 1 && fty_written(three, last).bytes == lists
          && fty_written(last, three).bytes == NULL && fty_written(gsub, other).bytes == NULL);
    scalars_of_regions();
    uint16_t kept = KEPT;
    STATE(fty_read_u16(subtable, 17, &kept) == FTY_OUT_OF_BOUNDS && kept == KEPT);
    STATE(fty_fixed_from_i32(-1000) == -65536000 && fty_sub_i32(1000, 400) == 600
          && fty_add_i32(INT32_MAX, 1) == INT32_MIN);
    int16_t of_16 = KEPT;
    int32_t of_32 = KEPT;
    int64_t of_64 = KEPT;
    const fty_fraction most = FTY_F2DOT30, fewest = FTY_F26DOT6, over = FTY_FRACTION(31);
    STATE(fty_checked_round_i16(-24576, FTY_F2DOT14, &of_16) == FTY_OK && of_16 == -16384);
    STATE(fty_checked_round_i32(98304, FTY_FIXED, &of_32) == FTY_OK && of_32 == 131072);
    STATE(fty_checked_round_i64(-98304, FTY_F48DOT16, &of_64) == FTY_OK && of_64 == -65536);
    STATE(fty_checked_round_i32(0, FTY_FRACTION(5), &of_32) == FTY_BAD_FRACTION
          && of_32 == 131072);
    /* A half, of the most and the fewest fraction bits. */
    STATE(fty_checked_round_i32(1 << 29, most, &of_32) == FTY_OK && of_32 == 1 << 30);
    STATE(fty_checked_round_i32(32, fewest, &of_32) == FTY_OK && of_32 == 64);
    STATE(fty_checked_round_i64(1 << 29, most, &of_64) == FTY_OK && of_64 == 1 << 30);
    STATE(fty_checked_round_i64(0, over, &of_64) == FTY_BAD_FRACTION && of_64 == 1 << 30);
    STATE(fty_checked_round_i16(INT16_MAX, FTY_F2DOT14, &of_16) == FTY_OUT_OF_RANGE
          && of_16 == -16384);
    STATE(fty_checked_round_i64(INT64_MAX, FTY_FIXED, &of_64) == FTY_OUT_OF_RANGE
          && of_64 == 1 << 30);
    STATE(fty_fixed_ceil(-65536) == -65536 && fty_fixed_ceil(INT32_MAX) == INT32_MIN);
    STATE(fty_fixed_round(INT32_MAX) == INT32_MIN && fty_fixed_round_away(65535) == 65536);
    STATE(fty_f26dot6_ceil(-64) == -64 && fty_f26dot6_ceil(INT32_MAX) == INT32_MIN
          && fty_f26dot6_round(INT32_MAX) == INT32_MIN);
    STATE(fty_f48dot16_checked_to_fixed(INT32_MIN, &of_32) == FTY_OK && of_32 == INT32_MIN);
    STATE(fty_f48dot16_checked_to_fixed(INT32_MAX, &of_32) == FTY_OK && of_32 == INT32_MAX);
    /* Ties, and the greatest values, which wrap; 0.6 of 2.30. */
    STATE(fty_fixed_to_i32(-98304) == -1 && fty_fixed_to_i32(INT32_MAX) == -32768);
    STATE(fty_fixed_to_f26dot6(512) == 1 && fty_fixed_to_f26dot6(INT32_MAX) == -2097152);
    STATE(fty_fixed_to_f2dot14(-2) == 0 && fty_fixed_to_f2dot14(788970743) == -20674);
    STATE(fty_f26dot6_to_i32(-32) == 0 && fty_f26dot6_to_i32(INT32_MAX) == -33554432);
    STATE(fty_f48dot16_to_i64(-98304) == -1
          && fty_f48dot16_to_i64(INT64_MAX) == INT64_C(-140737488355328));
    /* A part of no bytes, or an absent one, is written to no room; but not past the end. */
    const fty_view none = fty_first(fty_from(subtable, sizeof bytes), 0);
    const fty_span room = {written, 15};
    STATE(none.bytes == bytes + sizeof bytes
          && fty_write_bytes(fty_span_from(room, 15), none) == FTY_OK
          && fty_write_bytes(fty_span_from(room, 16), none) == FTY_OUT_OF_BOUNDS
          && fty_write_bytes(fty_span_from(room, 15), fty_absent()) == FTY_OK
          && fty_write_bytes(none_left, fty_absent()) == FTY_OUT_OF_BOUNDS);
    /* Bytes of the array itself, in both directions. */
    const fty_view tag = {written, 4}, date = {written + 11, 4};
    STATE(fty_write_bytes(fty_span_from(room, 2), tag) == FTY_OK
          && memcmp(written, "glglyf", 6) == 0);
    fty_span nearly = fty_span_from(room, 9);
    STATE(fty_put_bytes(&nearly, date) == FTY_OK && nearly.length == 2
          && memcmp(written + 9, "\x7C\x25\xB0\x80\xB0\x80", 6) == 0);
    STATE(fty_put_bytes(&nearly, tag) == FTY_OUT_OF_BOUNDS && nearly.length == 2);
    STATE(strcmp(fty_status_text((fty_status)9), "unknown status") == 0);
    /* One that a later version adds: a sanitizer of C++ finds it among the values of its type. */
    volatile uint32_t later = UINT32_MAX;
    STATE(strcmp(fty_status_text((fty_status)later), "unknown status") == 0);
    const fty_pad pad = FTY_PAD_INIT(6);
    STATE(pad.width == 6 && pad.fill == ' ' && pad.align == FTY_ALIGN_RIGHT && pad.plus == 0
          && pad.zeros == 0);
}

int main(void) {
    values_of_opentype();
    printf("header: %d checks, %d failed\n", checks, failures);
    return failures == 0 ? 0 : 1;
}
