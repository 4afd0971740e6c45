/* SPDX-License-Identifier: MIT OR Apache-2.0 */
/**
 * @file
 * Big-endian fields, fixed-point numbers, matrices, sums of deltas and tags of OpenType fonts.
 * For C99 and later, and for C++11 and later.
 *
 * In C, in this file: `static inline` functions. From C++14 on, a call of one can be a constant
 * expression, except a call of fty_put_bytes or fty_write_bytes. A program that calls only functions
 * of this list needs no library.
 *
 *     views         fty_{absent,first,items,from,follow}  fty_at_offset{16,24,32}
 *     fields        fty_{u8,i8,u16,i16,u24,u32,i32,i64,uint}
 *       checked     fty_read_{u8,i8,u16,i16,u24,u32,i32,i64,uint}
 *       in turn     fty_take_{u8,i8,u16,i16,u24,u32,i32,i64}  fty_take  fty_skip
 *       at pointers fty_{peek,poke}_{u16,i16,u24,u32,i32,i64}
 *     written       fty_write_{u8,i8,u16,i16,u24,u32,i32,i64,uint,bytes,offset16,offset24,offset32}
 *       in turn     fty_put_{u8,i8,u16,i16,u24,u32,i32,i64,bytes,zeros_to_4}
 *     spans         fty_span_{from,take}  fty_written
 *     rounding      fty_checked_round_{i16,i32,i64}  fty_f26dot6_{floor,ceil,round}
 *                   fty_fixed_{floor,ceil,round,round_away}
 *     conversions   fty_fixed_to_{i32,f26dot6,f2dot14}  fty_f26dot6_to_i32  fty_fixed_from_i32
 *                   fty_f48dot16_{to_i64,checked_to_fixed}
 *     arithmetic    fty_{add,sub}_i32  fty_{fixed,f26dot6}_mul  fty_mul_div_i64
 *     variations    fty_region_scalar  fty_delta_set_length
 *     others        fty_status_text  FTY_TAG
 *
 * Calls of the library: link with libfont_types.
 *
 *     quotients     fty_fixed_{div,mul_div}  fty_f26dot6_div
 *     matrices      fty_matrix_product  fty_matrix_transform_{point,vector,points}
 *     deltas        fty_delta_{sum,set_sum}  fty_checked_add_delta_{i16,u16}
 *     decimals      fty_parse_{i16,i32,i64}  fty_{format,format_padded}
 *                   fty_{fixed,f2dot14,f26dot6}_{parse,format}
 *     tags          fty_tag_{parse,validate,format}
 *     version       fty_version
 *
 * Languages that do not read this header call the exports, which font_types.map lists, as does
 * nm -D of the library. Of two names for one thing, the one with "abi" is the export: it takes each
 * array as a pointer and a length.
 *
 * Each function that the library exports has a contract that is proved. The comment of the function
 * states the contract.
 * What the functions in C return and write, and that they touch nothing else, is proved for every
 * argument, of what Clang 22 makes of them for a size_t of 64 bits and of 32. That GCC and another
 * Clang make the same of them is tested.
 *
 * A number is a raw value with a number of fraction bits f: the int32_t 98304 is
 * 98304 / 2^16 = 1.5 in 16.16, for which f is 16. f is from 6 to 30, and at most the
 * width less 2: up to 14 of an int16_t, and up to 30 of an int32_t or int64_t.
 *
 * "Wraps" means that the result is taken modulo 2^w, in two's complement of the w bits
 * of its type, or as many as the comment says. "Half up" rounds ties toward positive infinity;
 * "half away from zero" to the greater magnitude.
 *
 * Names obey these rules, with which c/tests/names.awk compares names and types:
 *
 * - A name begins with what the function is of: a format, a matrix, delta, tag, span or status. If
 *   it begins with none of these, it is of bytes, of any numbers, or of the library. Before all of
 *   this may stand "abi".
 * - A function of a format takes and gives raw values in the type of the format, except what a name
 *   with "to" or "from" converts to or from. The format "fixed" is 16.16.
 * - A type at the end of a name, such as i32, is the type of a number that the function takes or
 *   gives.
 * - Each integer type of OpenType has all functions of fields, but u8 and i8 have no "peek" and
 *   "poke". No other type has any. ("uint" is all 1 to 4 bytes of a part.)
 * - "read" leaves a view where it is, "take" moves a view or a span past what is taken, and "skip" a
 *   view. "write" leaves a span where it is, and "put" moves it past what is written.
 * - "parse" is from text, and "format" is to text.
 * - "checked" means, as in Rust, that the function fails, by FTY_OUT_OF_RANGE, where its sum, its
 *   rounding or its conversion does not fit.
 * - A function that can fail returns a fty_status, and stores its result where its last argument
 *   points, or in its view or span. Any other returns its result, but poke and
 *   fty_matrix_transform_points store it.
 * - A "length" counts bytes, a "count" elements, a "size" the bytes of one element, and "room" the
 *   bytes of a buffer. An "offset" counts bytes from the start, and an "index" elements.
 * - A name with "api" or "API" is private to this header.
 *
 * No function of the first two lists takes two integers of different kinds, which a compiler would
 * take in any order, but fty_items, for which both orders are one: an offset is the only integer of
 * its call, fraction bits are a fty_fraction, and an array beside another integer is one value with
 * its length, a fty_view, fty_span, fty_buffer or fty_numbers. A text, points or coordinates beside
 * no integer are a pointer and a length.
 *
 * What writes text stores the text in a fty_buffer, and its length where the last argument points.
 * If two errors apply, the status is the first that the comment lists. If a function fails, it
 * leaves all memory unchanged, except that fty_tag_validate stores the index of the invalid byte.
 *
 * Pointers must be valid for the length that goes with them (1 for a single value),
 * aligned, and not null, even if the call fails. A pointer whose length is 0 may be
 * null (this is tested, not proved). What a call writes must not overlap its other
 * arguments, except the view that is copied. Strings are bytes with a length, and a terminating
 * NUL is not needed; after a text that is written comes a NUL if the buffer has room for it.
 * Functions allocate nothing, keep nothing between calls and may be called from any thread.
 *
 * What a call writes may be uninitialized, except a view or a span that the call moves, and what is
 * changed in place, by fty_matrix_transform_points and fty_checked_add_delta_*. The library is Rust,
 * which asks for initialized values there: callers rely on its object code, which loads nothing from
 * there before it has stored it (this is tested, not proved). If you do not want to rely on that,
 * initialize what a call writes.
 */
#ifndef FONT_TYPES_H
#define FONT_TYPES_H

#include <stddef.h>
#include <stdint.h>

#if SIZE_MAX < 0xFFFFFFFF || (defined(__INT_MAX__) && __INT_MAX__ < 0x7FFFFFFF)
#error "font_types.h needs a size_t and an int of at least 32 bits"
#endif

/** The version of this header. */
#define FTY_VERSION "0.13.0"

/** The same as a number, major << 16 | minor << 8 | patch: later versions are greater. */
#define FTY_VERSION_NUMBER 0x000D00

/** @cond */
#ifdef __cplusplus
#define FTY_API_NOEXCEPT noexcept
#define FTY_API_NULL nullptr
#define FTY_API_AS(TYPE, VALUE) static_cast<TYPE>(VALUE)
#else
#define FTY_API_NOEXCEPT
#define FTY_API_NULL NULL
#define FTY_API_AS(TYPE, VALUE) ((TYPE)(VALUE))
#endif
#if defined(__GNUC__) || defined(__clang__)
#define FTY_API_CONST __attribute__((const))
#define FTY_API_MUST_USE __attribute__((warn_unused_result))
#define FTY_API_MOVE __builtin_memmove /* which needs no header */
#else
#include <string.h>
#define FTY_API_CONST
#define FTY_API_MUST_USE
#define FTY_API_MOVE memmove
#endif
/* Returns the bytes at `at` by one load, which compilers inline sooner than bytes and shifts,
 * except in a constant expression. */
#define FTY_API_LOAD(TYPE, SWAP)
#if defined(__has_builtin) && defined(__BYTE_ORDER__)
#if __has_builtin(__builtin_bswap64) && __BYTE_ORDER__ == __ORDER_LITTLE_ENDIAN__ \
    && (!defined(__cplusplus) || __has_builtin(__builtin_is_constant_evaluated))
#undef FTY_API_LOAD
#ifdef __cplusplus
#define FTY_API_IS_CONSTANT __builtin_is_constant_evaluated()
#else
#define FTY_API_IS_CONSTANT 0
#endif
#define FTY_API_LOAD(TYPE, SWAP)                     \
    if (!FTY_API_IS_CONSTANT) {                      \
        TYPE loaded = 0;                             \
        __builtin_memcpy(&loaded, at, sizeof loaded); \
        return FTY_API_AS(TYPE, SWAP(loaded));       \
    }
#endif
#endif
/* A function of its arguments alone. */
#define FTY_API_PURE FTY_API_MUST_USE FTY_API_CONST
/* One in C, which C++14 also evaluates in a constant expression; one that returns a value; and one
 * that only runs. Static, so that two versions can meet in one program. */
#if defined(__cplusplus) \
    && (__cplusplus >= 201402L || (defined(_MSVC_LANG) && _MSVC_LANG >= 201402L))
#define FTY_API_STATIC static constexpr
#else
#define FTY_API_STATIC static inline
#endif
#define FTY_API_INLINE FTY_API_STATIC FTY_API_MUST_USE
#define FTY_API_RUN static inline FTY_API_MUST_USE
/* The type of an enum, where the language has a place for it. In C++, an enum without one has no
 * values beyond the highest bit of those that it lists, and a later version may add some. */
#if defined(__cplusplus) || (defined(__STDC_VERSION__) && __STDC_VERSION__ >= 202311L)
#define FTY_API_OF_32_BITS : uint32_t
#else
#define FTY_API_OF_32_BITS
#endif
/** @endcond */

#ifdef __cplusplus
extern "C" {
#endif

/** The result of a call that can fail. Later versions may add values. */
typedef enum fty_status FTY_API_OF_32_BITS {
    FTY_OK = 0,               /**< success: the result was stored */
    FTY_NOT_DECIMAL = 1,      /**< the text is not a decimal */
    FTY_OUT_OF_RANGE = 2,     /**< the result does not fit in its type */
    FTY_BAD_FRACTION = 3,     /**< fraction bits below 6, above 30, or above the width less 2 */
    FTY_BUFFER_TOO_SMALL = 4, /**< the buffer is shorter than the text */
    FTY_BAD_PAD = 5,          /**< `fill` is 0x80 or above, or `align` is not a fty_align */
    FTY_OUT_OF_BOUNDS = 6,    /**< the field, or the array, is not within the bytes */
    FTY_COUNT_MISMATCH = 7,   /**< the number of scalars differs from the number of deltas */
    FTY_TOO_MANY = 8,         /**< more than 65,535 scalars for a delta set */
    /* 9 was the status of delta sets with deltas of 32 bits until 0.4 */
    FTY_BAD_TAG_LENGTH = 10,  /**< not 1 to 4 bytes; from fty_tag_validate: four spaces */
    FTY_BAD_TAG_BYTE = 11,    /**< a byte outside 0x20 to 0x7E, or a leading space; from
                                   fty_tag_parse also a printable byte after a space */
    FTY_BAD_TAG_SPACE = 12    /**< from fty_tag_validate: a printable byte after a space */
} fty_status;

/**
 * A number of fraction bits: FTY_FIXED or its like, or FTY_FRACTION(20). By the letter of C, these
 * are no constants: in a static array, such as a table of formats, write {16} or {20}.
 */
typedef struct fty_fraction {
    uint32_t bits; /**< the number */
} fty_fraction;

#ifdef __cplusplus
#define FTY_FRACTION(BITS) (fty_fraction{BITS})
#else
#define FTY_FRACTION(BITS) ((fty_fraction){BITS})
#endif
/* OpenType has data types for 16.16 (Fixed) and 2.14 (F2DOT14). */
#define FTY_F2DOT14 FTY_FRACTION(14)  /**< 2.14, int16_t */
#define FTY_F4DOT12 FTY_FRACTION(12)  /**< 4.12, int16_t */
#define FTY_F6DOT10 FTY_FRACTION(10)  /**< 6.10, int16_t */
#define FTY_FIXED FTY_FRACTION(16)    /**< 16.16, int32_t */
#define FTY_F26DOT6 FTY_FRACTION(6)   /**< 26.6, int32_t */
#define FTY_F2DOT30 FTY_FRACTION(30)  /**< 2.30, int32_t */
#define FTY_F48DOT16 FTY_FRACTION(16) /**< 48.16, int64_t */

/* ---- bytes at a pointer, for a caller that knows that they are there; a view checks it ---- */

/** The uint16 of the 2 bytes at a pointer. */
FTY_API_INLINE uint16_t fty_peek_u16(const uint8_t *at) FTY_API_NOEXCEPT {
    FTY_API_LOAD(uint16_t, __builtin_bswap16)
    return FTY_API_AS(uint16_t, at[0] << 8 | at[1]);
}

/** The int16 of the 2 bytes at a pointer. */
FTY_API_INLINE int16_t fty_peek_i16(const uint8_t *at) FTY_API_NOEXCEPT {
    return FTY_API_AS(int16_t, fty_peek_u16(at));
}

/** The uint24 of the 3 bytes at a pointer. */
FTY_API_INLINE uint32_t fty_peek_u24(const uint8_t *at) FTY_API_NOEXCEPT {
    return FTY_API_AS(uint32_t, at[0]) << 16 | fty_peek_u16(at + 1);
}

/** The uint32 of the 4 bytes at a pointer. */
FTY_API_INLINE uint32_t fty_peek_u32(const uint8_t *at) FTY_API_NOEXCEPT {
    FTY_API_LOAD(uint32_t, __builtin_bswap32)
    return FTY_API_AS(uint32_t, at[0]) << 24 | FTY_API_AS(uint32_t, at[1]) << 16
           | FTY_API_AS(uint32_t, at[2]) << 8 | at[3];
}

/** The int32 of the 4 bytes at a pointer. */
FTY_API_INLINE int32_t fty_peek_i32(const uint8_t *at) FTY_API_NOEXCEPT {
    return FTY_API_AS(int32_t, fty_peek_u32(at));
}

/** The int64 of the 8 bytes at a pointer. */
FTY_API_INLINE int64_t fty_peek_i64(const uint8_t *at) FTY_API_NOEXCEPT {
    const uint64_t high = fty_peek_u32(at);
    return FTY_API_AS(int64_t, high << 32 | fty_peek_u32(at + 4));
}

/** Stores a uint16 in the 2 bytes at a pointer. */
FTY_API_STATIC void fty_poke_u16(uint8_t *at, uint16_t value) FTY_API_NOEXCEPT {
    at[0] = FTY_API_AS(uint8_t, value >> 8);
    at[1] = FTY_API_AS(uint8_t, value & 0xFF);
}

/** Stores an int16 in the 2 bytes at a pointer. */
FTY_API_STATIC void fty_poke_i16(uint8_t *at, int16_t value) FTY_API_NOEXCEPT {
    fty_poke_u16(at, FTY_API_AS(uint16_t, value));
}

/** Stores a uint24, the low 24 bits of the value, in the 3 bytes at a pointer. */
FTY_API_STATIC void fty_poke_u24(uint8_t *at, uint32_t value) FTY_API_NOEXCEPT {
    at[0] = FTY_API_AS(uint8_t, value >> 16 & 0xFF);
    fty_poke_u16(at + 1, FTY_API_AS(uint16_t, value & 0xFFFF));
}

/** Stores a uint32 in the 4 bytes at a pointer. */
FTY_API_STATIC void fty_poke_u32(uint8_t *at, uint32_t value) FTY_API_NOEXCEPT {
    fty_poke_u16(at, FTY_API_AS(uint16_t, value >> 16));
    fty_poke_u16(at + 2, FTY_API_AS(uint16_t, value & 0xFFFF));
}

/** Stores an int32 in the 4 bytes at a pointer. */
FTY_API_STATIC void fty_poke_i32(uint8_t *at, int32_t value) FTY_API_NOEXCEPT {
    fty_poke_u32(at, FTY_API_AS(uint32_t, value));
}

/** Stores an int64 in the 8 bytes at a pointer. */
FTY_API_STATIC void fty_poke_i64(uint8_t *at, int64_t value) FTY_API_NOEXCEPT {
    const uint64_t bits = FTY_API_AS(uint64_t, value);
    fty_poke_u32(at, FTY_API_AS(uint32_t, bits >> 32));
    fty_poke_u32(at + 4, FTY_API_AS(uint32_t, bits & 0xFFFFFFFF));
}

/* ---- views: bytes of a font, and big-endian fields at byte offsets in them ---- */

/**
 * Bytes of a font, of a table or of a record: {bytes, length}. A view that is absent has null
 * bytes and the length 0, as {NULL, 0} has, whatever is meant by it. Its fields are missing, and
 * its parts have null bytes, so that a reader can look at the last view alone. Offsets, counts and
 * sizes may be any that a font has: no function of views overflows, or reads beyond a view.
 */
typedef struct fty_view {
    const uint8_t *bytes; /**< the first byte; null if the view is absent */
    size_t length;        /**< the number of bytes */
} fty_view;

/** A view that is absent. (A part of no bytes is not: its bytes are not null.) */
FTY_API_INLINE fty_view fty_absent(void) FTY_API_NOEXCEPT {
    fty_view absent = {FTY_API_NULL, 0};
    return absent;
}

/** @cond */
/* Whether `length` bytes at an offset are in a view. */
FTY_API_INLINE int fty_api_within(
    fty_view view, size_t offset, size_t length) FTY_API_NOEXCEPT {
    return length <= view.length && offset <= view.length - length;
}
/** @endcond */

/** The first `length` bytes; absent unless all of them are there. */
FTY_API_INLINE fty_view fty_first(fty_view view, size_t length) FTY_API_NOEXCEPT {
    if (length > view.length)
        return fty_absent();
    view.length = length;
    return view;
}

/**
 * The first `count` items of `size` bytes, or `size` items of `count` bytes; absent unless all of
 * them are there. A `size` that is no constant, such as one in the font, costs a division.
 */
FTY_API_INLINE fty_view fty_items(fty_view view, size_t count, size_t size) FTY_API_NOEXCEPT {
    if (size != 0 && count > view.length / size)
        return fty_absent();
    view.length = count * size;
    return view;
}

/**
 * The bytes from an offset to the end of the view; absent if the offset is past the end. From 0,
 * the whole view: where 0 means null, call fty_follow.
 */
FTY_API_INLINE fty_view fty_from(fty_view view, size_t offset) FTY_API_NOEXCEPT {
    if (offset > view.length)
        return fty_absent();
    if (offset != 0) /* for null plus 0 is undefined behavior in C */
        view.bytes += offset;
    view.length -= offset;
    return view;
}

/** The bytes from an offset to the end of the view; absent if the offset is 0, or past the end. */
FTY_API_INLINE fty_view fty_follow(fty_view view, size_t offset) FTY_API_NOEXCEPT {
    return offset == 0 ? fty_absent() : fty_from(view, offset);
}

/**
 * The bytes from where the 16-bit offset at `offset` points, to the end of the view; absent
 * if that offset is 0, missing, or past the end.
 */
FTY_API_INLINE fty_view fty_at_offset16(fty_view view, size_t offset) FTY_API_NOEXCEPT {
    if (!fty_api_within(view, offset, 2))
        return fty_absent();
    return fty_follow(view, fty_peek_u16(view.bytes + offset));
}

/**
 * The bytes from where the 24-bit offset at `offset` points, to the end of the view; absent
 * if that offset is 0, missing, or past the end.
 */
FTY_API_INLINE fty_view fty_at_offset24(fty_view view, size_t offset) FTY_API_NOEXCEPT {
    if (!fty_api_within(view, offset, 3))
        return fty_absent();
    return fty_follow(view, fty_peek_u24(view.bytes + offset));
}

/**
 * The bytes from where the 32-bit offset at `offset` points, to the end of the view; absent
 * if that offset is 0, missing, or past the end.
 */
FTY_API_INLINE fty_view fty_at_offset32(fty_view view, size_t offset) FTY_API_NOEXCEPT {
    if (!fty_api_within(view, offset, 4))
        return fty_absent();
    return fty_follow(view, fty_peek_u32(view.bytes + offset));
}

/** Reads a uint8, or fails by FTY_OUT_OF_BOUNDS. */
FTY_API_INLINE fty_status fty_read_u8(
    fty_view view, size_t offset, uint8_t *value) FTY_API_NOEXCEPT {
    if (offset >= view.length)
        return FTY_OUT_OF_BOUNDS;
    *value = view.bytes[offset];
    return FTY_OK;
}

/** A uint8. 0 may mean that it is missing. */
FTY_API_INLINE uint8_t fty_u8(fty_view view, size_t offset) FTY_API_NOEXCEPT {
    if (offset >= view.length)
        return 0;
    return view.bytes[offset];
}

/** Reads an int8, or fails by FTY_OUT_OF_BOUNDS. */
FTY_API_INLINE fty_status fty_read_i8(
    fty_view view, size_t offset, int8_t *value) FTY_API_NOEXCEPT {
    if (offset >= view.length)
        return FTY_OUT_OF_BOUNDS;
    *value = FTY_API_AS(int8_t, view.bytes[offset]);
    return FTY_OK;
}

/** An int8. 0 may mean that it is missing. */
FTY_API_INLINE int8_t fty_i8(fty_view view, size_t offset) FTY_API_NOEXCEPT {
    if (offset >= view.length)
        return 0;
    return FTY_API_AS(int8_t, view.bytes[offset]);
}

/** Reads a uint16, or fails by FTY_OUT_OF_BOUNDS. */
FTY_API_INLINE fty_status fty_read_u16(
    fty_view view, size_t offset, uint16_t *value) FTY_API_NOEXCEPT {
    if (!fty_api_within(view, offset, 2))
        return FTY_OUT_OF_BOUNDS;
    *value = fty_peek_u16(view.bytes + offset);
    return FTY_OK;
}

/** A uint16. 0 may mean that it is missing. */
FTY_API_INLINE uint16_t fty_u16(fty_view view, size_t offset) FTY_API_NOEXCEPT {
    if (!fty_api_within(view, offset, 2))
        return 0;
    return fty_peek_u16(view.bytes + offset);
}

/** Reads an int16, or fails by FTY_OUT_OF_BOUNDS. */
FTY_API_INLINE fty_status fty_read_i16(
    fty_view view, size_t offset, int16_t *value) FTY_API_NOEXCEPT {
    if (!fty_api_within(view, offset, 2))
        return FTY_OUT_OF_BOUNDS;
    *value = fty_peek_i16(view.bytes + offset);
    return FTY_OK;
}

/** An int16. 0 may mean that it is missing. */
FTY_API_INLINE int16_t fty_i16(fty_view view, size_t offset) FTY_API_NOEXCEPT {
    if (!fty_api_within(view, offset, 2))
        return 0;
    return fty_peek_i16(view.bytes + offset);
}

/** Reads a uint24, or fails by FTY_OUT_OF_BOUNDS. */
FTY_API_INLINE fty_status fty_read_u24(
    fty_view view, size_t offset, uint32_t *value) FTY_API_NOEXCEPT {
    if (!fty_api_within(view, offset, 3))
        return FTY_OUT_OF_BOUNDS;
    *value = fty_peek_u24(view.bytes + offset);
    return FTY_OK;
}

/** A uint24. 0 may mean that it is missing. */
FTY_API_INLINE uint32_t fty_u24(fty_view view, size_t offset) FTY_API_NOEXCEPT {
    if (!fty_api_within(view, offset, 3))
        return 0;
    return fty_peek_u24(view.bytes + offset);
}

/** Reads a uint32, or fails by FTY_OUT_OF_BOUNDS. */
FTY_API_INLINE fty_status fty_read_u32(
    fty_view view, size_t offset, uint32_t *value) FTY_API_NOEXCEPT {
    if (!fty_api_within(view, offset, 4))
        return FTY_OUT_OF_BOUNDS;
    *value = fty_peek_u32(view.bytes + offset);
    return FTY_OK;
}

/** A uint32. 0 may mean that it is missing. */
FTY_API_INLINE uint32_t fty_u32(fty_view view, size_t offset) FTY_API_NOEXCEPT {
    if (!fty_api_within(view, offset, 4))
        return 0;
    return fty_peek_u32(view.bytes + offset);
}

/** Reads an int32, or fails by FTY_OUT_OF_BOUNDS. */
FTY_API_INLINE fty_status fty_read_i32(
    fty_view view, size_t offset, int32_t *value) FTY_API_NOEXCEPT {
    if (!fty_api_within(view, offset, 4))
        return FTY_OUT_OF_BOUNDS;
    *value = fty_peek_i32(view.bytes + offset);
    return FTY_OK;
}

/** An int32. 0 may mean that it is missing. */
FTY_API_INLINE int32_t fty_i32(fty_view view, size_t offset) FTY_API_NOEXCEPT {
    if (!fty_api_within(view, offset, 4))
        return 0;
    return fty_peek_i32(view.bytes + offset);
}

/** Reads an int64, or fails by FTY_OUT_OF_BOUNDS. */
FTY_API_INLINE fty_status fty_read_i64(
    fty_view view, size_t offset, int64_t *value) FTY_API_NOEXCEPT {
    if (!fty_api_within(view, offset, 8))
        return FTY_OUT_OF_BOUNDS;
    *value = fty_peek_i64(view.bytes + offset);
    return FTY_OK;
}

/** An int64. 0 may mean that it is missing. */
FTY_API_INLINE int64_t fty_i64(fty_view view, size_t offset) FTY_API_NOEXCEPT {
    if (!fty_api_within(view, offset, 8))
        return 0;
    return fty_peek_i64(view.bytes + offset);
}

/** Reads the unsigned integer of all 1 to 4 bytes of a view, or fails by FTY_OUT_OF_BOUNDS. */
FTY_API_INLINE fty_status fty_read_uint(fty_view view, uint32_t *value) FTY_API_NOEXCEPT {
    switch (view.length) {
    case 1: *value = view.bytes[0]; return FTY_OK;
    case 2: *value = fty_peek_u16(view.bytes); return FTY_OK;
    case 3: *value = fty_peek_u24(view.bytes); return FTY_OK;
    case 4: *value = fty_peek_u32(view.bytes); return FTY_OK;
    default: return FTY_OUT_OF_BOUNDS;
    }
}

/** The unsigned integer of all 1 to 4 bytes of a view. 0 may mean that it is missing. */
FTY_API_INLINE uint32_t fty_uint(fty_view view) FTY_API_NOEXCEPT {
    uint32_t value = 0;
    return fty_read_uint(view, &value) == FTY_OK ? value : 0;
}

/* ---- fields in turn: the first of a view, which moves to the bytes after it, for a reader that
 *      goes forward; one that keeps an offset anyway calls fty_read_u16 and its like ---- */

/** @cond */
/* Moves a view by the length of its first field, and returns where that is. */
FTY_API_INLINE const uint8_t *fty_api_next(fty_view *rest, size_t length) FTY_API_NOEXCEPT {
    const uint8_t *const at = rest->bytes;
    rest->bytes = at + length;
    rest->length -= length;
    return at;
}
/** @endcond */

/**
 * Takes the first `length` bytes. Absent, and the view stays, unless all of them are there. 0 bytes
 * are in each present view: a loop that takes items until one is absent has to refuse the size 0.
 */
FTY_API_INLINE fty_view fty_take(fty_view *rest, size_t length) FTY_API_NOEXCEPT {
    const fty_view all = *rest;
    if (length > all.length)
        return fty_absent();
    *rest = fty_from(all, length);
    return fty_first(all, length);
}

/** Moves a view past its first `length` bytes. Fails by FTY_OUT_OF_BOUNDS, and the view stays. */
FTY_API_INLINE fty_status fty_skip(fty_view *rest, size_t length) FTY_API_NOEXCEPT {
    if (length > rest->length)
        return FTY_OUT_OF_BOUNDS;
    *rest = fty_from(*rest, length);
    return FTY_OK;
}

/** Takes a uint8. Fails by FTY_OUT_OF_BOUNDS, and the view stays. */
FTY_API_INLINE fty_status fty_take_u8(fty_view *rest, uint8_t *value) FTY_API_NOEXCEPT {
    if (rest->length == 0)
        return FTY_OUT_OF_BOUNDS;
    *value = *fty_api_next(rest, 1);
    return FTY_OK;
}

/** Takes an int8. Fails by FTY_OUT_OF_BOUNDS, and the view stays. */
FTY_API_INLINE fty_status fty_take_i8(fty_view *rest, int8_t *value) FTY_API_NOEXCEPT {
    if (rest->length == 0)
        return FTY_OUT_OF_BOUNDS;
    *value = FTY_API_AS(int8_t, *fty_api_next(rest, 1));
    return FTY_OK;
}

/** Takes a uint16. Fails by FTY_OUT_OF_BOUNDS, and the view stays. */
FTY_API_INLINE fty_status fty_take_u16(fty_view *rest, uint16_t *value) FTY_API_NOEXCEPT {
    if (rest->length < 2)
        return FTY_OUT_OF_BOUNDS;
    *value = fty_peek_u16(fty_api_next(rest, 2));
    return FTY_OK;
}

/** Takes an int16. Fails by FTY_OUT_OF_BOUNDS, and the view stays. */
FTY_API_INLINE fty_status fty_take_i16(fty_view *rest, int16_t *value) FTY_API_NOEXCEPT {
    if (rest->length < 2)
        return FTY_OUT_OF_BOUNDS;
    *value = fty_peek_i16(fty_api_next(rest, 2));
    return FTY_OK;
}

/** Takes a uint24. Fails by FTY_OUT_OF_BOUNDS, and the view stays. */
FTY_API_INLINE fty_status fty_take_u24(fty_view *rest, uint32_t *value) FTY_API_NOEXCEPT {
    if (rest->length < 3)
        return FTY_OUT_OF_BOUNDS;
    *value = fty_peek_u24(fty_api_next(rest, 3));
    return FTY_OK;
}

/** Takes a uint32. Fails by FTY_OUT_OF_BOUNDS, and the view stays. */
FTY_API_INLINE fty_status fty_take_u32(fty_view *rest, uint32_t *value) FTY_API_NOEXCEPT {
    if (rest->length < 4)
        return FTY_OUT_OF_BOUNDS;
    *value = fty_peek_u32(fty_api_next(rest, 4));
    return FTY_OK;
}

/** Takes an int32. Fails by FTY_OUT_OF_BOUNDS, and the view stays. */
FTY_API_INLINE fty_status fty_take_i32(fty_view *rest, int32_t *value) FTY_API_NOEXCEPT {
    if (rest->length < 4)
        return FTY_OUT_OF_BOUNDS;
    *value = fty_peek_i32(fty_api_next(rest, 4));
    return FTY_OK;
}

/** Takes an int64. Fails by FTY_OUT_OF_BOUNDS, and the view stays. */
FTY_API_INLINE fty_status fty_take_i64(fty_view *rest, int64_t *value) FTY_API_NOEXCEPT {
    if (rest->length < 8)
        return FTY_OUT_OF_BOUNDS;
    *value = fty_peek_i64(fty_api_next(rest, 8));
    return FTY_OK;
}

/* ---- writing: a span is room for bytes, and a view is bytes that are there. fty_put_u16 and its
 *      like write at its start and move it on; fty_write_u16 and its like leave it where it is, for
 *      a field that is written later, fty_write_u16(fty_span_from(table, 4), value). Join calls by
 *      && or ||: the operands of | run in any order ---- */

/**
 * Room for bytes of a font: {bytes, length}, like a fty_view, but not constant. Copy a span before
 * you move it: the copy is the table, and the span that is moved is the rest of the table.
 */
typedef struct fty_span {
    uint8_t *bytes; /**< the first byte; null if the span is absent */
    size_t length;  /**< the number of bytes */
} fty_span;

/** @cond */
/* Moves a span by the length of its first field, and returns where that is. */
FTY_API_INLINE uint8_t *fty_api_room(fty_span *rest, size_t length) FTY_API_NOEXCEPT {
    uint8_t *const at = rest->bytes;
    rest->bytes = at + length;
    rest->length -= length;
    return at;
}

/* Whether a span is the end of another: of the same array, and as far as the other goes. */
FTY_API_INLINE int fty_api_ends(fty_span all, fty_span rest) FTY_API_NOEXCEPT {
    return all.bytes != FTY_API_NULL && rest.length <= all.length
           && rest.bytes == all.bytes + (all.length - rest.length);
}
/** @endcond */

/** The room from an offset to the end of the span; absent if the offset is past the end. */
FTY_API_INLINE fty_span fty_span_from(fty_span span, size_t offset) FTY_API_NOEXCEPT {
    fty_span part = {FTY_API_NULL, 0};
    if (offset > span.length)
        return part;
    part.bytes = offset == 0 ? span.bytes : span.bytes + offset;
    part.length = span.length - offset;
    return part;
}

/**
 * Takes the first `length` bytes, to write them later: they keep what they have. Absent, and the
 * span stays, unless all of them are there.
 */
FTY_API_INLINE fty_span fty_span_take(fty_span *rest, size_t length) FTY_API_NOEXCEPT {
    const fty_span after = fty_span_from(*rest, length);
    fty_span part = {FTY_API_NULL, 0};
    if (length > rest->length)
        return part;
    part.bytes = rest->bytes;
    part.length = length;
    *rest = after;
    return part;
}

/**
 * What is written of a table so far: its length is the offset at which the rest begins. Absent
 * unless the rest is the end of the table.
 */
FTY_API_INLINE fty_view fty_written(fty_span table, fty_span rest) FTY_API_NOEXCEPT {
    fty_view part = fty_absent();
    if (!fty_api_ends(table, rest))
        return part;
    part.bytes = table.bytes;
    part.length = table.length - rest.length;
    return part;
}

/** Writes a uint8. Fails by FTY_OUT_OF_BOUNDS, and the span stays. */
FTY_API_INLINE fty_status fty_put_u8(fty_span *rest, uint8_t value) FTY_API_NOEXCEPT {
    if (rest->length == 0)
        return FTY_OUT_OF_BOUNDS;
    *fty_api_room(rest, 1) = value;
    return FTY_OK;
}

/** Writes an int8. Fails by FTY_OUT_OF_BOUNDS, and the span stays. */
FTY_API_INLINE fty_status fty_put_i8(fty_span *rest, int8_t value) FTY_API_NOEXCEPT {
    return fty_put_u8(rest, FTY_API_AS(uint8_t, value));
}

/** Writes a uint16. Fails by FTY_OUT_OF_BOUNDS, and the span stays. */
FTY_API_INLINE fty_status fty_put_u16(fty_span *rest, uint16_t value) FTY_API_NOEXCEPT {
    if (rest->length < 2)
        return FTY_OUT_OF_BOUNDS;
    fty_poke_u16(fty_api_room(rest, 2), value);
    return FTY_OK;
}

/** Writes an int16. Fails by FTY_OUT_OF_BOUNDS, and the span stays. */
FTY_API_INLINE fty_status fty_put_i16(fty_span *rest, int16_t value) FTY_API_NOEXCEPT {
    return fty_put_u16(rest, FTY_API_AS(uint16_t, value));
}

/** Writes a uint24. Fails by FTY_OUT_OF_BOUNDS, FTY_OUT_OF_RANGE, and the span stays. */
FTY_API_INLINE fty_status fty_put_u24(fty_span *rest, uint32_t value) FTY_API_NOEXCEPT {
    if (rest->length < 3)
        return FTY_OUT_OF_BOUNDS;
    if (value > 0xFFFFFF)
        return FTY_OUT_OF_RANGE;
    fty_poke_u24(fty_api_room(rest, 3), value);
    return FTY_OK;
}

/** Writes a uint32. Fails by FTY_OUT_OF_BOUNDS, and the span stays. */
FTY_API_INLINE fty_status fty_put_u32(fty_span *rest, uint32_t value) FTY_API_NOEXCEPT {
    if (rest->length < 4)
        return FTY_OUT_OF_BOUNDS;
    fty_poke_u32(fty_api_room(rest, 4), value);
    return FTY_OK;
}

/** Writes an int32. Fails by FTY_OUT_OF_BOUNDS, and the span stays. */
FTY_API_INLINE fty_status fty_put_i32(fty_span *rest, int32_t value) FTY_API_NOEXCEPT {
    return fty_put_u32(rest, FTY_API_AS(uint32_t, value));
}

/** Writes an int64. Fails by FTY_OUT_OF_BOUNDS, and the span stays. */
FTY_API_INLINE fty_status fty_put_i64(fty_span *rest, int64_t value) FTY_API_NOEXCEPT {
    if (rest->length < 8)
        return FTY_OUT_OF_BOUNDS;
    fty_poke_i64(fty_api_room(rest, 8), value);
    return FTY_OK;
}

/**
 * Copies the bytes of a view, also if they overlap those that are written. A view of no bytes may
 * be absent: nothing is written. Fails by FTY_OUT_OF_BOUNDS if the span is absent, or shorter than
 * the view; and the span stays.
 */
FTY_API_RUN fty_status fty_put_bytes(fty_span *rest, fty_view view) FTY_API_NOEXCEPT {
    if (rest->bytes == FTY_API_NULL || view.length > rest->length)
        return FTY_OUT_OF_BOUNDS;
    if (view.length != 0)
        FTY_API_MOVE(fty_api_room(rest, view.length), view.bytes, view.length);
    return FTY_OK;
}

/**
 * Writes up to three zeros, so that a multiple of four bytes of the table is written. Fails by
 * FTY_OUT_OF_BOUNDS unless the rest is the end of the table and the zeros fit, and the span stays.
 */
FTY_API_INLINE fty_status fty_put_zeros_to_4(fty_span *rest, fty_span table) FTY_API_NOEXCEPT {
    const size_t count = (rest->length - table.length) & 3;
    if (!fty_api_ends(table, *rest) || count > rest->length)
        return FTY_OUT_OF_BOUNDS;
    if ((count & 1) != 0)
        *fty_api_room(rest, 1) = 0;
    if ((count & 2) != 0)
        fty_poke_u16(fty_api_room(rest, 2), 0);
    return FTY_OK;
}

/** fty_put_u8 at the start of a span, which stays. */
FTY_API_INLINE fty_status fty_write_u8(fty_span span, uint8_t value) FTY_API_NOEXCEPT {
    return fty_put_u8(&span, value);
}

/** fty_put_i8 at the start of a span, which stays. */
FTY_API_INLINE fty_status fty_write_i8(fty_span span, int8_t value) FTY_API_NOEXCEPT {
    return fty_put_i8(&span, value);
}

/** fty_put_u16 at the start of a span, which stays. */
FTY_API_INLINE fty_status fty_write_u16(fty_span span, uint16_t value) FTY_API_NOEXCEPT {
    return fty_put_u16(&span, value);
}

/** fty_put_i16 at the start of a span, which stays. */
FTY_API_INLINE fty_status fty_write_i16(fty_span span, int16_t value) FTY_API_NOEXCEPT {
    return fty_put_i16(&span, value);
}

/** fty_put_u24 at the start of a span, which stays. */
FTY_API_INLINE fty_status fty_write_u24(fty_span span, uint32_t value) FTY_API_NOEXCEPT {
    return fty_put_u24(&span, value);
}

/** fty_put_u32 at the start of a span, which stays. */
FTY_API_INLINE fty_status fty_write_u32(fty_span span, uint32_t value) FTY_API_NOEXCEPT {
    return fty_put_u32(&span, value);
}

/** fty_put_i32 at the start of a span, which stays. */
FTY_API_INLINE fty_status fty_write_i32(fty_span span, int32_t value) FTY_API_NOEXCEPT {
    return fty_put_i32(&span, value);
}

/** fty_put_i64 at the start of a span, which stays. */
FTY_API_INLINE fty_status fty_write_i64(fty_span span, int64_t value) FTY_API_NOEXCEPT {
    return fty_put_i64(&span, value);
}

/**
 * Fills a span of 1 to 4 bytes with an unsigned integer. Fails by FTY_OUT_OF_BOUNDS if the span has
 * another length, by FTY_OUT_OF_RANGE if the value needs more bytes.
 */
FTY_API_INLINE fty_status fty_write_uint(fty_span span, uint32_t value) FTY_API_NOEXCEPT {
    if (span.length < 1 || span.length > 4)
        return FTY_OUT_OF_BOUNDS;
    if (span.length < 4 && value >> 8 * span.length != 0)
        return FTY_OUT_OF_RANGE;
    for (size_t i = span.length; i > 0; i--, value >>= 8)
        span.bytes[i - 1] = FTY_API_AS(uint8_t, value & 0xFF);
    return FTY_OK;
}

/** fty_put_bytes at the start of a span, which stays. */
FTY_API_RUN fty_status fty_write_bytes(fty_span span, fty_view view) FTY_API_NOEXCEPT {
    return fty_put_bytes(&span, view);
}

/** @cond */
/* Writes the distance of a part from the start of its table, in `size` bytes. */
FTY_API_INLINE fty_status fty_api_offset(
    fty_span table, size_t offset, fty_span part, size_t size) FTY_API_NOEXCEPT {
    fty_span rest = fty_span_from(table, offset);
    const fty_span field = fty_span_take(&rest, size);
    const size_t start = table.length - part.length;
    if (!fty_api_ends(table, part) || field.length == 0)
        return FTY_OUT_OF_BOUNDS;
    if (start == 0 || start != (start & 0xFFFFFFFF))
        return FTY_OUT_OF_RANGE;
    return fty_write_uint(field, FTY_API_AS(uint32_t, start & 0xFFFFFFFF));
}
/** @endcond */

/**
 * Writes at an offset of a table where a part of the table begins, in 16 bits: fty_at_offset16 of
 * the table then returns the part. Fails by FTY_OUT_OF_BOUNDS unless the part is the end of the
 * table, such as the rest, and the field is in the table; by FTY_OUT_OF_RANGE if the part is the
 * whole table, because 0 means null, or begins too far from the start of the table.
 */
FTY_API_INLINE fty_status fty_write_offset16(
    fty_span table, size_t offset, fty_span part) FTY_API_NOEXCEPT {
    return fty_api_offset(table, offset, part, 2);
}

/** Writes where a part of a table begins as fty_write_offset16 does, in 24 bits. */
FTY_API_INLINE fty_status fty_write_offset24(
    fty_span table, size_t offset, fty_span part) FTY_API_NOEXCEPT {
    return fty_api_offset(table, offset, part, 3);
}

/** Writes where a part of a table begins as fty_write_offset16 does, in 32 bits. */
FTY_API_INLINE fty_status fty_write_offset32(
    fty_span table, size_t offset, fty_span part) FTY_API_NOEXCEPT {
    return fty_api_offset(table, offset, part, 4);
}

/* ---- rounding to integers, half up; the result is a raw value too ---- */

/**
 * Rounds a 16-bit raw value to the raw value of the nearest integer, half up: 1.5 to 2.
 * Fails by FTY_BAD_FRACTION, FTY_OUT_OF_RANGE.
 */
FTY_API_INLINE fty_status fty_checked_round_i16(
    int16_t bits, fty_fraction fraction, int16_t *rounded) FTY_API_NOEXCEPT {
    int32_t half = 1;
    if (fraction.bits < 6 || fraction.bits > 14)
        return FTY_BAD_FRACTION;
    half <<= fraction.bits - 1;
    if (bits > INT16_MAX - half)
        return FTY_OUT_OF_RANGE;
    *rounded = FTY_API_AS(int16_t, (bits + half) & -2 * half);
    return FTY_OK;
}

/**
 * Rounds a 32-bit raw value to the raw value of the nearest integer, half up: 1.5 to 2.
 * Fails by FTY_BAD_FRACTION, FTY_OUT_OF_RANGE.
 */
FTY_API_INLINE fty_status fty_checked_round_i32(
    int32_t bits, fty_fraction fraction, int32_t *rounded) FTY_API_NOEXCEPT {
    int32_t half = 1;
    if (fraction.bits < 6 || fraction.bits > 30)
        return FTY_BAD_FRACTION;
    half <<= fraction.bits - 1;
    if (bits > INT32_MAX - half)
        return FTY_OUT_OF_RANGE;
    *rounded = (bits + half) & -2 * half;
    return FTY_OK;
}

/**
 * Rounds a 64-bit raw value to the raw value of the nearest integer, half up: 1.5 to 2.
 * Fails by FTY_BAD_FRACTION, FTY_OUT_OF_RANGE.
 */
FTY_API_INLINE fty_status fty_checked_round_i64(
    int64_t bits, fty_fraction fraction, int64_t *rounded) FTY_API_NOEXCEPT {
    int64_t half = 1;
    if (fraction.bits < 6 || fraction.bits > 30)
        return FTY_BAD_FRACTION;
    half <<= fraction.bits - 1;
    if (bits > INT64_MAX - half)
        return FTY_OUT_OF_RANGE;
    *rounded = (bits + half) & -2 * half;
    return FTY_OK;
}

/* ---- and of 16.16 and 26.6 by name; these wrap ---- */

/** The greatest integer of 16.16 up to x. */
FTY_API_INLINE int32_t fty_fixed_floor(int32_t x) FTY_API_NOEXCEPT {
    return x & -65536;
}

/** The least integer of 16.16 from x on; wraps. */
FTY_API_INLINE int32_t fty_fixed_ceil(int32_t x) FTY_API_NOEXCEPT {
    return FTY_API_AS(int32_t, FTY_API_AS(uint32_t, x) + 0xFFFFu) & -65536;
}

/** The nearest integer of 16.16, half up; wraps. */
FTY_API_INLINE int32_t fty_fixed_round(int32_t x) FTY_API_NOEXCEPT {
    return FTY_API_AS(int32_t, FTY_API_AS(uint32_t, x) + 0x8000u) & -65536;
}

/** The nearest integer of 16.16, half away from zero; wraps. */
FTY_API_INLINE int32_t fty_fixed_round_away(int32_t x) FTY_API_NOEXCEPT {
    return FTY_API_AS(int32_t, FTY_API_AS(uint32_t, x) + 0x8000u - (x < 0)) & -65536;
}

/** The greatest integer of 26.6 up to x: whole pixels. */
FTY_API_INLINE int32_t fty_f26dot6_floor(int32_t x) FTY_API_NOEXCEPT {
    return x & -64;
}

/** The least integer of 26.6 from x on; wraps. */
FTY_API_INLINE int32_t fty_f26dot6_ceil(int32_t x) FTY_API_NOEXCEPT {
    return FTY_API_AS(int32_t, FTY_API_AS(uint32_t, x) + 63u) & -64;
}

/** The nearest integer of 26.6, half up; wraps. */
FTY_API_INLINE int32_t fty_f26dot6_round(int32_t x) FTY_API_NOEXCEPT {
    return FTY_API_AS(int32_t, FTY_API_AS(uint32_t, x) + 32u) & -64;
}

/* ---- conversions to fewer fraction bits, half up. Those to as many or more are C, such as
 *      `bits * 4` from 2.14 to 16.16, `units * INT64_C(65536)` from font units to 48.16, and
 *      `(int32_t)bits` from 48.16 to 16.16, which wraps; or fty_f48dot16_checked_to_fixed, which
 *      does not, and fty_fixed_from_i32 ---- */

/** @cond */
/* A number of two's complement, by its bits and the weight of its sign. */
FTY_API_INLINE int32_t fty_api_signed(uint32_t bits, uint32_t sign) FTY_API_NOEXCEPT {
    return FTY_API_AS(int32_t, bits ^ sign) - FTY_API_AS(int32_t, sign);
}
/** @endcond */

/** 16.16 to the nearest integer, which is no raw value: 98304 to 2; wraps to 16 bits. */
FTY_API_INLINE int32_t fty_fixed_to_i32(int32_t bits) FTY_API_NOEXCEPT {
    return fty_api_signed((FTY_API_AS(uint32_t, bits) + 0x8000u) >> 16, 0x8000u);
}

/** 16.16 to the nearest 26.6; wraps to 22 bits. */
FTY_API_INLINE int32_t fty_fixed_to_f26dot6(int32_t bits) FTY_API_NOEXCEPT {
    return fty_api_signed((FTY_API_AS(uint32_t, bits) + 0x200u) >> 10, 0x200000u);
}

/** 16.16 to the nearest 2.14; wraps. */
FTY_API_INLINE int16_t fty_fixed_to_f2dot14(int32_t bits) FTY_API_NOEXCEPT {
    const uint32_t nearest = (FTY_API_AS(uint32_t, bits) + 2u) >> 2;
    return FTY_API_AS(int16_t, fty_api_signed(nearest & 0xFFFFu, 0x8000u));
}

/** 26.6 to the nearest integer, which is no raw value: 96 to 2; wraps to 26 bits. */
FTY_API_INLINE int32_t fty_f26dot6_to_i32(int32_t bits) FTY_API_NOEXCEPT {
    return fty_api_signed((FTY_API_AS(uint32_t, bits) + 32u) >> 6, 0x2000000u);
}

/** 48.16 to the nearest integer, which is no raw value: 98304 to 2; wraps to 48 bits. */
FTY_API_INLINE int64_t fty_f48dot16_to_i64(int64_t bits) FTY_API_NOEXCEPT {
    const uint64_t sign = UINT64_C(1) << 47;
    const uint64_t nearest = (FTY_API_AS(uint64_t, bits) + 0x8000u) >> 16;
    return FTY_API_AS(int64_t, nearest ^ sign) - FTY_API_AS(int64_t, sign);
}

/* ---- products and quotients ---- */

/** @cond */
/* A product of up to 2^62, over 2^shift, half away from zero; wraps. */
FTY_API_INLINE int32_t fty_api_nearest(int64_t product, int shift) FTY_API_NOEXCEPT {
    const int64_t half = INT64_C(1) << (shift - 1);
    const uint64_t sum = FTY_API_AS(uint64_t, product + half - (product < 0));
    return FTY_API_AS(int32_t, sum >> shift & 0xFFFFFFFFu);
}
/** @endcond */

/** x * y in 16.16, half away from zero; wraps. */
FTY_API_INLINE int32_t fty_fixed_mul(int32_t x, int32_t y) FTY_API_NOEXCEPT {
    return fty_api_nearest(FTY_API_AS(int64_t, x) * y, 16);
}

/** x * y in 26.6, half away from zero; wraps. */
FTY_API_INLINE int32_t fty_f26dot6_mul(int32_t x, int32_t y) FTY_API_NOEXCEPT {
    return fty_api_nearest(FTY_API_AS(int64_t, x) * y, 6);
}

/**
 * x * a / c, rounded once, half away from zero. It cannot overflow: fty_fixed_mul_div returns its
 * low 32 bits. If c is 0, INT32_MAX, negated if exactly one of x and a is negative.
 */
FTY_API_INLINE int64_t fty_mul_div_i64(int32_t x, int32_t a, int32_t c) FTY_API_NOEXCEPT {
    const int64_t p = FTY_API_AS(int64_t, x) * a, n = p < 0 ? -p : p;
    const int64_t d = c < 0 ? -FTY_API_AS(int64_t, c) : c;
    int64_t nearest = 0;
    if (d == 0)
        return (x < 0) != (a < 0) ? -INT32_MAX : INT32_MAX;
    nearest = (n + d / 2) / d;
    return (p < 0) != (c < 0) ? -nearest : nearest;
}

/** x / y in 16.16, half away from zero; wraps. If y is 0, INT32_MAX, negated if x is negative. */
FTY_API_PURE int32_t fty_fixed_div(int32_t x, int32_t y) FTY_API_NOEXCEPT;

/**
 * x * a / c, rounded once, half away from zero; wraps. If c is 0, INT32_MAX, negated
 * if exactly one of x and a is negative.
 */
FTY_API_PURE int32_t fty_fixed_mul_div(int32_t x, int32_t a, int32_t c) FTY_API_NOEXCEPT;

/** x / y in 26.6, half away from zero; wraps. If y is 0, INT32_MAX, negated if x is negative. */
FTY_API_PURE int32_t fty_f26dot6_div(int32_t x, int32_t y) FTY_API_NOEXCEPT;

/* ---- sums and products that wrap: `x - y` of two fields, and `x * 65536` of one, may overflow,
 *      which is undefined behavior in C ---- */

/** x + y, of 32-bit raw values of one format; wraps. */
FTY_API_INLINE int32_t fty_add_i32(int32_t x, int32_t y) FTY_API_NOEXCEPT {
    return FTY_API_AS(int32_t, FTY_API_AS(uint32_t, x) + FTY_API_AS(uint32_t, y));
}

/** x - y, of 32-bit raw values of one format; wraps. */
FTY_API_INLINE int32_t fty_sub_i32(int32_t x, int32_t y) FTY_API_NOEXCEPT {
    return FTY_API_AS(int32_t, FTY_API_AS(uint32_t, x) - FTY_API_AS(uint32_t, y));
}

/** An integer, such as font units, to 16.16, x * 65536; wraps unless x is from -32768 to 32767. */
FTY_API_INLINE int32_t fty_fixed_from_i32(int32_t x) FTY_API_NOEXCEPT {
    return FTY_API_AS(int32_t, FTY_API_AS(uint32_t, x) * UINT32_C(65536));
}

/** 48.16 to the same number in 16.16, or FTY_OUT_OF_RANGE; `(int32_t)bits` wraps. */
FTY_API_INLINE fty_status fty_f48dot16_checked_to_fixed(
    int64_t bits, int32_t *fixed) FTY_API_NOEXCEPT {
    if (bits < INT32_MIN || bits > INT32_MAX)
        return FTY_OUT_OF_RANGE;
    *fixed = FTY_API_AS(int32_t, bits);
    return FTY_OK;
}

/* ---- matrices and points of 16.16 values: products are fty_fixed_mul, sums wrap ---- */

/**
 * Transforms (x, y) to (xx * x + xy * y + dx, yx * x + yy * y + dy). The members are
 * in column order: FT_Matrix of FreeType has xx, xy, yx, yy. Points and translation
 * may also be in 26.6 or in font units, if both are in the same unit.
 */
typedef struct fty_matrix {
    int32_t xx; /**< from x to x */
    int32_t yx; /**< from x to y */
    int32_t xy; /**< from y to x */
    int32_t yy; /**< from y to y */
    int32_t dx; /**< added to x */
    int32_t dy; /**< added to y */
} fty_matrix;

/** A point, or a vector. */
typedef struct fty_point {
    int32_t x; /**< the x coordinate */
    int32_t y; /**< the y coordinate */
} fty_point;

/**
 * The matrix that applies b first, then a. If neither an element of the product nor a
 * coordinate of the image of p by the product overflows, each coordinate of that image
 * is at most (|p.x| + |p.y|) / 65536 + 2 from the exact one, all as raw values. (This is
 * proved of the two calls: `composed` in crates/font_c/src/laws.rt.)
 */
FTY_API_PURE fty_matrix fty_matrix_product(fty_matrix a, fty_matrix b) FTY_API_NOEXCEPT;

/**
 * Transforms a point. If a point is transformed by b, and the result by a, and no
 * coordinate of either overflows, x is at most (|a.xx| + |a.xy|) / 65536 + 1 from the
 * exact one, and y at most (|a.yx| + |a.yy|) / 65536 + 1, all as raw values. (This is
 * proved of the two calls: `in_turn` in crates/font_c/src/laws.rt.)
 */
FTY_API_PURE fty_point fty_matrix_transform_point(fty_matrix m, fty_point p) FTY_API_NOEXCEPT;

/** Transforms a vector, without the translation. */
FTY_API_PURE fty_point fty_matrix_transform_vector(fty_matrix m, fty_point v) FTY_API_NOEXCEPT;

/** Transforms points in place, each as fty_matrix_transform_point does. */
void fty_matrix_transform_points(
    const fty_matrix *m, fty_point *points, size_t count) FTY_API_NOEXCEPT;

/* ---- scalars of regions of an item variation store ---- */

/** @cond */
/* A scalar times that along an axis, which is stored as a start, a peak and an end. A distance of
 * coordinates fits in 16 bits, and its product by a scalar, which is at most 65536, in 32. */
FTY_API_INLINE uint32_t fty_api_scaled(
    uint32_t scalar, const uint8_t *axis, int16_t coordinate) FTY_API_NOEXCEPT {
    const int16_t peak = fty_peek_i16(axis + 2);
    int16_t start = 0, end = 0;
    uint16_t part = 0, whole = 0;
    if (peak == 0 || peak == coordinate)
        return scalar;
    start = fty_peek_i16(axis);
    end = fty_peek_i16(axis + 4);
    if (start > peak || peak > end || (start < 0 && end > 0))
        return scalar;
    if (coordinate <= start || coordinate >= end)
        return 0;
    part = FTY_API_AS(uint16_t, coordinate < peak ? coordinate - start : end - coordinate);
    whole = FTY_API_AS(uint16_t, coordinate < peak ? peak - start : end - peak);
    return (scalar * part + whole / 2u) / whole;
}
/** @endcond */

/**
 * The scalar of a region in 16.16, at coordinates in 2.14: the product of those along its axes, in
 * order, rounded once for each axis, half up. Along an axis, the scalar is 1 at the peak, falls to 0
 * at the start and at the end, and is 0 beyond. It is 1 everywhere if the peak is 0, if start, peak
 * and end are out of order, or if start and end are on both sides of 0.
 * Fails by FTY_OUT_OF_BOUNDS unless the region is present and has 6 bytes for each coordinate.
 */
FTY_API_INLINE fty_status fty_region_scalar(
    fty_view region, const int16_t *coordinates, size_t count, int32_t *scalar) FTY_API_NOEXCEPT {
    const fty_view axes = fty_items(region, count, 6);
    uint32_t product = 65536;
    size_t axis = 0;
    if (axes.bytes == FTY_API_NULL || axes.length != region.length)
        return FTY_OUT_OF_BOUNDS;
    for (; axis < count; axis++)
        product = fty_api_scaled(product, axes.bytes + 6 * axis, coordinates[axis]);
    *scalar = FTY_API_AS(int32_t, product);
    return FTY_OK;
}

/* ---- sums of deltas: scalars are 16.16, deltas font units, sums 48.16 ---- */

/** Numbers of 32 bits: {numbers, count}. */
typedef struct fty_numbers {
    const int32_t *numbers; /**< the first; may be null if there are none */
    size_t count;           /**< how many there are */
} fty_numbers;

/** The export of fty_delta_sum. */
FTY_API_MUST_USE fty_status fty_abi_delta_sum(
    const int32_t *scalars, size_t scalar_count, const int32_t *deltas, size_t delta_count,
    int64_t *sum) FTY_API_NOEXCEPT;

/** The export of fty_delta_set_sum. */
FTY_API_MUST_USE fty_status fty_abi_delta_set_sum(
    const int32_t *scalars, size_t scalar_count, const uint8_t *set, size_t set_length,
    uint16_t word_count, int64_t *sum) FTY_API_NOEXCEPT;

/**
 * The exact sum of scalar times delta over all items, even if partial sums overflow. Deltas may
 * also be raw values of f fraction bits; the sum then has f + 16.
 * Fails by FTY_COUNT_MISMATCH, FTY_OUT_OF_RANGE.
 */
FTY_API_RUN fty_status fty_delta_sum(
    fty_numbers scalars, fty_numbers deltas, int64_t *sum) FTY_API_NOEXCEPT {
    return fty_abi_delta_sum(scalars.numbers, scalars.count, deltas.numbers, deltas.count, sum);
}

/**
 * The same over a delta set of an item variation store. `word_count` is the field of the
 * font: the set has as many deltas of 16 bits as its low 15 bits say, followed by deltas
 * of 8 bits, or of 32 and of 16 bits if its bit 0x8000 is set. The set has as many deltas
 * as there are scalars, and exactly the bytes that these take, fty_delta_set_length. The sum
 * is exact for the scalars given; what rounded these before is not in it.
 * Fails by FTY_TOO_MANY; by FTY_COUNT_MISMATCH if the set has fewer or more bytes, or the low
 * 15 bits of `word_count` exceed the number of scalars; and, only if bit 0x8000 is set, by
 * FTY_OUT_OF_RANGE.
 */
FTY_API_RUN fty_status fty_delta_set_sum(
    fty_numbers scalars, fty_view set, uint16_t word_count, int64_t *sum) FTY_API_NOEXCEPT {
    return fty_abi_delta_set_sum(
        scalars.numbers, scalars.count, set.bytes, set.length, word_count, sum);
}

/**
 * The number of bytes of a delta set that has a delta for each scalar. It reads no scalar, so that
 * {NULL, count} will do.
 */
FTY_API_INLINE size_t fty_delta_set_length(
    fty_numbers scalars, uint16_t word_count) FTY_API_NOEXCEPT {
    const size_t size = (word_count & 0x8000) != 0 ? 2 : 1;
    return size * (scalars.count + (word_count & 0x7FFFu));
}

/** Adds a 48.16 delta in place, to the nearest font unit, half up, or FTY_OUT_OF_RANGE. */
FTY_API_MUST_USE fty_status fty_checked_add_delta_i16(
    int64_t delta, int16_t *units) FTY_API_NOEXCEPT;

/** The same for unsigned font units, such as advances. */
FTY_API_MUST_USE fty_status fty_checked_add_delta_u16(
    int64_t delta, uint16_t *units) FTY_API_NOEXCEPT;

/* ---- decimal text: `-` if negative, digits, and optionally a point and digits ---- */

/**
 * Parses a decimal of any length as the nearest 16-bit raw value, half away from zero.
 * Fails by FTY_BAD_FRACTION, FTY_NOT_DECIMAL, FTY_OUT_OF_RANGE.
 */
FTY_API_MUST_USE fty_status fty_parse_i16(
    const char *text, size_t length, fty_fraction fraction, int16_t *bits) FTY_API_NOEXCEPT;

/**
 * Parses a decimal of any length as the nearest 32-bit raw value, half away from zero.
 * Fails by FTY_BAD_FRACTION, FTY_NOT_DECIMAL, FTY_OUT_OF_RANGE.
 */
FTY_API_MUST_USE fty_status fty_parse_i32(
    const char *text, size_t length, fty_fraction fraction, int32_t *bits) FTY_API_NOEXCEPT;

/**
 * Parses a decimal of any length as the nearest 64-bit raw value, half away from zero.
 * Fails by FTY_BAD_FRACTION, FTY_NOT_DECIMAL, FTY_OUT_OF_RANGE.
 */
FTY_API_MUST_USE fty_status fty_parse_i64(
    const char *text, size_t length, fty_fraction fraction, int64_t *bits) FTY_API_NOEXCEPT;

/** A buffer for text: {text, room}. */
typedef struct fty_buffer {
    char *text;  /**< the first byte; may be null if there is no room */
    size_t room; /**< how many bytes the buffer has */
} fty_buffer;

/** Room for a decimal, which has at most 22 bytes, and for a NUL. */
enum { FTY_DECIMAL_ROOM = 24 };

/** The alignment of padded text. */
typedef enum fty_align FTY_API_OF_32_BITS {
    FTY_ALIGN_LEFT = 0,   /**< fill on the right */
    FTY_ALIGN_CENTER = 1, /**< fill on both sides; an odd fill byte goes on the right */
    FTY_ALIGN_RIGHT = 2   /**< fill on the left */
} fty_align;

/** How to pad a decimal. No version 1.n adds a member: more would be a new type, with new calls. */
typedef struct fty_pad {
    size_t width;  /**< the minimum width in bytes; 0 means none */
    uint8_t fill;  /**< the fill byte, below 0x80; 0 means a space */
    uint8_t align; /**< a fty_align */
    uint8_t plus;  /**< if not 0, a `+` is written unless the text starts with `-` */
    uint8_t zeros; /**< if not 0, pads with zeros after the sign, in place of `fill` and
                        `align`, which still have to be valid */
} fty_pad;

/** Right-aligned in `WIDTH` bytes, filled with spaces. */
#define FTY_PAD_INIT(WIDTH) {(WIDTH), ' ', FTY_ALIGN_RIGHT, 0, 0}

/** The export of fty_format, which writes no NUL. */
FTY_API_MUST_USE fty_status fty_abi_format(
    int64_t bits, fty_fraction fraction, char *out, size_t room, size_t *length) FTY_API_NOEXCEPT;

/** The export of fty_format_padded, which writes no NUL. */
FTY_API_MUST_USE fty_status fty_abi_format_padded(
    int64_t bits, fty_fraction fraction, const fty_pad *pad, char *out, size_t room,
    size_t *length) FTY_API_NOEXCEPT;

/** @cond */
/* Stores the length of a text that was written, and ends it by a NUL if there is room. */
FTY_API_RUN fty_status fty_api_end(
    fty_status status, fty_buffer out, size_t written, size_t *length) FTY_API_NOEXCEPT {
    if (status != FTY_OK)
        return status;
    if (written < out.room)
        out.text[written] = 0;
    *length = written;
    return FTY_OK;
}
/** @endcond */

/**
 * Writes the shortest decimal that parses back to the raw value; of these, the
 * nearest, and of two, the one farther from zero. The raw value may have any width.
 * Fails by FTY_BAD_FRACTION, FTY_BUFFER_TOO_SMALL.
 */
FTY_API_RUN fty_status fty_format(
    int64_t bits, fty_fraction fraction, fty_buffer out, size_t *length) FTY_API_NOEXCEPT {
    size_t written = 0;
    const fty_status status = fty_abi_format(bits, fraction, out.text, out.room, &written);
    return fty_api_end(status, out, written, length);
}

/**
 * As fty_format, padded. Room for `width` bytes is enough, or for 22 if that is more; the NUL
 * comes after them.
 * Fails by FTY_BAD_FRACTION, FTY_BAD_PAD, FTY_BUFFER_TOO_SMALL.
 */
FTY_API_RUN fty_status fty_format_padded(
    int64_t bits, fty_fraction fraction, const fty_pad *pad, fty_buffer out,
    size_t *length) FTY_API_NOEXCEPT {
    size_t written = 0;
    const fty_status status = fty_abi_format_padded(
        bits, fraction, pad, out.text, out.room, &written);
    return fty_api_end(status, out, written, length);
}

/* ---- the functions of three formats, with their types and fraction bits ---- */

/** fty_parse_i32 of 16.16. */
FTY_API_RUN fty_status fty_fixed_parse(
    const char *text, size_t length, int32_t *bits) FTY_API_NOEXCEPT {
    return fty_parse_i32(text, length, FTY_FIXED, bits);
}

/** fty_format of 16.16. */
FTY_API_RUN fty_status fty_fixed_format(
    int32_t bits, fty_buffer out, size_t *length) FTY_API_NOEXCEPT {
    return fty_format(bits, FTY_FIXED, out, length);
}

/** fty_parse_i16 of 2.14. */
FTY_API_RUN fty_status fty_f2dot14_parse(
    const char *text, size_t length, int16_t *bits) FTY_API_NOEXCEPT {
    return fty_parse_i16(text, length, FTY_F2DOT14, bits);
}

/** fty_format of 2.14. */
FTY_API_RUN fty_status fty_f2dot14_format(
    int16_t bits, fty_buffer out, size_t *length) FTY_API_NOEXCEPT {
    return fty_format(bits, FTY_F2DOT14, out, length);
}

/** fty_parse_i32 of 26.6. */
FTY_API_RUN fty_status fty_f26dot6_parse(
    const char *text, size_t length, int32_t *bits) FTY_API_NOEXCEPT {
    return fty_parse_i32(text, length, FTY_F26DOT6, bits);
}

/** fty_format of 26.6. */
FTY_API_RUN fty_status fty_f26dot6_format(
    int32_t bits, fty_buffer out, size_t *length) FTY_API_NOEXCEPT {
    return fty_format(bits, FTY_F26DOT6, out, length);
}

/* ---- tags, as numbers with the big-endian bytes of the tag ---- */

/** A tag of four characters, as a constant expression: FTY_TAG('g', 'l', 'y', 'f'). */
#define FTY_TAG(A, B, C, D)                                                \
    (((A) & 0xFF) * UINT32_C(0x1000000) + ((B) & 0xFF) * UINT32_C(0x10000) \
     + ((C) & 0xFF) * UINT32_C(0x100) + ((D) & 0xFF))

/** Room for the text of a tag, which has at most 24 bytes, and for a NUL. */
enum { FTY_TAG_ROOM = 25 };

/**
 * Parses a valid tag of one to four bytes, padding with spaces.
 * Fails by FTY_BAD_TAG_LENGTH, FTY_BAD_TAG_BYTE.
 */
FTY_API_MUST_USE fty_status fty_tag_parse(
    const char *text, size_t length, uint32_t *tag) FTY_API_NOEXCEPT;

/**
 * Checks a tag, and stores nothing if it is valid. Fails by FTY_BAD_TAG_LENGTH for four
 * spaces; else by FTY_BAD_TAG_BYTE or FTY_BAD_TAG_SPACE, by what is wrong with the first
 * invalid byte, whose index, 0 to 3, is stored. (OTS's CheckTag also takes a space anywhere.)
 */
FTY_API_MUST_USE fty_status fty_tag_validate(uint32_t tag, size_t *index) FTY_API_NOEXCEPT;

/** The export of fty_tag_format, which writes no NUL. */
FTY_API_MUST_USE fty_status fty_abi_tag_format(
    uint32_t tag, char *out, size_t room, size_t *length) FTY_API_NOEXCEPT;

/**
 * Writes the text of a tag, which need not be valid: bytes 0x20 to 0x7E as they are, else {0xNN}.
 * Fails by FTY_BUFFER_TOO_SMALL.
 */
FTY_API_RUN fty_status fty_tag_format(
    uint32_t tag, fty_buffer out, size_t *length) FTY_API_NOEXCEPT {
    size_t written = 0;
    const fty_status status = fty_abi_tag_format(tag, out.text, out.room, &written);
    return fty_api_end(status, out, written, length);
}

/* ---- statuses and the version ---- */

/** The meaning of a status, in words. */
FTY_API_INLINE const char *fty_status_text(fty_status status) FTY_API_NOEXCEPT {
    switch (status) {
    case FTY_OK: return "done";
    case FTY_NOT_DECIMAL: return "not a decimal number";
    case FTY_OUT_OF_RANGE: return "result out of range";
    case FTY_BAD_FRACTION: return "unsupported number of fraction bits";
    case FTY_BUFFER_TOO_SMALL: return "buffer too small";
    case FTY_BAD_PAD: return "invalid padding";
    case FTY_OUT_OF_BOUNDS: return "field out of bounds";
    case FTY_COUNT_MISMATCH: return "different numbers of scalars and deltas";
    case FTY_TOO_MANY: return "too many scalars";
    case FTY_BAD_TAG_LENGTH: return "wrong length of a tag";
    case FTY_BAD_TAG_BYTE: return "invalid byte in a tag";
    case FTY_BAD_TAG_SPACE: return "printable byte after a space in a tag";
    }
    return "unknown status";
}

/** The version of the linked library, as FTY_VERSION_NUMBER. */
FTY_API_PURE uint32_t fty_version(void) FTY_API_NOEXCEPT;

#ifdef __cplusplus
}
#endif

/** @cond */
#if defined(__cplusplus) || (defined(__STDC_VERSION__) && __STDC_VERSION__ >= 201112L)
#ifdef __cplusplus
#define FTY_API_ASSERT(CONDITION) static_assert(CONDITION, #CONDITION)
#else
#define FTY_API_ASSERT(CONDITION) _Static_assert(CONDITION, #CONDITION)
#endif
FTY_API_ASSERT(sizeof(fty_status) <= 4);
FTY_API_ASSERT(sizeof(fty_matrix) == 24 && offsetof(fty_matrix, dy) == 20);
FTY_API_ASSERT(sizeof(fty_point) == 8 && offsetof(fty_point, y) == 4);
FTY_API_ASSERT(sizeof(fty_pad) == 2 * sizeof(size_t));
FTY_API_ASSERT(offsetof(fty_pad, fill) == sizeof(size_t));
FTY_API_ASSERT(offsetof(fty_view, length) == sizeof(const uint8_t *));
FTY_API_ASSERT(sizeof(fty_span) == sizeof(fty_view));
FTY_API_ASSERT(sizeof(fty_fraction) == 4);
#undef FTY_API_ASSERT
#endif

#undef FTY_API_NOEXCEPT
#undef FTY_API_NULL
#undef FTY_API_OF_32_BITS
#undef FTY_API_AS
#undef FTY_API_MOVE
#undef FTY_API_LOAD
#undef FTY_API_IS_CONSTANT
#undef FTY_API_CONST
#undef FTY_API_MUST_USE
#undef FTY_API_PURE
#undef FTY_API_STATIC
#undef FTY_API_INLINE
#undef FTY_API_RUN
/** @endcond */

#endif
