/*
 * Calls each export that stores a result, with places that were never stored to, each once. It
 * prints the upper digits of their addresses: a trace of its memory must have no load from there.
 */
#include "font_types.h"

#include <stdio.h>
#include <stdlib.h>
#include <string.h>

enum { PLACES = 1 << 20, ROUNDS = 40, MOST = 32 };

static uint8_t *next_place;
static uint64_t state = 1;
static unsigned results;

static void *place(size_t size) {
    uint8_t *const found = next_place;
    next_place += (size + 15) / 16 * 16;
    return found;
}

static uint64_t any(void) {
    state ^= state << 13;
    state ^= state >> 7;
    state ^= state << 17;
    return state;
}

static void parse_and_format(void) {
    static const char *const texts[] = {"1.5", "-0", "1e3", "32767.99999", "-32768", "", "0.00001",
                                        "99999999999999999999.5"};
    const char *const text = texts[any() % 8];
    const size_t length = strlen(text);
    const fty_fraction f = FTY_FRACTION((uint32_t)(any() % 33));
    const int64_t bits = (int64_t)any() >> any() % 64;
    const fty_pad pad = {any() % 50, (uint8_t)(any() % 140), (uint8_t)(any() % 4),
                         (uint8_t)(any() % 2), (uint8_t)(any() % 2)};
    results += fty_parse_i16(text, length, f, (int16_t *)place(2));
    results += fty_parse_i32(text, length, f, (int32_t *)place(4));
    results += fty_parse_i64(text, length, f, (int64_t *)place(8));
    const fty_buffer out = {(char *)place(40), any() % 40};
    const fty_buffer padded = {(char *)place(70), any() % 70};
    results += fty_format(bits, f, out, (size_t *)place(8));
    results += fty_format_padded(bits, f, &pad, padded, (size_t *)place(8));
}

static void sum(void) {
    int32_t scalars[MOST], deltas[MOST];
    uint8_t set[4 * MOST];
    for (size_t i = 0; i < MOST; i++)
        scalars[i] = (int32_t)any(), deltas[i] = (int32_t)any();
    for (size_t i = 0; i < sizeof set; i++)
        set[i] = (uint8_t)any();
    const size_t count = any() % MOST, length = any() % 4;
    const uint16_t words = (uint16_t)(any() % (count + 1) + any() % 2 * 0x8000);
    const fty_numbers of = {scalars, count}, moved = {deltas, length == 0 ? 3 : count};
    const fty_view bytes = {set, length == 0 ? 1 : fty_delta_set_length(of, words)};
    results += fty_delta_sum(of, moved, (int64_t *)place(8));
    results += fty_delta_set_sum(of, bytes, words, (int64_t *)place(8));
}

static void make_tags(void) {
    char text[5];
    for (size_t i = 0; i < sizeof text; i++)
        text[i] = (char)(0x1E + any() % 0x60);
    uint32_t tag = (uint32_t)any();
    tag = any() % 2 == 0 ? tag : (tag & 0x3F3F3F3F) | 0x20202020;
    results += fty_tag_parse(text, any() % 6, (uint32_t *)place(4));
    results += fty_tag_validate(tag, (size_t *)place(8));
    const fty_buffer out = {(char *)place(25), any() % 26};
    results += fty_tag_format(tag, out, (size_t *)place(8));
}

int main(int count, char **arguments) {
    uint8_t *const places = (uint8_t *)aligned_alloc(PLACES, PLACES);
    if (places == NULL)
        return 1;
    /* With an argument, a load. */
    next_place = places;
    if (count > 1)
        results += *(volatile uint8_t *)places + (arguments == NULL);
    for (int i = 0; i < ROUNDS; i++) {
        parse_and_format();
        sum();
        make_tags();
    }
    printf("%llx\n", (unsigned long long)(uintptr_t)places / PLACES);
    return results == 0;
}
