/* Runs the lines that README.md shows. */
#include "font_types.h"

#include <stdio.h>

int main(void) {
    /* begin */
    int32_t width;
    fty_status status = fty_fixed_parse("1.5", 3, &width);           /* 98304 */
    if (status != FTY_OK) {
        fprintf(stderr, "width: %s\n", fty_status_text(status));
        return 1;
    }
    int32_t area = fty_fixed_mul(width, width);                      /* 147456 */
    char text[FTY_DECIMAL_ROOM];
    size_t length;
    fty_buffer buffer = {text, sizeof text};
    status = fty_fixed_format(area, buffer, &length); /* 2.25 */
    fty_matrix half = {32768, 0, 0, 32768, 0, 0};
    fty_point moved = fty_matrix_transform_point(half, (fty_point){width, 0}); /* (49152, 0) */
    /* end */
    printf("%s: %.*s %d %d\n", fty_status_text(status), (int)length, text, (int)moved.x,
           (int)moved.y);
    static const uint8_t bytes[] = {0, 1, 0x00, 0x01, 0x80, 0x00};
    /* begin */
    fty_view table = {bytes, sizeof bytes};
    fty_view values = fty_items(fty_from(table, 2), fty_u16(table, 0), 4); /* one of 4 bytes */
    int32_t value = fty_i32(values, 0);                                    /* 98304 */
    status = fty_read_i32(values, 4, &value);                              /* out of bounds */
    int32_t missing = fty_i32(values, 4);                                  /* 0 */
    /* end */
    printf("%s: %d %d\n", fty_status_text(status), (int)value, (int)missing);
    /* begin */
    uint8_t out[16] = {0};
    fty_span store = {out, sizeof out}, rest = store;            /* an item variation store */
    int is_written = fty_put_u16(&rest, 1) == FTY_OK             /* its format */
                     && fty_span_take(&rest, 6).bytes != NULL    /* an offset and a count */
                     && fty_write_offset32(store, 2, rest) == FTY_OK
                     && fty_put_u16(&rest, 2) == FTY_OK          /* axes */
                     && fty_put_zeros_to_4(&rest, store) == FTY_OK;
    status = fty_write_i16(fty_span_from(store, 15), -1);        /* out of bounds */
    /* end */
    fty_view written = fty_written(store, rest);
    printf("%s: %d %d %d %d\n", fty_status_text(status), is_written, (int)written.length,
           (int)fty_u32(written, 2), (int)fty_u16(fty_at_offset32(written, 2), 0));
    return 0;
}
