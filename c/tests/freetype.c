/*
 * Compares the library with FreeType, by the table of README.md, over a million random inputs a
 * function. FreeType's FT_Long has 64 bits on most systems, so results are compared modulo 2^32,
 * except that of fty_mul_div_i64.
 */
#include "font_types.h"

#include <freetype/freetype.h>
#include <freetype/ftglyph.h>
#include <freetype/ftoutln.h>
#include <stdio.h>
#include <stdlib.h>

/* As in FreeType's ftobjs.h, which it does not install. */
#define FT_PIX_FLOOR(x) ((x) & ~63)
#define FT_PIX_ROUND(x) FT_PIX_FLOOR((x) + 32)
#define FT_PIX_CEIL(x) FT_PIX_FLOOR((x) + 63)

enum { ROUNDS = 1000000 };

static uint64_t state = 1;

/* A number of random length, so that small ones, ties and ends are frequent. */
static int32_t any(void) {
    state ^= state << 13;
    state ^= state >> 7;
    state ^= state << 17;
    switch (state % 16) {
    case 0: return INT32_MIN;
    case 1: return INT32_MAX;
    case 2: return 0;
    case 3: return (int32_t)(state >> 32 & 0xFFFF8000);
    default: return (int32_t)(state >> 32) >> (state >> 8) % 32;
    }
}

static int failed;

static void check(const char *name, int32_t ours, FT_Long theirs, int32_t x, int32_t y, int32_t z) {
    if (ours != (int32_t)theirs && failed++ < 10)
        printf("%s(%d, %d, %d): %d, not %d\n", name, (int)x, (int)y, (int)z, (int)ours,
               (int)theirs);
}

/* What README.md names for FT_Outline_Transform. */
static void (*const transform_outline)(const fty_matrix *, fty_point *, size_t) =
#include "outline.inc"
    ;

/* Two points by a random matrix, as FT_Outline_Transform moves them. */
static void check_outline(int32_t x, int32_t y) {
    const FT_Matrix a = {any(), any(), any(), any()};
    const fty_matrix m = {(int32_t)a.xx, (int32_t)a.yx, (int32_t)a.xy, (int32_t)a.yy, 0, 0};
    FT_Vector vectors[] = {{x, y}, {y, x}};
    fty_point points[] = {{x, y}, {y, x}};
    FT_Outline outline = {0, 2, vectors, NULL, NULL, 0};
    FT_Outline_Transform(&outline, &a);
    transform_outline(&m, points, 2);
    for (int i = 0; i < 2; i++) {
        check("points.x", points[i].x, vectors[i].x, x, y, i);
        check("points.y", points[i].y, vectors[i].y, x, y, i);
    }
}

/* What README.md names for FT_Matrix_Multiply(&a, &b). */
static fty_matrix multiplied(fty_matrix a, fty_matrix b) {
#include "multiply.inc"
    return b;
}

/* What README.md names for FT_Vector_Transform(&v, &m). */
static fty_point transformed(fty_point v, fty_matrix m) {
#include "transform.inc"
}

int main(int count, char **arguments) {
    /* With an argument, a value that is wrong. */
    if (count > 1)
        check(arguments[1], 1, 2, 0, 0, 0);
    for (int i = 0; i < ROUNDS; i++) {
        int32_t x = any(), y = any(), z = any();
        check("mul", fty_fixed_mul(x, y), FT_MulFix(x, y), x, y, 0);
        check("div", fty_fixed_div(x, y), FT_DivFix(x, y), x, y, 0);
        check("mul_div", fty_fixed_mul_div(x, y, z), FT_MulDiv(x, y, z), x, y, z);
        if (fty_mul_div_i64(x, y, z) != FT_MulDiv(x, y, z))
            check("mul_div of 64 bits", 1, 0, x, y, z);
        check("ceil", fty_fixed_ceil(x), FT_CeilFix(x), x, 0, 0);
        check("round", fty_fixed_round_away(x), FT_RoundFix(x), x, 0, 0);
        check("floor", fty_fixed_floor(x), FT_FloorFix(x), x, 0, 0);
        check("pixel ceil", fty_f26dot6_ceil(x), FT_PIX_CEIL((FT_Pos)x), x, 0, 0);
        check("pixel round", fty_f26dot6_round(x), FT_PIX_ROUND((FT_Pos)x), x, 0, 0);
        check("pixel floor", fty_f26dot6_floor(x), FT_PIX_FLOOR((FT_Pos)x), x, 0, 0);
        check_outline(x, y);
        FT_Matrix a = {any(), any(), any(), any()}, b = {any(), any(), any(), any()};
        fty_matrix m = {(int32_t)a.xx, (int32_t)a.yx, (int32_t)a.xy, (int32_t)a.yy, 0, 0};
        fty_matrix n = {(int32_t)b.xx, (int32_t)b.yx, (int32_t)b.xy, (int32_t)b.yy, 0, 0};
        fty_matrix c = multiplied(m, n);
        FT_Matrix_Multiply(&a, &b);
        check("product.xx", c.xx, b.xx, x, y, z);
        check("product.yx", c.yx, b.yx, x, y, z);
        check("product.xy", c.xy, b.xy, x, y, z);
        check("product.yy", c.yy, b.yy, x, y, z);
        FT_Vector v = {x, y};
        /* The matrix of FreeType has no translation. */
        m.dx = any(), m.dy = any();
        fty_point p = transformed((fty_point){x, y}, m);
        FT_Vector_Transform(&v, &a);
        check("vector.x", p.x, v.x, x, y, z);
        check("vector.y", p.y, v.y, x, y, z);
    }
    printf("compared with FreeType: %d rounds, %d differences\n", ROUNDS, failed);
    return failed == 0 ? 0 : 1;
}
