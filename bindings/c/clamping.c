/* Clamped control points. First a cubic spline with uniform knots through three points, with slope zero at both ends. Six times the curve at a knot is
 * p(i-1) + 4 p(i) + p(i+1), and at such an end the missing neighbour is the other one, so the matrix from control points to curve points, times six, is
 *
 *     4 2 0
 *     1 4 1
 *     0 2 4
 *
 * The first control point is held by the first row. What remains for the others is 7/2 1, 2 4, with the factors 7/2, 2/7, 4/7, 24/7: in a banded matrix those
 * that stood behind the first. With two points held there remains the last factor, 24/7. Then a polynomial through positions at the times 1, 3 and 7, whose
 * factors change: 1 1 1, 1 3 9, 1 7 49 leaves 2 8, 6 48, with the factors 2, 4, 3, 24. Prints the factors of both and of what remains, the bound, and the
 * steps, foretold and made; and what is refused, in words. */
#include "beechcrib.h"
#include <math.h>
#include <stdio.h>

/* The factors 4, 1/2, 0; 1/4, 7/2, 2/7; 0, 4/7, 24/7. */
static const uint8_t spline[] = {
    3, 0xcc, 7, 0, 0xc9, 7, 0, 0, 0xc8, 7, 0, 0xcb, 7, 0x80, 0x80, 0x80, 0x80, 6, 0xc8, 7, 0x92, 0xc9, 0xa4, 0x92, 1, 0, 0xc9, 7, 0x92, 0xc9,
    0xa4, 0x92, 1, 0xcb, 7, 0xdb, 0xed, 0xb6, 0xdb, 5,
};

static void show(tnb_shelf shelf, size_t place)
{
    size_t n = tnb_rows(shelf, place).length;
    for (size_t i = 1; i <= n; i++) {
        for (size_t j = 1; j <= n; j++) {
            tnb_value b = tnb_factor(shelf, place, i, j);
            printf("  %.8f", ldexp((double)b.mantissa, (int)b.exponent));
        }
        printf("\n");
    }
}

/* Clamps the first k points of a place and prints what remains, at another place. */
static int clamped(tnb_shelf *shelf, size_t source, size_t k, size_t target)
{
    tnb_steps told = tnb_forecast_schur(*shelf, source, k);
    tnb_answer a = tnb_schur(*shelf, source, k, target);
    if (a.number != TNB_ACCEPTED || told.number != TNB_ACCEPTED || told.steps != a.steps)
        return 0;
    printf("%zu clamped: bound %u, %zu steps foretold and made\n", k, (unsigned)a.bound, a.steps);
    show(a.shelf, target);
    *shelf = a.shelf;
    return 1;
}

/* What was refused, in words. */
static int refused(tnb_answer a, int number, size_t k)
{
    uint8_t sentence[TNB_SENTENCE_ROOM];
    tnb_length w = tnb_sentence(a.number, a.offset, NULL, 0, sentence, sizeof sentence);
    printf("%zu clamped: %.*s\n", k, (int)w.length, (const char *)sentence);
    return a.number == number;
}

int main(void)
{
    static const uint64_t times[] = {1, 3, 7};
    tnb_answer a = tnb_load(tnb_new(), 0, spline, sizeof spline);
    if (a.number == TNB_ACCEPTED)
        a = tnb_build(a.shelf, 1, times, 3);
    if (a.number != TNB_ACCEPTED)
        return 1;
    tnb_shelf shelf = a.shelf;
    printf("the spline\n");
    show(shelf, 0);
    if (!clamped(&shelf, 0, 1, 2) || !clamped(&shelf, 0, 2, 3))
        return 1;
    printf("the polynomial\n");
    show(shelf, 1);
    if (!clamped(&shelf, 1, 1, 4))
        return 1;

    /* One point or more is clamped, and one or more is left; a full target is told first. */
    int right = refused(tnb_schur(shelf, 0, 0, 5), TNB_BAD_SETS, 0) && refused(tnb_schur(shelf, 0, 3, 5), TNB_BAD_SETS, 3) &&
                refused(tnb_schur(shelf, 0, 3, 1), TNB_TARGET_FULL, 3);
    return !right;
}
