/* Carries lists of control points through a matrix and counts their reversals before and after. A reversal is a pair of nonzero items of opposite
 * sign with only zeros between: an axis that goes forward, rests and comes back has turned once. Where a carry is accepted, the list that it wrote has
 * no more reversals than the list that it was given: that is proved of the library as written, and looked at here as it was compiled. */
#include "beechcrib.h"
#include <math.h>
#include <stdio.h>
#include <string.h>

#define ROWS 4
#define NUMBERS (3 * ROWS) /* sign, mantissa and exponent of each item */

/* The bytes of n = 4 with all factors one. */
static size_t put_ones(uint8_t *bytes)
{
    static const uint8_t one[] = {0xca, 0x07, 0x00};
    bytes[0] = ROWS;
    for (size_t k = 0; k < ROWS * ROWS; k++)
        memcpy(bytes + 1 + 3 * k, one, sizeof one);
    return 1 + 3 * ROWS * ROWS;
}

/* A whole number from -2^31 to 2^31 as a list item. */
static void put(int64_t *item, int64_t x)
{
    int64_t m = x < 0 ? -x : x, e = 0;
    while (m != 0 && m < 2147483648) {
        m *= 2;
        e--;
    }
    item[0] = (x > 0) - (x < 0);
    item[1] = m;
    item[2] = e;
}

static void print(const char *name, const int64_t *list)
{
    printf("%s", name);
    for (size_t k = 0; k < ROWS; k++)
        printf(" %g", (double)list[3 * k] * ldexp((double)list[3 * k + 1], (int)list[3 * k + 2]));
    printf(", reversals %zu\n", tnb_reversals(list, NUMBERS).length);
}

static int carried(tnb_shelf shelf, const int64_t points[ROWS])
{
    int64_t before[NUMBERS], after[NUMBERS];
    for (size_t k = 0; k < ROWS; k++)
        put(before + 3 * k, points[k]);
    tnb_status s = tnb_carry(shelf, 0, before, NUMBERS, after, NUMBERS);
    if (s.number != TNB_ACCEPTED) {
        printf("refused %d\n", s.number);
        return 0;
    }
    print("before:", before);
    print("after: ", after);
    int more = tnb_reversals(after, NUMBERS).length > tnb_reversals(before, NUMBERS).length;
    printf("%s\n", more ? "a turn that the drawing lacks" : "no turn added");
    return !more;
}

int main(void)
{
    uint8_t bytes[449];
    tnb_answer a = tnb_load(tnb_new(), 0, bytes, put_ones(bytes));
    if (a.number != TNB_ACCEPTED) {
        printf("refused %d\n", a.number);
        return 1;
    }
    static const int64_t lists[][ROWS] = {{5, 0, -3, 1}, {5, -1, 0, -3}, {0, 0, 0, 0}};
    for (size_t k = 0; k < 3; k++)
        if (!carried(a.shelf, lists[k]))
            return 1;
    return 0;
}
