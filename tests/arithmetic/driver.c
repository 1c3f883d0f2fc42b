/* Works each line of standard input by the compiled library. A line is OP COUNT and so many numbers, three to an item. For + * / the answer is number,
 * offset, mantissa, exponent, rest and rest exponent; for c, which carries the list through two rows of ones, number, offset and the lent list. */
#include "beechcrib.h"
#include <inttypes.h>
#include <stdio.h>

#define MOST 12
#define ROOM 7 /* two items and one number more, to see that it is left alone */

static const uint8_t ones[] = {2, 0xca, 7, 0, 0xca, 7, 0, 0xca, 7, 0, 0xca, 7, 0};

static int read_line(char *op, int64_t *items, size_t *count)
{
    if (scanf(" %c %zu", op, count) != 2 || *count > MOST)
        return 0;
    for (size_t k = 0; k < *count; k++)
        if (scanf("%" SCNd64, &items[k]) != 1)
            return 0;
    return 1;
}

static void work(char op, const int64_t *items, size_t count)
{
    tnb_worked a = op == '+' ? tnb_add(items, count) : op == '*' ? tnb_multiply(items, count) : tnb_divide(items, count);
    printf("%d %zu %" PRIu64 " %" PRId64 " %" PRId64 " %" PRId64 "\n", a.number, a.offset, a.mantissa, a.exponent, a.rest, a.rest_exponent);
}

static void carry(tnb_shelf shelf, const int64_t *items, size_t count)
{
    int64_t out[ROOM];
    for (size_t k = 0; k < ROOM; k++)
        out[k] = 7;
    tnb_status a = tnb_carry(shelf, 0, items, count, out, ROOM);
    printf("%d %zu", a.number, a.offset);
    for (size_t k = 0; k < ROOM; k++)
        printf(" %" PRId64, out[k]);
    printf("\n");
}

int main(void)
{
    char op;
    int64_t items[MOST];
    size_t count;
    tnb_answer loaded = tnb_load(tnb_new(), 0, ones, sizeof ones);
    if (loaded.number != TNB_ACCEPTED)
        return 1;
    while (read_line(&op, items, &count)) {
        if (op == 'c')
            carry(loaded.shelf, count ? items : NULL, count);
        else
            work(op, count ? items : NULL, count);
    }
    return !feof(stdin) || fflush(stdout) != 0;
}
