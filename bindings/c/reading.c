/* Reads what a shelf holds: the rows of each place and the factors of one, as mantissa and exponent and as doubles. Then what is answered where there is
 * nothing to read. */
#include "beechcrib.h"
#include <math.h>
#include <stdio.h>

/* n = 3, all factors one */
static const uint8_t ones[] = {3, 0xca, 7, 0, 0xca, 7, 0, 0xca, 7, 0, 0xca, 7, 0, 0xca, 7, 0, 0xca, 7, 0, 0xca, 7, 0, 0xca, 7, 0, 0xca, 7, 0};

static void print_rows(tnb_shelf shelf)
{
    printf("rows:");
    for (size_t place = 0; place < 8; place++)
        printf(" %zu", tnb_rows(shelf, place).length);
    printf("\n");
}

/* A factor has 32 digits and its exponent is from -1000 to 1000, so a double holds it exactly. */
static void print_factors(tnb_shelf shelf, size_t place)
{
    size_t n = tnb_rows(shelf, place).length;
    for (size_t i = 1; i <= n; i++)
        for (size_t j = 1; j <= n; j++) {
            tnb_value b = tnb_factor(shelf, place, i, j);
            printf("b(%zu,%zu) = %llu * 2^%lld = %.9g\n", i, j, (unsigned long long)b.mantissa, (long long)b.exponent,
                   ldexp((double)b.mantissa, (int)b.exponent));
        }
}

int main(void)
{
    tnb_answer a = tnb_load(tnb_new(), 1, ones, sizeof ones);
    if (a.number == TNB_ACCEPTED)
        a = tnb_product(a.shelf, 1, 1, 4);
    if (a.number != TNB_ACCEPTED) {
        printf("refused %d\n", a.number);
        return 1;
    }
    print_rows(a.shelf);
    print_factors(a.shelf, 4);

    /* reading is never refused: an empty place has no rows, and what is not there is zero */
    tnb_value none = tnb_factor(a.shelf, 4, 1, 4);
    printf("b(1,4): number %d, mantissa %llu\n", none.number, (unsigned long long)none.mantissa);
    printf("place 8: number %d, %zu rows\n", tnb_rows(a.shelf, 8).number, tnb_rows(a.shelf, 8).length);
    return 0;
}
