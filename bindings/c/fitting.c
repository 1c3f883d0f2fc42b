/* Fits a polynomial through stamped positions. The matrix V whose row i holds the powers 0 to n - 1 of stamp i is built from the stamps; the polynomial's
 * coefficients are the inverse of V times the positions. The re-signed inverse has the signs (-1)^(i+j) put on, so the signs of every second position are
 * turned before the carry, and those of every second coefficient after it. The library promises how far each factor of V is from the exact one; it promises
 * no distance for the coefficients, which are carried items. */
#include "beechcrib.h"
#include <math.h>
#include <stdio.h>

#define POINTS 5
#define NUMBERS (3 * POINTS) /* sign, mantissa and exponent of each item */

/* A whole number from -2^31 to 2^31 as a list item. */
static void put(int64_t *item, int64_t x)
{
    int64_t m = x < 0 ? -x : x, e = 0;
    while (m != 0 && m < 2147483648) {
        m *= 2;
        e--;
    }
    item[0] = (x > 0) - (x < 0);
    item[1] = m;
    item[2] = e;
}

static double value(const int64_t *item)
{
    return (double)item[0] * ldexp((double)item[1], (int)item[2]);
}

static void turn_signs(int64_t *list)
{
    for (size_t k = 1; k < POINTS; k += 2)
        list[3 * k] = -list[3 * k];
}

static int refused(int number)
{
    if (number != TNB_ACCEPTED)
        printf("refused %d\n", number);
    return number != TNB_ACCEPTED;
}

/* The coefficients of the polynomial that is at positions[k] at the time stamps[k]. */
static int fitted(const uint64_t *stamps, const int64_t *positions, int64_t *coefficients)
{
    int64_t list[NUMBERS];
    tnb_answer powers = tnb_build(tnb_new(), 0, stamps, POINTS);
    if (refused(powers.number))
        return 0;
    printf("the matrix of powers, within %u\n", (unsigned)powers.bound);
    tnb_answer inverse = tnb_inverse(powers.shelf, 0, 1);
    if (refused(inverse.number))
        return 0;
    for (size_t k = 0; k < POINTS; k++)
        put(list + 3 * k, positions[k]);
    turn_signs(list);
    if (refused(tnb_carry(inverse.shelf, 1, list, NUMBERS, coefficients, NUMBERS).number))
        return 0;
    turn_signs(coefficients);
    return 1;
}

int main(void)
{
    static const uint64_t stamps[POINTS] = {2, 3, 5, 8, 13};
    static const int64_t positions[POINTS] = {10, 45, 427, 3220, 24595};
    int64_t coefficients[NUMBERS];
    if (!fitted(stamps, positions, coefficients))
        return 1;
    for (size_t k = 0; k < POINTS; k++)
        printf("coefficient of t^%zu: %.6g\n", k, value(coefficients + 3 * k));
    for (size_t k = 0; k < POINTS; k++) {
        double t = (double)stamps[k], at = 0;
        for (size_t j = POINTS; j-- > 0;)
            at = at * t + value(coefficients + 3 * j);
        printf("at %g: %.6g\n", t, at);
    }
    static const uint64_t standstill[POINTS] = {2, 3, 3, 8, 13};
    printf("two stamps alike: refused %d\n", tnb_build(tnb_new(), 0, standstill, POINTS).number);
    return 0;
}
