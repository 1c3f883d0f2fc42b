/* A tuning log that balances to the last bit. Gains are added one after the other; each sum is rounded to 32 bits, and what rounding took away is logged
 * beside it. In the end the last sum and all the rests together are the gains' exact total, checked in whole numbers. A product and a quotient balance in
 * the same way: product = result + rest, dividend = result * divisor + rest. */
#include "beechcrib.h"
#include <math.h>
#include <stdio.h>
#include <string.h>

/* Sign, mantissa, exponent. All are whole multiples of 2^-40, and so are their sums and rests. */
#define UNIT (-40)
static const int64_t gains[][3] = {
    {1, 4096000000, -12}, /* 1000000 */
    {1, 3435973837, -35}, /* 0.1, as near as 32 bits come */
    {1, 3579139413, -30}, /* 10/3, likewise */
    {1, 2748779069, -39}, /* 0.005, likewise */
    {1, 4096012288, -14}, /* 250000.75 */
    {1, 2684354560, -30}, /* 2.5 */
};
#define GAINS (sizeof gains / sizeof gains[0])

/* whole * 2^exponent in units of 2^unit. What is compared here lies from 0 to 2^64, so counting modulo 2^64 is exact, with rests below zero too.
 * A rest of 0 has exponent 0, whatever the unit, and is not shifted. */
static uint64_t units(int64_t whole, int64_t exponent, int64_t unit)
{
    return whole == 0 ? 0 : (uint64_t)whole << (exponent - unit);
}

static void print(const int64_t pair[6], char sign, tnb_worked a)
{
    printf("%.9g %c %.9g: %llu * 2^%lld", ldexp((double)pair[1], (int)pair[2]), sign, ldexp((double)pair[4], (int)pair[5]),
           (unsigned long long)a.mantissa, (long long)a.exponent);
    if (a.rest == 0)
        printf(", exact");
    else
        printf(", rest %lld * 2^%lld", (long long)a.rest, (long long)a.rest_exponent);
}

static int balanced(uint64_t left, uint64_t right)
{
    printf(", %s\n", left == right ? "balanced" : "NOT balanced");
    return left == right;
}

/* The gains added up, every rest logged. */
static int sum(void)
{
    int64_t pair[6];
    uint64_t rests = 0, total = units(gains[0][1], gains[0][2], UNIT);
    memcpy(pair, gains[0], sizeof gains[0]);
    for (size_t k = 1; k < GAINS; k++) {
        memcpy(pair + 3, gains[k], sizeof gains[k]);
        tnb_worked a = tnb_add(pair, 6);
        if (a.number != TNB_ACCEPTED)
            return 0;
        print(pair, '+', a);
        printf("\n");
        total += units(gains[k][1], gains[k][2], UNIT);
        rests += units(a.rest, a.rest_exponent, UNIT);
        pair[1] = (int64_t)a.mantissa; /* the sum is the next first item; a call takes it as long as its exponent is from -1000 to 1000 */
        pair[2] = a.exponent;
    }
    uint64_t last = units(pair[1], pair[2], UNIT);
    printf("in units of 2^%d: gains %llu, last sum %llu, rests %lld", UNIT, (unsigned long long)total, (unsigned long long)last, (long long)rests);
    return balanced(total, last + rests);
}

static int product(const int64_t pair[6])
{
    tnb_worked a = tnb_multiply(pair, 6);
    if (a.number != TNB_ACCEPTED)
        return 0;
    int64_t unit = pair[2] + pair[5];
    print(pair, '*', a);
    return balanced((uint64_t)pair[1] * (uint64_t)pair[4], units((int64_t)a.mantissa, a.exponent, unit) + units(a.rest, a.rest_exponent, unit));
}

static int quotient(const int64_t pair[6])
{
    tnb_worked a = tnb_divide(pair, 6);
    if (a.number != TNB_ACCEPTED)
        return 0;
    int64_t unit = a.exponent + pair[5];
    print(pair, '/', a);
    return balanced(units(pair[1], pair[2], unit), a.mantissa * (uint64_t)pair[4] + units(a.rest, a.rest_exponent, unit));
}

int main(void)
{
    static const int64_t tenth_and_ten_thirds[] = {1, 3435973837, -35, 1, 3579139413, -30};
    static const int64_t one_and_three[] = {1, 2147483648, -31, 1, 3221225472, -30};
    static const int64_t fifteen_and_five[] = {1, 4026531840, -28, 1, 2684354560, -29};
    static const int64_t one_and_zero[] = {1, 2147483648, -31, 0, 0, 0};
    if (!sum() || !product(tenth_and_ten_thirds) || !product(fifteen_and_five))
        return 1;
    if (!quotient(tenth_and_ten_thirds) || !quotient(one_and_three) || !quotient(fifteen_and_five))
        return 1;

    /* only positive items are worked */
    printf("1 / 0: refused %d\n", tnb_divide(one_and_zero, 6).number);
    return 0;
}
