/* Every call once, with the values that documents 01 and 02 give, and NULL with length 0. Prints the first call that answers otherwise; exit status 1 then. */
#include "beechcrib.h"
#include <stdio.h>
#include <stdlib.h>
#include <string.h>

static const uint8_t two[] = {2, 0xca, 7, 0, 0xca, 7, 0, 0xca, 7, 0, 0xca, 7, 0, 0xff};
static const uint8_t three[] = {3, 0xca, 7, 0, 0xca, 7, 0, 0xca, 7, 0, 0xca, 7, 0, 0xca, 7, 0, 0xca, 7, 0, 0xca, 7, 0, 0xca, 7, 0, 0xca, 7, 0};
static const uint8_t banded[] = {3, 0xca, 7, 0, 0xca, 7, 0, 0, 0xca, 7, 0, 0xca, 7, 0, 0xca, 7, 0, 0, 0xca, 7, 0, 0xca, 7, 0};
static const uint8_t broken[] = {3, 0xca, 7, 0, 0, 0xca, 7, 0};
static const int64_t list[] = {1, 2147483648, -31, -1, 2147483648, -31};
static const int64_t standstill[] = {1, 2147483648, -31, 0, 0, 0, -1, 2147483648, -31};

static void want(int right, const char *call)
{
    if (right)
        return;
    printf("%s: another answer\n", call);
    exit(1);
}

static int factor(const tnb_shelf *s, size_t place, size_t i, size_t j, uint64_t m, int64_t e)
{
    tnb_value b = tnb_factor(*s, place, i, j);
    return b.number == TNB_ACCEPTED && b.offset == 0 && b.mantissa == m && b.exponent == e;
}

static tnb_shelf accepted(tnb_answer a, uint32_t bound, const char *call)
{
    want(a.number == TNB_ACCEPTED && a.offset == 0 && a.bound == bound, call);
    return a.shelf;
}

/* an operation, with the steps that were foretold */
static tnb_shelf operated(tnb_answer a, uint32_t bound, tnb_steps told, size_t steps, const char *call)
{
    want(told.number == TNB_ACCEPTED && told.steps == steps && a.steps == steps, call);
    return accepted(a, bound, call);
}

/* place holds two rows, all factors of mantissa m, with these exponents */
static int square(const tnb_shelf *s, size_t place, uint64_t m, int64_t a, int64_t b, int64_t c, int64_t d)
{
    return tnb_rows(*s, place).length == 2 && factor(s, place, 1, 1, m, a) && factor(s, place, 1, 2, m, b) && factor(s, place, 2, 1, m, c) &&
           factor(s, place, 2, 2, m, d);
}

/* places 2 to 6: product, inverse, converse, submatrix, transpose; and a Schur complement */
static tnb_shelf operations(tnb_shelf s)
{
    const uint64_t m = 2147483648u;
    s = operated(tnb_product(s, 0, 0, 2), 51, tnb_forecast_product(s, 0, 0), 24, "product");
    want(factor(&s, 2, 1, 1, m, -30) && factor(&s, 2, 1, 2, 3221225472u, -31) && factor(&s, 2, 2, 2, m, -32), "product");
    want(tnb_product(s, 0, 1, 3).number == TNB_SIZES_DIFFER && tnb_product(s, 0, 1, 0).number == TNB_TARGET_FULL, "product, sizes differ, target full");
    s = operated(tnb_inverse(s, 0, 3), 27, tnb_forecast_inverse(s, 0), 12, "inverse");
    want(square(&s, 3, m, -30, -32, -32, -32), "inverse");
    s = operated(tnb_converse(s, 0, 4), 27, tnb_forecast_converse(s, 0), 12, "converse");
    want(square(&s, 4, m, -30, -32, -32, -32), "converse");
    s = operated(tnb_submatrix(s, 1, 6, 3, 5), 63, tnb_forecast_submatrix(s, 1, 6, 3), 42, "submatrix");
    want(square(&s, 5, m, -31, -30, -31, -31), "submatrix");
    s = operated(tnb_transpose(s, 5, 6), 0, tnb_forecast_transpose(s, 5), 0, "transpose");
    want(square(&s, 6, m, -31, -31, -30, -31), "transpose");
    want(tnb_submatrix(s, 1, 6, 1, 7).number == TNB_BAD_SETS && tnb_submatrix(s, 1, 6, 1, 7).steps == 0, "submatrix, unequal sets");
    tnb_shelf rest = operated(tnb_schur(s, 1, 1, 7), 63, tnb_forecast_schur(s, 1, 1), 66, "schur");
    want(square(&rest, 7, m, -31, -30, -30, -31), "schur");
    want(tnb_schur(s, 1, 0, 7).number == TNB_BAD_SETS && tnb_schur(s, 1, SIZE_MAX, 7).number == TNB_BAD_SETS, "schur, none, more than all");
    want(tnb_schur(s, 1, 3, 2).number == TNB_TARGET_FULL && tnb_schur(s, 7, 0, 2).number == TNB_SOURCE_EMPTY, "schur, the places first");
    return s;
}

/* forecasts, and the bytes of a place: places 0 and 1 hold two and three rows, place 7 nothing */
static void foretold(tnb_shelf s)
{
    want(tnb_forecast_product(s, 0, 1).number == TNB_SIZES_DIFFER && tnb_forecast_product(s, 0, 1).steps == 0, "forecast, sizes differ");
    want(tnb_forecast_product(s, 7, 8).number == TNB_PLACE_ABOVE_7 && tnb_forecast_transpose(s, 8).number == TNB_PLACE_ABOVE_7, "forecast, above 7");
    want(tnb_forecast_inverse(s, 7).number == TNB_SOURCE_EMPTY && tnb_forecast_converse(s, 7).number == TNB_SOURCE_EMPTY, "forecast, empty");
    want(tnb_forecast_submatrix(s, 1, 6, 1).number == TNB_BAD_SETS && tnb_forecast_schur(s, 1, 3).number == TNB_BAD_SETS, "forecast, unequal sets, all rows");
    want(tnb_byte_length(s, 0).length == 13 && tnb_byte_length(s, 1).length == 28, "byte length");
    want(tnb_byte_length(s, 7).number == TNB_SOURCE_EMPTY && tnb_byte_length(s, 8).number == TNB_PLACE_ABOVE_7, "byte length, refused");
}

/* recipes: place 6 holds the transpose of place 5, and places 0 to 6 but 1 hold two rows */
static void recipes(tnb_shelf s)
{
    tnb_step steps[7] = {tnb_plain(0), tnb_transposed(5), tnb_inverted(0), tnb_conversed(2), tnb_plain(1), tnb_plain(7), tnb_plain(SIZE_MAX)};
    tnb_step plain[3] = {tnb_plain(0), tnb_plain(2)}; /* the third is left zero */
    tnb_shelf r = operated(tnb_recipe(s, steps, 2, 7), 51, tnb_forecast_recipe(s, steps, 2), 24, "recipe"), p = tnb_product(s, 0, 6, 7).shelf;
    want(memcmp(&r, &p, sizeof r) == 0, "recipe, a transposed step");
    r = tnb_recipe(s, plain, 2, 7).shelf, p = tnb_product(s, 0, 2, 7).shelf;
    want(memcmp(&r, &p, sizeof r) == 0 && tnb_rows(r, 7).length == 2, "recipe, two plain steps");
    operated(tnb_recipe(s, steps, 4, 7), 99, tnb_forecast_recipe(s, steps, 4), 48, "recipe, the four ways");
    want(tnb_recipe(s, steps, 1, 9).number == TNB_BAD_STEP_COUNT && tnb_recipe(s, steps, 7, 7).number == TNB_BAD_STEP_COUNT, "recipe, bad count");
    want(tnb_recipe(s, steps, 5, 7).number == TNB_SIZES_DIFFER && tnb_recipe(s, steps, 5, 4).number == TNB_TARGET_FULL, "recipe, sizes differ, target full");
    want(tnb_recipe(s, steps + 4, 2, 4).number == TNB_SOURCE_EMPTY && tnb_recipe(s, steps + 5, 2, 4).number == TNB_PLACE_ABOVE_7, "recipe, empty, above 7");
    want(tnb_recipe(s, plain, 3, 7).number == TNB_PLACE_ABOVE_7 && tnb_recipe(s, NULL, 0, 7).number == TNB_BAD_STEP_COUNT, "recipe, not made, NULL");
}

/* the matrix 1 1 0, 1 2 1, 0 1 2, whose factors far from the diagonal are zero: read and written, its submatrices and minors, and a broken pattern */
static void zeros(void)
{
    uint8_t bytes[sizeof banded];
    tnb_shelf s = accepted(tnb_load(tnb_new(), 0, banded, sizeof banded), 0, "load, zeros");
    want(factor(&s, 0, 1, 3, 0, 0) && factor(&s, 0, 3, 1, 0, 0) && factor(&s, 0, 3, 2, 2147483648u, -31), "load, zeros");
    want(tnb_write(s, 0, bytes, sizeof bytes).length == sizeof banded && memcmp(bytes, banded, sizeof bytes) == 0, "write, zeros");
    tnb_value v = tnb_minor(s, 0, 1, 4);
    want(v.number == TNB_ACCEPTED && v.mantissa == 0 && v.exponent == 0, "minor, zero");
    want(tnb_submatrix(s, 0, 1, 4, 1).number == TNB_SINGULAR && tnb_submatrix(s, 0, 1, 4, 1).offset == 0, "submatrix, singular");
    want(tnb_forecast_submatrix(s, 0, 1, 4).steps == 6, "forecast, singular");
    s = accepted(tnb_submatrix(s, 0, 3, 6, 1), 63, "submatrix, a zero stays");
    want(factor(&s, 1, 1, 1, 2147483648u, -31) && factor(&s, 1, 1, 2, 0, 0) && factor(&s, 1, 2, 1, 2147483648u, -30), "submatrix, a zero stays");
    tnb_answer a = tnb_load(s, 2, broken, sizeof broken);
    want(a.number == TNB_BROKEN_PATTERN && a.offset == 5 && tnb_rows(a.shelf, 2).length == 0, "load, broken pattern");
    want(tnb_load(s, 2, broken, 5).number == TNB_BYTES_END_EARLY && tnb_rest(broken, sizeof broken) == sizeof broken, "load and rest, broken pattern");
}

/* the stamps 1, 3, 7: factors worked by hand; a single stamp, the largest; and stamps that are turned down */
static void building(tnb_shelf s)
{
    static const uint64_t stamps[] = {1, 3, 7}, largest[] = {4294967295u}, nine[] = {1, 2, 3, 4, 5, 6, 7, 8, 9};
    static const uint64_t zero[] = {0, 1}, alike[] = {3, 3}, falling[] = {7, 3}, large[] = {1, 4294967296u}, cut[] = {1, 4294967299u};
    const uint64_t one = 2147483648u, three = 3221225472u; /* mantissas of 1 and 2, of 3 and 24 */
    tnb_shelf t = accepted(tnb_build(s, 7, stamps, 3), 11, "build");
    want(tnb_rows(t, 7).length == 3 && factor(&t, 7, 1, 1, one, -31) && factor(&t, 7, 2, 2, one, -30) && factor(&t, 7, 3, 3, three, -27), "build, diagonal");
    want(factor(&t, 7, 1, 2, one, -31) && factor(&t, 7, 1, 3, one, -31) && factor(&t, 7, 2, 3, three, -30), "build, above the diagonal");
    want(factor(&t, 7, 2, 1, one, -31) && factor(&t, 7, 3, 1, one, -31) && factor(&t, 7, 3, 2, one, -30), "build, below the diagonal");
    t = accepted(tnb_build(s, 7, largest, 1), 11, "build, one stamp");
    want(tnb_rows(t, 7).length == 1 && factor(&t, 7, 1, 1, one, -31), "build, one stamp");
    want(tnb_rows(accepted(tnb_build(s, 7, nine, 8), 11, "build, eight stamps"), 7).length == 8, "build, eight stamps");
    want(tnb_build(s, 7, nine, 9).number == TNB_BAD_STAMPS && tnb_build(s, 7, NULL, 0).number == TNB_BAD_STAMPS, "build, nine stamps and none");
    want(tnb_build(s, 7, zero, 2).number == TNB_BAD_STAMPS && tnb_build(s, 7, alike, 2).number == TNB_BAD_STAMPS, "build, zero and equal stamps");
    want(tnb_build(s, 7, falling, 2).number == TNB_BAD_STAMPS, "build, falling stamps");
    want(tnb_build(s, 7, large, 2).number == TNB_BAD_STAMPS && tnb_build(s, 7, cut, 2).number == TNB_BAD_STAMPS, "build, stamps of more than 32 bits");
    want(tnb_build(s, 8, zero, 2).number == TNB_PLACE_ABOVE_7 && tnb_build(s, 0, zero, 2).number == TNB_TARGET_FULL, "build, the place first");
}

static void reading(tnb_shelf s)
{
    want(tnb_rows(s, 0).length == 2 && tnb_rows(s, 1).length == 3 && tnb_rows(s, 7).length == 0, "rows");
    want(tnb_rows(s, 8).number == TNB_ACCEPTED && tnb_rows(s, 8).offset == 0 && tnb_rows(s, 8).length == 0, "rows, never refused");
    want(factor(&s, 5, 1, 2, 2147483648u, -30) && factor(&s, 5, 2, 1, 2147483648u, -31), "factor, row and column");
    want(factor(&s, 0, 0, 1, 0, 0) && factor(&s, 0, 1, 3, 0, 0) && factor(&s, 7, 1, 1, 0, 0) && factor(&s, 8, 1, 1, 0, 0), "factor, none");
    tnb_value v = tnb_minor(s, 1, 5, 5);
    want(v.number == TNB_ACCEPTED && v.mantissa == 2684354560u && v.exponent == -29, "minor");
    want(tnb_minor(s, 8, 1, 1).number == TNB_PLACE_ABOVE_7, "minor, place above 7");
}

static void lists(tnb_shelf s)
{
    int64_t out[7] = {7, 7, 7, 7, 7, 7, 7};
    want(tnb_reversals(list, 6).length == 1 && tnb_reversals(list, 5).number == TNB_BAD_LIST, "reversals");
    want(tnb_reversals(standstill, 9).length == 1 && tnb_reversals(standstill, 6).length == 0, "reversals, a standstill");
    want(tnb_carry(s, 0, list, 6, out, 5).number == TNB_OUTPUT_TOO_SHORT && out[0] == 7, "carry, no room");
    want(tnb_carry(s, 0, list, 6, out, 7).number == TNB_ACCEPTED, "carry");
    want(out[0] == 0 && out[1] == 0 && out[2] == 0 && out[3] == -1 && out[4] == 2147483648 && out[5] == -31 && out[6] == 7, "carry");
    want(tnb_reversals(out, 6).number == TNB_ACCEPTED && tnb_reversals(out, 6).length == 0, "reversals of what was carried");
}

static int worked(tnb_worked a, uint64_t m, int64_t e, int64_t rest, int64_t rest_exponent)
{
    return a.number == TNB_ACCEPTED && a.offset == 0 && a.mantissa == m && a.exponent == e && a.rest == rest && a.rest_exponent == rest_exponent;
}

/* P1 to P4 and P10 with their rests, exact results, and results that could not be stored */
static void working(void)
{
    static const int64_t down[] = {1, 2147483648, -31, 1, 2147483648, -63}, up[] = {1, 2147483649, -31, 1, 2147483648, -63};
    static const int64_t carry[] = {1, 4294967295, 0, 1, 2147483648, -32}, odd[] = {1, 4294967295, 0, 1, 4294967295, 0};
    static const int64_t third[] = {1, 2147483648, -31, 1, 3221225472, -30}, far[] = {1, 3221225472, -1000, 1, 2147483648, 1000};
    static const int64_t large[] = {1, 2147483648, 1000, 1, 2147483648, 1000}, small[] = {1, 2147483648, -1000, 1, 3221225472, 1000};
    want(worked(tnb_add(down, 6), 2147483648, -31, 1, -32), "add, a tie down");
    want(worked(tnb_add(up, 6), 2147483650, -31, -1, -32), "add, a tie up");
    want(worked(tnb_add(carry, 6), 2147483648, 1, -1, -1), "add, a carry");
    want(worked(tnb_add(far, 6), 2147483648, 1000, 3, -970), "add, far apart");
    want(worked(tnb_add(large, 6), 2147483648, 1001, 0, 0), "add, exact and above 1000");
    want(worked(tnb_multiply(odd, 6), 4294967294, 32, 1, 0), "multiply");
    want(worked(tnb_multiply(large, 6), 2147483648, 2031, 0, 0), "multiply, exact and above 1000");
    want(worked(tnb_divide(third, 6), 2863311531, -33, -1, -33), "divide");
    want(worked(tnb_divide(odd, 6), 2147483648, -31, 0, 0), "divide, exact");
    want(worked(tnb_divide(small, 6), 2863311531, -2032, -1, -1002), "divide, below -1000");
}

static int turned_down(tnb_worked a)
{
    return a.number == TNB_BAD_LIST && a.offset == 0 && a.mantissa == 0 && a.exponent == 0 && a.rest == 0 && a.rest_exponent == 0;
}

static void all_turned_down(const int64_t *items, size_t count, const char *why)
{
    want(turned_down(tnb_add(items, count)) && turned_down(tnb_multiply(items, count)) && turned_down(tnb_divide(items, count)), why);
}

/* what is not two positive items */
static void not_worked(void)
{
    static const int64_t ones[] = {1, 2147483648, -31, 1, 2147483648, -31, 1, 2147483648, -31};
    static const int64_t first[] = {-1, 2147483648, -31, 1, 2147483648, -31}, nothing[] = {0, 0, 0, 1, 2147483648, -31};
    static const int64_t less[] = {1, 2147483647, -31, 1, 2147483648, -31}, more[] = {1, 2147483648, -31, 1, 4294967296, -31};
    static const int64_t high[] = {1, 2147483648, 1001, 1, 2147483648, -31}, low[] = {1, 2147483648, -31, 1, 2147483648, -1001};
    all_turned_down(NULL, 0, "add, multiply, divide, NULL");
    all_turned_down(ones, 3, "add, multiply, divide, one item");
    all_turned_down(ones, 5, "add, multiply, divide, five numbers");
    all_turned_down(ones, 7, "add, multiply, divide, seven numbers");
    all_turned_down(ones, 9, "add, multiply, divide, three items");
    all_turned_down(first, 6, "add, multiply, divide, first negative");
    all_turned_down(list, 6, "add, multiply, divide, second negative");
    all_turned_down(nothing, 6, "add, multiply, divide, first zero");
    all_turned_down(standstill, 6, "add, multiply, divide, second zero");
    all_turned_down(less, 6, "add, multiply, divide, mantissa below 2^31");
    all_turned_down(more, 6, "add, multiply, divide, mantissa of 2^32");
    all_turned_down(high, 6, "add, multiply, divide, exponent above 1000");
    all_turned_down(low, 6, "add, multiply, divide, exponent below -1000");
}

static void writing(tnb_shelf s)
{
    uint8_t bytes[14] = {0};
    s = accepted(tnb_drop(s, 6), 0, "drop");
    want(tnb_write(s, 6, bytes, 14).number == TNB_SOURCE_EMPTY, "write, empty");
    want(tnb_write(s, 0, bytes, 12).number == TNB_OUTPUT_TOO_SHORT && bytes[0] == 0, "write, no room");
    want(tnb_write(s, 0, bytes, 14).length == 13 && bytes[12] == 0 && bytes[1] == 0xca && bytes[13] == 0, "write");
}

/* whether the sentence of these is this one, in just as many bytes; with one fewer, none is written */
static int sentence(uint64_t number, uint64_t offset, const uint64_t *places, size_t count, const char *text)
{
    uint8_t out[TNB_SENTENCE_ROOM + 1], lent[TNB_SENTENCE_ROOM + 1];
    size_t n = strlen(text);
    memset(out, 0xa5, sizeof out);
    memset(lent, 0xa5, sizeof lent);
    tnb_length few = tnb_sentence(number, offset, places, count, out, n - 1);
    if (few.number != TNB_OUTPUT_TOO_SHORT || few.length != 0 || memcmp(out, lent, sizeof out) != 0)
        return 0;
    tnb_length s = tnb_sentence(number, offset, places, count, out, n);
    return s.number == TNB_ACCEPTED && s.length == n && memcmp(out, text, n) == 0 && memcmp(out + n, lent, sizeof out - n) == 0;
}

static void sentences(void)
{
    static const uint64_t eight[] = {7, 6, 6, 10, 0, 4294967296u, UINT64_MAX, 1};
    static const uint64_t most[] = {UINT64_MAX, UINT64_MAX, UINT64_MAX, UINT64_MAX, UINT64_MAX, UINT64_MAX, UINT64_MAX};
    uint8_t out[TNB_SENTENCE_ROOM] = {0};
    want(sentence(11, 0, eight + 1, 1, "refused 11 at 0 source place empty 6"), "sentence");
    want(sentence(2, 1, NULL, 0, "refused 2 at 1 bytes end early"), "sentence, no place");
    want(sentence(22, 99, eight, 7, "refused 22 at 99 tolerance too large 7 6 6 10 0 4294967296 18446744073709551615"), "sentence, seven places");
    want(tnb_sentence(19, UINT64_MAX, most, 7, out, 219).number == TNB_OUTPUT_TOO_SHORT && out[0] == 0, "sentence, one byte less than the longest");
    want(tnb_sentence(1, 0, eight, 8, out, sizeof out).number == TNB_BAD_LIST, "sentence, eight places");
    want(tnb_sentence(0, 0, NULL, 0, NULL, 0).number == TNB_BAD_LIST && tnb_sentence(23, 0, NULL, 0, NULL, 0).number == TNB_BAD_LIST, "sentence, 0 and 23");
    want(tnb_sentence(257, 0, NULL, 0, out, sizeof out).number == TNB_BAD_LIST && out[0] == 0, "sentence, number 257");
    want(tnb_sentence(19, UINT64_MAX, most, 7, out, sizeof out).length == TNB_SENTENCE_ROOM, "sentence, the longest");
}

/* nothing is read or written where a length is 0 */
static void null(tnb_shelf s)
{
    tnb_answer a = tnb_load(s, 7, NULL, 0);
    want(a.number == TNB_BYTES_END_EARLY && a.offset == 0 && tnb_rest(NULL, 0) == 0, "load and rest, NULL");
    want(tnb_write(s, 0, NULL, 0).number == TNB_OUTPUT_TOO_SHORT, "write, NULL");
    want(tnb_carry(s, 0, NULL, 0, NULL, 0).number == TNB_BAD_LIST && tnb_carry(s, 0, list, 6, NULL, 0).number == TNB_OUTPUT_TOO_SHORT, "carry, NULL");
    want(tnb_reversals(NULL, 0).number == TNB_BAD_LIST && tnb_forecast_recipe(s, NULL, 0).number == TNB_BAD_STEP_COUNT, "reversals and recipe, NULL");
    want(tnb_sentence(1, 0, NULL, 0, NULL, 0).number == TNB_OUTPUT_TOO_SHORT, "sentence, NULL");
}

/* memory that never was a shelf */
static void foreign(void)
{
    tnb_shelf s;
    int64_t out[6] = {0};
    memset(&s, 0xff, sizeof s);
    tnb_answer a = tnb_drop(s, 0);
    want(a.number == TNB_FOREIGN_SHELF && memcmp(&a.shelf, &s, sizeof s) == 0, "foreign shelf");
    want(tnb_minor(s, 1, 1, 1).number == TNB_FOREIGN_SHELF && tnb_carry(s, 0, list, 6, out, 6).number == TNB_FOREIGN_SHELF, "foreign shelf");
    want(tnb_rows(s, 0).number == TNB_FOREIGN_SHELF && tnb_rows(s, 0).length == 0, "rows, foreign shelf");
    want(tnb_factor(s, 0, 1, 1).number == TNB_FOREIGN_SHELF && tnb_factor(s, 0, 1, 1).mantissa == 0, "factor, foreign shelf");
    want(tnb_build(s, 0, NULL, 0).number == TNB_FOREIGN_SHELF, "build, foreign shelf");
    want(tnb_forecast_inverse(s, 0).number == TNB_FOREIGN_SHELF && tnb_forecast_inverse(s, 0).steps == 0, "forecast, foreign shelf");
    want(tnb_byte_length(s, 0).number == TNB_FOREIGN_SHELF && tnb_byte_length(s, 0).length == 0, "byte length, foreign shelf");
}

int main(void)
{
    tnb_shelf s = tnb_new();
    s = accepted(tnb_load(accepted(tnb_load(s, 0, two, 13), 0, "load"), 1, three, sizeof three), 0, "load");
    want(tnb_load(s, 2, two, 14).number == TNB_BYTES_BEHIND_MATRIX && tnb_load(s, 2, two, 14).offset == 13, "load, bytes behind");
    want(tnb_rest(two, 14) == 1 && tnb_rest(two, 5) == 5, "rest");
    s = operations(s);
    foretold(s);
    recipes(s);
    zeros();
    building(s);
    reading(s);
    lists(s);
    working();
    not_worked();
    writing(s);
    sentences();
    null(s);
    foreign();
    printf("calls: all as in documents 01 and 02\n");
    return 0;
}
