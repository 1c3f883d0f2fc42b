/* Five spans joined: by four calls, each of which starts from what the one before it left, and by one recipe, which starts from the spans. Prints the bound of
 * each call and of the recipe, and a factor of both results. Then a recipe with steps of all four ways; and one that is refused, in words. */
#include "beechcrib.h"
#include <stdio.h>

#define SPANS 5

/* Spans of four rows, from time stamps, at places 0 to 4. */
static int loaded(tnb_shelf *shelf)
{
    static const uint64_t stamps[SPANS][4] = {{1, 2, 3, 5}, {1, 3, 4, 7}, {2, 3, 7, 9}, {1, 4, 5, 6}, {3, 4, 8, 11}};
    for (size_t p = 0; p < SPANS; p++) {
        tnb_answer a = tnb_build(*shelf, p, stamps[p], 4);
        if (a.number != TNB_ACCEPTED)
            return 0;
        *shelf = a.shelf;
    }
    return 1;
}

static void show(const tnb_shelf *shelf, size_t place, const char *how)
{
    tnb_value b = tnb_factor(*shelf, place, 4, 2);
    printf("  b(4, 2) %s: %llu x 2^%lld\n", how, (unsigned long long)b.mantissa, (long long)b.exponent);
}

/* A call at a time: the product so far goes to place 5 and place 6 in turn. Each bound counts from what its call was handed, not from the spans. */
static int by_calls(tnb_shelf *shelf)
{
    size_t so_far = 0;
    printf("four calls\n");
    for (size_t p = 1; p < SPANS; p++) {
        size_t target = so_far == 5 ? 6 : 5;
        tnb_answer a = tnb_product(*shelf, so_far, p, target);
        if (a.number != TNB_ACCEPTED)
            return 0;
        printf("  place %zu times place %zu: bound %u\n", so_far, p, (unsigned)a.bound);
        if (p > 1)
            a = tnb_drop(a.shelf, so_far);
        if (a.number != TNB_ACCEPTED)
            return 0;
        *shelf = a.shelf;
        so_far = target;
    }
    show(shelf, so_far, "by four calls");
    return 1;
}

/* All at once, to place 7. */
static int by_recipe(tnb_shelf *shelf)
{
    tnb_step steps[SPANS] = {tnb_plain(0), tnb_plain(1), tnb_plain(2), tnb_plain(3), tnb_plain(4)};
    tnb_steps told = tnb_forecast_recipe(*shelf, steps, SPANS);
    tnb_answer a = tnb_recipe(*shelf, steps, SPANS, 7);
    if (a.number != TNB_ACCEPTED || told.number != TNB_ACCEPTED || told.steps != a.steps)
        return 0;
    printf("one recipe\n  five spans: bound %u, %zu steps foretold and made\n", (unsigned)a.bound, a.steps);
    *shelf = a.shelf;
    show(shelf, 7, "by the recipe");
    return 1;
}

int main(void)
{
    tnb_shelf shelf = tnb_new();
    if (!loaded(&shelf) || !by_calls(&shelf) || !by_recipe(&shelf))
        return 1;
    tnb_answer a = tnb_drop(shelf, 7);
    if (a.number != TNB_ACCEPTED)
        return 1;

    tnb_step ways[] = {tnb_plain(0), tnb_conversed(1), tnb_transposed(2), tnb_inverted(3)};
    a = tnb_recipe(a.shelf, ways, 4, 7);
    if (a.number != TNB_ACCEPTED)
        return 1;
    printf("span 0 plain, 1 as its converse, 2 transposed, 3 as its re-signed inverse\n  bound %u, %zu steps\n", (unsigned)a.bound, a.steps);

    a = tnb_recipe(a.shelf, ways, 1, 7);
    uint8_t sentence[TNB_SENTENCE_ROOM];
    tnb_length w = tnb_sentence(a.number, a.offset, NULL, 0, sentence, sizeof sentence);
    printf("one step\n  %.*s\n", (int)w.length, (const char *)sentence);
    return a.number != TNB_BAD_STEP_COUNT;
}
