/* A planner with idle slices. For the operation that waits first it asks how many steps it will make, works it in the first slice that has room for them, and
 * compares the steps made with those foretold; then it asks how many bytes the result will take and writes it in just so many.
 *
 * A slice is told in steps: its microseconds, less the price of a call, times the steps that this processor makes in a microsecond. Both are measured once
 * (docs/SPEED.md). Here they are fixed, so that the program prints the same everywhere. */
#include "beechcrib.h"
#include <stdio.h>

#define CALL_US 10 /* the price of a call, with a margin */
#define STEPS_A_MICROSECOND 150

enum { SUBMATRIX, INVERSE, PRODUCT, JOBS };
static const char *const names[JOBS] = {"submatrix", "inverse", "product"};

/* n rows, all factors one */
static size_t ones(uint8_t n, uint8_t *bytes)
{
    size_t k = 0;
    bytes[k++] = n;
    for (int t = 0; t < n * n; t++) {
        bytes[k++] = 0xca;
        bytes[k++] = 0x07;
        bytes[k++] = 0x00;
    }
    return k;
}

/* The jobs, on places 0 and 1; job k fills place 2 + k. The submatrix has rows and columns 1 to 4. */
static tnb_steps forecast(const tnb_shelf *shelf, int job)
{
    if (job == SUBMATRIX)
        return tnb_forecast_submatrix(*shelf, 0, 0x0f, 0x0f);
    return job == INVERSE ? tnb_forecast_inverse(*shelf, 0) : tnb_forecast_product(*shelf, 0, 1);
}

static tnb_answer work(const tnb_shelf *shelf, int job)
{
    if (job == SUBMATRIX)
        return tnb_submatrix(*shelf, 0, 0x0f, 0x0f, 2 + SUBMATRIX);
    return job == INVERSE ? tnb_inverse(*shelf, 0, 2 + INVERSE) : tnb_product(*shelf, 0, 1, 2 + PRODUCT);
}

static int written(const tnb_shelf *shelf, size_t place)
{
    uint8_t bytes[449];
    tnb_length told = tnb_byte_length(*shelf, place);
    if (told.number != TNB_ACCEPTED)
        return 0;
    tnb_length w = tnb_write(*shelf, place, bytes, told.length); /* lent just so many */
    printf("  place %zu takes %zu bytes, written in %zu\n", place, told.length, w.length);
    return w.number == TNB_ACCEPTED && w.length == told.length;
}

/* Works a job that has room in a slice. 0 where it waits, -1 where something is not as foretold. */
static int worked(tnb_shelf *shelf, int job, size_t room)
{
    tnb_steps told = forecast(shelf, job);
    if (told.number != TNB_ACCEPTED)
        return -1;
    if (told.steps > room) {
        printf("  %s waits: %zu steps\n", names[job], told.steps);
        return 0;
    }
    tnb_answer a = work(shelf, job);
    if (a.number != TNB_ACCEPTED || a.steps != told.steps)
        return -1;
    printf("  %s: %zu steps foretold, %zu made\n", names[job], told.steps, a.steps);
    *shelf = a.shelf;
    return written(shelf, 2 + (size_t)job) ? 1 : -1;
}

int main(void)
{
    static const unsigned slices[] = {60, 120, 500, 900, 1500}; /* microseconds */
    uint8_t bytes[449];
    size_t count = ones(8, bytes);
    tnb_answer a = tnb_load(tnb_new(), 0, bytes, count);
    a = tnb_load(a.shelf, 1, bytes, count);
    if (a.number != TNB_ACCEPTED)
        return 1;
    tnb_shelf shelf = a.shelf;

    int job = 0;
    for (size_t k = 0; k < sizeof slices / sizeof *slices && job < JOBS; k++) {
        size_t room = slices[k] > CALL_US ? (size_t)(slices[k] - CALL_US) * STEPS_A_MICROSECOND : 0;
        printf("slice of %u us, room for %zu steps\n", slices[k], room);
        int done = worked(&shelf, job, room);
        if (done < 0)
            return 1;
        job += done;
    }
    return job < JOBS;
}
