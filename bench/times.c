/* Times a product and a re-signed inverse in three forms, plain.c, fast.c and the proved library through its C interface, on the same factors, one after
 * the other in one process, and compares every bit of the results. times ROUNDS SEED prints tables of the least processor time in ROUNDS rounds, then
 * how far the library's time depends on the factors, then single calls. Exit status 1 if a result differs or is refused. */
#define _POSIX_C_SOURCE 199309L
#include "../include/beechcrib.h"
#include "bytes.h"
#include "fast.h"
#include "plain.h"
#include <stdio.h>
#include <stdlib.h>
#include <time.h>

#define INPUTS 8

enum { PRODUCT, INVERSE, OPERATIONS };
enum { PLAIN, FAST, PROVED, FORMS };

static const char *const names[OPERATIONS] = {"Product", "Re-signed inverse"};

/* calls to one reading of the clock, so that reading it is no part of the time that counts */
static const int turns[] = {0, 0, 400, 0, 40, 0, 4, 0, 1};

/* what proved / branch-free is to be at most */
static const double limits[] = {0, 0, 6, 0, 2, 0, 1.3, 0, 1.2};

static uint64_t state;

static uint64_t next(void)
{
    state ^= state << 13;
    state ^= state >> 7;
    state ^= state << 17;
    return state;
}

static double seconds(void)
{
    struct timespec t;
    clock_gettime(CLOCK_PROCESS_CPUTIME_ID, &t);
    return (double)t.tv_sec + 1e-9 * (double)t.tv_nsec;
}

static plain_number stored(uint64_t m, int64_t e)
{
    plain_number r = {m, e};
    return r;
}

/* a whole number from -most to most */
static int64_t about(int64_t most)
{
    return (int64_t)(next() % (uint64_t)(2 * most + 1)) - most;
}

static plain_number any(void)
{
    uint64_t m = (next() & 0x7fffffff) | 0x80000000;
    return stored(m, about(3) - 31);
}

static plain_number one(void)
{
    return stored(0x80000000, -31);
}

static plain_number power(void)
{
    return stored(0x80000000, about(3) - 31);
}

/* most sums have digits that fall off, many have a term that falls off whole */
static plain_number far(void)
{
    uint64_t m = (next() & 0x7fffffff) | 0x80000000;
    return stored(m, about(60) - 31);
}

/* just below a power of two: sums carry into a new digit */
static plain_number full(void)
{
    return stored(0xffffffff, about(3) - 31);
}

/* just above a power of two: products keep 63 digits, and ties are near */
static plain_number slight(void)
{
    uint64_t m = 0x80000000 | (next() & 15);
    return stored(m, about(3) - 31);
}

typedef plain_number draw_number(void);

enum { KINDS = 6 };
static draw_number *const kinds[KINDS] = {any, one, power, far, full, slight};
static const char *const kind_names[KINDS] = {"random", "all ones", "powers of two", "far apart", "carries", "near 2^31"};

/* one input and what became of it, in each form's own numbers */
typedef struct {
    tnb_shelf shelf;
    plain_number plain[2][64], plain_result[64];
    uint64_t fast[2][64], fast_result[64];
    tnb_answer answer;
} input;

static input inputs[KINDS][INPUTS];

static void load(tnb_shelf *shelf, size_t place, int n, const plain_number factors[64])
{
    uint8_t bytes[MOST_BYTES];
    tnb_answer answer = tnb_load(*shelf, place, bytes, matrix_bytes(n, factors, bytes));
    if (answer.number != TNB_ACCEPTED) {
        printf("load: refused %d\n", answer.number);
        exit(1);
    }
    *shelf = answer.shelf;
}

/* places 0 and 1 with n rows each */
static void draw(input *in, int n, draw_number *number)
{
    in->shelf = tnb_new();
    for (int p = 0; p < 2; p++) {
        for (int t = 0; t < 64; t++) {
            in->plain[p][t] = t / 8 < n && t % 8 < n ? number() : stored(0, 0);
            in->fast[p][t] = fast_pack(in->plain[p][t].m, in->plain[p][t].e);
        }
        load(&in->shelf, (size_t)p, n, in->plain[p]);
    }
}

static double time_plain(int operation, int n, input *in)
{
    double start = seconds();
    for (int t = 0; t < turns[n]; t++)
        if (operation == PRODUCT)
            plain_product(n, in->plain[0], in->plain[1], in->plain_result);
        else
            plain_inverse(n, in->plain[0], in->plain_result);
    return (seconds() - start) / turns[n];
}

static double time_fast(int operation, int n, input *in)
{
    double start = seconds();
    for (int t = 0; t < turns[n]; t++)
        if (operation == PRODUCT)
            fast_product(n, in->fast[0], in->fast[1], in->fast_result);
        else
            fast_inverse(n, in->fast[0], in->fast_result);
    return (seconds() - start) / turns[n];
}

/* as a C program calls: the shelf is handed over by value, and the answer with the new shelf comes back by value */
static double time_proved(int operation, int n, input *in)
{
    tnb_answer answer;
    double start = seconds();
    for (int t = 0; t < turns[n]; t++)
        if (operation == PRODUCT)
            answer = tnb_product(in->shelf, 0, 1, 2);
        else
            answer = tnb_inverse(in->shelf, 0, 2);
    double time = (seconds() - start) / turns[n];
    in->answer = answer;
    return time;
}

static double (*const timers[FORMS])(int, int, input *) = {time_plain, time_fast, time_proved};

static int choose(int n, int k)
{
    return k < 0 || k > n ? 0 : k == 0 ? 1 : choose(n - 1, k - 1) * n / k;
}

/* A step is one row set updated by one letter. A source has n*n - n letters, and each changes the sets of k rows that hold one of two rows. */
static int minor_steps(int sources, int n, int k)
{
    return k == 0 ? 0 : sources * (n * n - n) * choose(n - 2, k - 1);
}

/* every factor works the minors of its formula afresh */
static int steps(int operation, int n)
{
    int sources = operation == PRODUCT ? 2 : 1, sum = 0;
    for (int i = 1; i <= n; i++)
        for (int j = 1; j <= n; j++) {
            int q = i < j ? i : j, times = i == j ? 1 : 2;
            sum += times * (minor_steps(sources, n, q) + minor_steps(sources, n, q - 1));
        }
    return sum;
}

static int same(int n, const input *in)
{
    if (in->answer.number != TNB_ACCEPTED || tnb_rows(in->answer.shelf, 2).length != (size_t)n)
        return 0;
    for (int t = 0; t < 64; t++) {
        if (t / 8 >= n || t % 8 >= n)
            continue;
        tnb_value b = tnb_factor(in->answer.shelf, 2, (size_t)(t / 8 + 1), (size_t)(t % 8 + 1));
        if (b.number != TNB_ACCEPTED || in->plain_result[t].m != b.mantissa || in->plain_result[t].e != b.exponent ||
            in->fast_result[t] != fast_pack(b.mantissa, b.exponent))
            return 0;
    }
    return 1;
}

/* the steps made, and those foretold */
static int counted(int operation, int n, const input *in)
{
    tnb_steps told = operation == PRODUCT ? tnb_forecast_product(in->shelf, 0, 1) : tnb_forecast_inverse(in->shelf, 0);
    return told.number == TNB_ACCEPTED && told.steps == (size_t)steps(operation, n) && in->answer.steps == told.steps;
}

static void compare(int operation, int n, const input *in, const char *kind)
{
    if (same(n, in) && counted(operation, n, in))
        return;
    printf("%s, n = %d, %s: ", names[operation], n, kind);
    if (in->answer.number != TNB_ACCEPTED)
        printf("refused %d\n", in->answer.number);
    else
        printf(same(n, in) ? "steps differ\n" : "results differ\n");
    exit(1);
}

static double least(double a, double b)
{
    return a < b ? a : b;
}

static double most(double a, double b)
{
    return a > b ? a : b;
}

/* one line of the table; whether proved / branch-free is within its limit */
static int line(int operation, int n, const double best[FORMS])
{
    int s = steps(operation, n);
    double ratio = best[PROVED] / best[FAST];
    printf("| %d | %8.2f | %14.2f | %9.2f | %14.2f | %20.2f | %5.1f | %6d | %16.2f |\n", n, 1e6 * best[PLAIN], 1e6 * best[FAST], 1e6 * best[PROVED],
           best[PROVED] / best[PLAIN], ratio, limits[n], s, 1e9 * best[PROVED] / s);
    return ratio <= limits[n];
}

static int table(int operation, int rounds)
{
    int kept = 1;
    printf("### %s\n\n", names[operation]);
    printf("| n | plain us | branch-free us | proved us | proved / plain | proved / branch-free | limit |  steps | ns a step proved |\n");
    printf("|--:|---------:|---------------:|----------:|---------------:|---------------------:|------:|-------:|-----------------:|\n");
    for (int n = 2; n <= 8; n += 2) {
        double best[FORMS] = {1e9, 1e9, 1e9};
        for (int r = 0; r < rounds; r++)
            for (int k = 0; k < INPUTS; k++) {
                input *in = &inputs[0][k];
                draw(in, n, any);
                for (int f = 0; f < FORMS; f++)
                    best[f] = least(best[f], timers[f](operation, n, in));
                compare(operation, n, in, "random");
            }
        kept &= line(operation, n, best);
    }
    printf("\n");
    return kept;
}

/* The least time of each input by itself, since the least of them all would hide a slow one; of each kind its slowest input. */
static void spread_line(int operation, int n, int rounds)
{
    double best[KINDS][INPUTS], low = 1e9, high = 0;
    for (int d = 0; d < KINDS; d++)
        for (int k = 0; k < INPUTS; k++) {
            draw(&inputs[d][k], n, kinds[d]);
            time_plain(operation, n, &inputs[d][k]);
            time_fast(operation, n, &inputs[d][k]);
            best[d][k] = 1e9;
        }
    for (int r = 0; r < rounds; r++)
        for (int k = 0; k < INPUTS; k++)
            for (int d = 0; d < KINDS; d++) {
                best[d][k] = least(best[d][k], time_proved(operation, n, &inputs[d][k]));
                compare(operation, n, &inputs[d][k], kind_names[d]);
            }
    printf("| %d |", n);
    for (int d = 0; d < KINDS; d++) {
        double slowest = 0;
        for (int k = 0; k < INPUTS; k++) {
            slowest = most(slowest, best[d][k]);
            low = least(low, best[d][k]);
        }
        high = most(high, slowest);
        printf(" %13.2f |", 1e6 * slowest);
    }
    printf(" %18.3f |\n", high / low);
}

static void spread(int operation, int rounds)
{
    printf("### %s, other factors: microseconds of the proved form\n\n| n |", names[operation]);
    for (int d = 0; d < KINDS; d++)
        printf(" %13s |", kind_names[d]);
    printf(" largest / smallest |\n|--:|");
    for (int d = 0; d < KINDS; d++)
        printf("--------------:|");
    printf("-------------------:|\n");
    for (int n = 2; n <= 8; n += 2)
        spread_line(operation, n, rounds);
    printf("\n");
}

static int by_size(const void *a, const void *b)
{
    double x = *(const double *)a, y = *(const double *)b;
    return (x > y) - (x < y);
}

/* One call with new factors after other work has filled the near caches: the middle one and the slowest of ROUNDS such times. */
typedef struct {
    double middle, slowest;
} single_times;

static single_times single(int operation, int n, int rounds)
{
    static unsigned char other[1 << 24];
    double *times = malloc((size_t)rounds * sizeof *times);
    for (int r = 0; r < rounds; r++) {
        input *in = &inputs[0][r % INPUTS];
        draw(in, n, any);
        for (size_t t = 0; t < sizeof other; t += 64)
            other[t]++;
        double start = seconds();
        tnb_answer answer = operation == PRODUCT ? tnb_product(in->shelf, 0, 1, 2) : tnb_inverse(in->shelf, 0, 2);
        times[r] = seconds() - start;
        if (answer.number != TNB_ACCEPTED)
            exit(1);
    }
    qsort(times, (size_t)rounds, sizeof *times, by_size);
    single_times r = {times[rounds / 2], times[rounds - 1]};
    free(times);
    return r;
}

static void singles(int rounds)
{
    static single_times all[9][OPERATIONS];
    printf("### Single calls, new factors, caches filled by other work: microseconds of the proved form\n\n");
    printf("| n | product, middle | slowest | re-signed inverse, middle | slowest |\n");
    printf("|--:|----------------:|--------:|--------------------------:|--------:|\n");
    for (int n = 1; n <= 8; n++) {
        for (int o = 0; o < OPERATIONS; o++)
            all[n][o] = single(o, n, rounds);
        single_times p = all[n][PRODUCT], i = all[n][INVERSE];
        printf("| %d | %15.2f | %7.2f | %25.2f | %7.2f |\n", n, 1e6 * p.middle, 1e6 * p.slowest, 1e6 * i.middle, 1e6 * i.slowest);
    }
    printf("\n### Nanoseconds a step of these calls\n\n");
    printf("| n | product, steps | middle | slowest | re-signed inverse, steps | middle | slowest |\n");
    printf("|--:|---------------:|-------:|--------:|-------------------------:|-------:|--------:|\n");
    for (int n = 2; n <= 8; n++) {
        int p = steps(PRODUCT, n), i = steps(INVERSE, n);
        printf("| %d | %14d | %6.1f | %7.1f | %24d | %6.1f | %7.1f |\n", n, p, 1e9 * all[n][PRODUCT].middle / p, 1e9 * all[n][PRODUCT].slowest / p, i,
               1e9 * all[n][INVERSE].middle / i, 1e9 * all[n][INVERSE].slowest / i);
    }
    printf("\n");
}

/* What a call costs that has nothing to work: the shelf handed over, tested and handed back. */
static void border(int rounds)
{
    double refused = 1e9, foretold = 1e9;
    tnb_shelf shelf = tnb_new();
    tnb_answer answer;
    tnb_steps told;
    draw(&inputs[0][0], 8, any);
    for (int r = 0; r < rounds; r++) {
        double start = seconds();
        for (int t = 0; t < 400; t++)
            answer = tnb_product(shelf, 0, 1, 2);
        refused = least(refused, (seconds() - start) / 400);
        start = seconds();
        for (int t = 0; t < 400; t++)
            told = tnb_forecast_product(inputs[0][0].shelf, 0, 1);
        foretold = least(foretold, (seconds() - start) / 400);
    }
    printf("A product refused at once, on an empty shelf (number %d): %.2f us.\n", answer.number, 1e6 * refused);
    printf("A forecast of a product of eight rows (%zu steps): %.2f us.\n", told.steps, 1e6 * foretold);
}

int main(int argc, char **argv)
{
    int rounds = argc > 1 ? atoi(argv[1]) : 40, kept = 1;
    state = argc > 2 ? strtoull(argv[2], 0, 10) * 2 + 1 : 3;
    if (rounds < 1 || steps(PRODUCT, 2) != 24 || steps(PRODUCT, 4) != 1344 || steps(PRODUCT, 8) != 215040 || steps(INVERSE, 8) != 107520)
        return 1;
    for (int o = 0; o < OPERATIONS; o++)
        kept &= table(o, rounds);
    printf("Limits of proved / branch-free: %s.\n\n", kept ? "all kept" : "NOT all kept");
    for (int o = 0; o < OPERATIONS; o++)
        spread(o, rounds);
    singles(rounds);
    border(rounds);
    return 0;
}
