/* Works each line of standard input by the compiled directed operations, which are not offered outside: they have no header but these lines. A line is an
 * operation, three directions and two operands, each a mantissa and an exponent code; the answer is such a pair for each direction. */
#include <inttypes.h>
#include <stdio.h>

#define DIRECTIONS 3

typedef struct {
    uint64_t m, x;
} directed_number;

directed_number directed_work(uint8_t operation, uint8_t direction, directed_number a, directed_number b);

static int read_codes(uint8_t *operation, uint8_t *directions)
{
    if (scanf("%" SCNu8, operation) != 1)
        return 0;
    for (int k = 0; k < DIRECTIONS; k++)
        if (scanf("%" SCNu8, &directions[k]) != 1)
            return 0;
    return 1;
}

static int read_number(directed_number *a)
{
    return scanf("%" SCNu64 " %" SCNu64, &a->m, &a->x) == 2;
}

int main(void)
{
    uint8_t operation, directions[DIRECTIONS];
    directed_number a, b;
    while (read_codes(&operation, directions) && read_number(&a) && read_number(&b)) {
        for (int k = 0; k < DIRECTIONS; k++) {
            directed_number r = directed_work(operation, directions[k], a, b);
            printf("%" PRIu64 " %" PRIu64 "%c", r.m, r.x, k + 1 < DIRECTIONS ? ' ' : '\n');
        }
    }
    return !feof(stdin) || fflush(stdout) != 0;
}
