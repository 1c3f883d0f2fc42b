/* The sizes of the structs, and how much stack each call of the library takes. Each call runs on a stack of its own that was painted before;
 * afterwards the lowest byte that lost its paint tells the depth. Counted from the frame of a C function that makes the call, so with the shelf that
 * is handed over and the answer that comes back. Every call works on eight rows or a list, add, multiply and divide on two items; a call on places also on
 * banded ones, where zeros are looked for. Exit status 1 if a call answers otherwise than wanted. */
#define _XOPEN_SOURCE 700
#include "../include/beechcrib.h"
#include "bytes.h"
#include <stdio.h>
#include <stdlib.h>
#include <string.h>
#include <ucontext.h>

#define ROOM (1 << 20)

static unsigned char area[ROOM];
static ucontext_t outside, inside;

static tnb_shelf shelf;
static uint8_t bytes[MOST_BYTES];
static size_t length;
static int64_t items[24], carried[24];
/* about a third and about three: sum, product and quotient all leave a rest */
static const int64_t pair[6] = {1, 2863311531, -33, 1, 3221225473, -30};
static int number;

/* Each as a program would write it: the shelf handed over, the answer kept in a variable. */
static void call_new(void)
{
    tnb_shelf a = tnb_new();
    (void)a;
    number = 0;
}

static void call_load(void)
{
    number = tnb_load(shelf, 2, bytes, length).number;
}

static void call_write(void)
{
    tnb_length a = tnb_write(shelf, 0, bytes, sizeof bytes);
    if (a.number == TNB_ACCEPTED)
        length = a.length;
    number = a.number;
}

static void call_byte_length(void)
{
    number = tnb_byte_length(shelf, 0).number;
}

static void call_forecast_product(void)
{
    number = tnb_forecast_product(shelf, 0, 1).number;
}

static void call_forecast_submatrix(void)
{
    number = tnb_forecast_submatrix(shelf, 0, 0xf0, 0xf0).number;
}

static void call_forecast_schur(void)
{
    number = tnb_forecast_schur(shelf, 0, 1).number;
}

static tnb_step steps[6];

static void call_recipe(void)
{
    number = tnb_recipe(shelf, steps, 6, 2).number;
}

static void call_forecast_recipe(void)
{
    number = tnb_forecast_recipe(shelf, steps, 6).number;
}

static void call_drop(void)
{
    number = tnb_drop(shelf, 0).number;
}

static void call_product(void)
{
    number = tnb_product(shelf, 0, 1, 2).number;
}

static void call_inverse(void)
{
    number = tnb_inverse(shelf, 0, 2).number;
}

static void call_converse(void)
{
    number = tnb_converse(shelf, 0, 2).number;
}

static void call_submatrix(void)
{
    number = tnb_submatrix(shelf, 0, 0xff, 0xff, 2).number;
}

static void call_schur(void)
{
    number = tnb_schur(shelf, 0, 1, 2).number;
}

static void call_transpose(void)
{
    number = tnb_transpose(shelf, 0, 2).number;
}

static void call_build(void)
{
    static const uint64_t stamps[] = {1, 2, 4, 7, 11, 16, 22, 4294967295u};
    number = tnb_build(shelf, 2, stamps, 8).number;
}

static void call_minor(void)
{
    number = tnb_minor(shelf, 0, 0xf0, 0x0f).number;
}

static void call_rest(void)
{
    number = tnb_rest(bytes, length) != 0;
}

static void call_rows(void)
{
    number = tnb_rows(shelf, 0).number;
}

static void call_factor(void)
{
    number = tnb_factor(shelf, 0, 8, 8).number;
}

static void call_carry(void)
{
    number = tnb_carry(shelf, 0, items, 24, carried, 24).number;
}

static void call_reversals(void)
{
    number = tnb_reversals(items, 24).number;
}

static void call_add(void)
{
    number = tnb_add(pair, 6).number;
}

static void call_multiply(void)
{
    number = tnb_multiply(pair, 6).number;
}

static void call_divide(void)
{
    number = tnb_divide(pair, 6).number;
}

/* the longest sentence: 220 bytes */
static void call_sentence(void)
{
    static const uint64_t places[7] = {UINT64_MAX, UINT64_MAX, UINT64_MAX, UINT64_MAX, UINT64_MAX, UINT64_MAX, UINT64_MAX};
    static uint8_t text[TNB_SENTENCE_ROOM];
    number = tnb_sentence(19, UINT64_MAX, places, 7, text, sizeof text).number;
}

/* by value: what stands in the caller's frame for the shelf handed over and for the answer */
static const struct {
    const char *name;
    void (*run)(void);
    size_t by_value;
} calls[] = {
    {"tnb_new", call_new, sizeof(tnb_shelf)},
    {"tnb_write", call_write, sizeof(tnb_shelf) + sizeof(tnb_length)},
    {"tnb_byte_length", call_byte_length, sizeof(tnb_shelf) + sizeof(tnb_length)},
    {"tnb_load", call_load, sizeof(tnb_shelf) + sizeof(tnb_answer)},
    {"tnb_rest", call_rest, 0},
    {"tnb_drop", call_drop, sizeof(tnb_shelf) + sizeof(tnb_answer)},
    {"tnb_product", call_product, sizeof(tnb_shelf) + sizeof(tnb_answer)},
    {"tnb_inverse", call_inverse, sizeof(tnb_shelf) + sizeof(tnb_answer)},
    {"tnb_converse", call_converse, sizeof(tnb_shelf) + sizeof(tnb_answer)},
    {"tnb_submatrix", call_submatrix, sizeof(tnb_shelf) + sizeof(tnb_answer)},
    {"tnb_schur", call_schur, sizeof(tnb_shelf) + sizeof(tnb_answer)},
    {"tnb_transpose", call_transpose, sizeof(tnb_shelf) + sizeof(tnb_answer)},
    {"tnb_recipe", call_recipe, sizeof(tnb_shelf) + sizeof(tnb_answer)},
    {"tnb_forecast_product", call_forecast_product, sizeof(tnb_shelf) + sizeof(tnb_steps)},
    {"tnb_forecast_submatrix", call_forecast_submatrix, sizeof(tnb_shelf) + sizeof(tnb_steps)},
    {"tnb_forecast_schur", call_forecast_schur, sizeof(tnb_shelf) + sizeof(tnb_steps)},
    {"tnb_forecast_recipe", call_forecast_recipe, sizeof(tnb_shelf) + sizeof(tnb_steps)},
    {"tnb_build", call_build, sizeof(tnb_shelf) + sizeof(tnb_answer)},
    {"tnb_minor", call_minor, sizeof(tnb_shelf) + sizeof(tnb_value)},
    {"tnb_rows", call_rows, sizeof(tnb_shelf) + sizeof(tnb_length)},
    {"tnb_factor", call_factor, sizeof(tnb_shelf) + sizeof(tnb_value)},
    {"tnb_carry", call_carry, sizeof(tnb_shelf) + sizeof(tnb_status)},
    {"tnb_reversals", call_reversals, sizeof(tnb_length)},
    {"tnb_add", call_add, sizeof(tnb_worked)},
    {"tnb_multiply", call_multiply, sizeof(tnb_worked)},
    {"tnb_divide", call_divide, sizeof(tnb_worked)},
    {"tnb_sentence", call_sentence, sizeof(tnb_length)},
};

/* eight rows at places 0 and 1, mantissas that differ, factors further than width from the diagonal zero; and a list of eight items with both signs */
static void fill(int width)
{
    shelf = tnb_new();
    for (unsigned k = 0; k < 6; k++)
        steps[k] = k % 4 == 0 ? tnb_plain(k % 2) : k % 4 == 1 ? tnb_inverted(k % 2) : k % 4 == 2 ? tnb_conversed(k % 2) : tnb_transposed(k % 2);
    for (unsigned p = 0; p < 2; p++) {
        plain_number factors[64];
        for (unsigned t = 0; t < 64; t++) {
            int far = abs((int)(t / 8) - (int)(t % 8)) > width;
            factors[t] = far ? (plain_number){0, 0} : (plain_number){0x80000000u + 12345678u * (64 * p + t) % 0x7fffffffu, -31};
        }
        tnb_answer a = tnb_load(shelf, p, bytes, matrix_bytes(8, factors, bytes));
        if (a.number != TNB_ACCEPTED)
            exit(1);
        shelf = a.shelf;
    }
    for (int t = 0; t < 8; t++) {
        items[3 * t] = t % 3 ? 1 : -1;
        items[3 * t + 1] = 0x80000000 + 1000 * t;
        items[3 * t + 2] = -31;
    }
}

static size_t depth(void (*run)(void), unsigned char paint)
{
    memset(area, paint, ROOM);
    getcontext(&inside);
    inside.uc_stack.ss_sp = area;
    inside.uc_stack.ss_size = ROOM;
    inside.uc_link = &outside;
    makecontext(&inside, run, 0);
    swapcontext(&outside, &inside);
    size_t low = 0;
    while (low < ROOM && area[low] == paint)
        low++;
    if (low == 0) {
        printf("the painted stack is too small\n");
        exit(1);
    }
    return ROOM - low;
}

/* two paints, since a byte may be written with the value of one */
static size_t deepest(void (*run)(void))
{
    size_t a = depth(run, 0xa5), b = depth(run, 0x5a);
    return a > b ? a : b;
}

/* the stack of a call that is accepted, on places of this width */
static size_t accepted(size_t c, int width)
{
    fill(width);
    call_write();
    size_t most = deepest(calls[c].run);
    if (number != TNB_ACCEPTED) {
        printf("%s: refused %d\n", calls[c].name, number);
        exit(1);
    }
    return most;
}

static void print_sizes(void)
{
    printf("| struct | bytes |\n|:--|--:|\n");
    printf("| `tnb_shelf` | %zu |\n| `tnb_answer` | %zu |\n", sizeof(tnb_shelf), sizeof(tnb_answer));
    printf("| `tnb_value` | %zu |\n| `tnb_length` | %zu |\n| `tnb_status` | %zu |\n", sizeof(tnb_value), sizeof(tnb_length), sizeof(tnb_status));
    printf("| `tnb_worked` | %zu |\n| `tnb_steps` | %zu |\n| `tnb_step` | %zu |\n\n", sizeof(tnb_worked), sizeof(tnb_steps), sizeof(tnb_step));
}

int main(void)
{
    print_sizes();
    printf("| call                     | stack, bytes | shelf and answer by value | the rest |\n");
    printf("|:-------------------------|-------------:|--------------------------:|---------:|\n");
    for (size_t c = 0; c < sizeof calls / sizeof calls[0]; c++) {
        size_t good = accepted(c, 6);
        size_t full = accepted(c, 7);
        if (full > good)
            good = full;
        /* a shelf that is none of the library's takes another way */
        static tnb_shelf kept;
        kept = shelf;
        memset(&shelf, 0xff, sizeof shelf);
        size_t foreign = deepest(calls[c].run);
        shelf = kept;
        size_t most = good > foreign ? good : foreign;
        printf("| `%s`%*s | %12zu | %25zu | %8zu |\n", calls[c].name, (int)(22 - strlen(calls[c].name)), "", most, calls[c].by_value,
               most - calls[c].by_value);
    }
    return 0;
}
