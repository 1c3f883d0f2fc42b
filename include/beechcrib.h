/* Beechcrib: totally nonnegative matrices kept as bidiagonal factors, in 32-bit rounded arithmetic.
 *
 * Link with libtnb_c.a (tools/library tnb_c). A shelf is a plain value: it goes into a call, and a call that may change it hands the new
 * one back. No call allocates, keeps a pointer or has any state of its own. Every call is total: whatever is handed over, it answers as
 * written here, as long as each pointer is good for its length and lent output overlaps nothing else that is handed over.
 *
 * Places count from 0 to 7. Row and column sets are masks, bit 0 for row 1.
 *
 * Every answer has a number: 0 for accepted, 1 to 18 for a refusal, 255 where the shelf handed over is not one that these calls can have made; they
 * have names below. docs/REFUSALS.md says when each refusal is given, and has the reason that tnb_sentence writes for it. A refused call changes
 * neither the shelf nor lent memory. Where several conditions hold, the order is 18, 1 (sources, then target), 11, 12, 15, 13, 8, 17, 9, 14, 10; a
 * load tests 1, 12, then bytes from the left: of a factor its exponent code for 2, 3, 5, then 6 or 16, then its mantissa.
 *
 * The offset: for 3 to 6 and 16 the first byte of the group number at fault, for 2 the length of the input, for 7 the first byte behind the matrix, else 0.
 *
 * A pointer may be NULL where the length beside it is 0: nothing is then read or written there. */
#ifndef BEECHCRIB_H
#define BEECHCRIB_H
#include <stddef.h>
#include <stdint.h>

#ifdef __cplusplus
extern "C" {
#endif

/* The version of this header and of the archive built beside it. It rises whenever a struct changes its size, a call or a number is added, or a call
 * answers otherwise than before (2: tnb_reversals passes over zeros; 3: tnb_add, tnb_multiply and tnb_divide are new; 4: tnb_build and its refusal 15
 * are new; 5: tnb_sentence is new; 6: factors may be zero in the pattern that tnb_load names, with the refusals 16 and 17; 7: answers have steps, and
 * tnb_byte_length and the forecasts are new; 8: recipes are new, with the refusal 18; 9: tnb_schur and its forecast are new). A program that uses only what
 * stands here, and not the inside of a shelf or a step, compiles again with every later version; it is compiled again for each, since structs go by value.
 * Later versions may refuse with numbers that are not listed yet: test for TNB_ACCEPTED. */
#define TNB_VERSION 9

/* The numbers of answers. */
enum {
    TNB_ACCEPTED = 0,
    TNB_PLACE_ABOVE_7 = 1,       /* place above 7 */
    TNB_BYTES_END_EARLY = 2,     /* bytes end early */
    TNB_BAD_GROUP_NUMBER = 3,    /* group number not shortest, or 2^32 or more, or a fifth byte with its top bit set */
    TNB_ROWS_NOT_1_TO_8 = 4,     /* n not 1 to 8 */
    TNB_CODE_TOO_LARGE = 5,      /* exponent code above 2001, or mantissa part above 2^31 - 1 */
    TNB_ZERO_FACTOR = 6,         /* zero factor on the diagonal */
    TNB_BYTES_BEHIND_MATRIX = 7, /* bytes behind the matrix */
    TNB_BAD_SETS = 8,            /* sets of unequal count, empty, or beyond n; of rows to be clamped none, or n or more */
    TNB_BAD_LIST = 9,            /* list length wrong, or an item not of the stated form, or, where numbers are worked, an item that is not positive; of a
                                    sentence, a number outside 1 to 22 or more than seven places */
    TNB_OUTPUT_TOO_SHORT = 10,   /* lent output shorter than needed */
    TNB_SOURCE_EMPTY = 11,       /* source place empty */
    TNB_TARGET_FULL = 12,        /* target place holds a matrix */
    TNB_SIZES_DIFFER = 13,       /* sizes differ */
    TNB_EXPONENT_OUTSIDE = 14,   /* a new factor, an answered minor or a nonzero carried item has an exponent outside -1000 to 1000 */
    TNB_BAD_STAMPS = 15,         /* a time stamp is zero, is 2^32 or more, or does not exceed the one before it, or their count is not 1 to 8 */
    TNB_BROKEN_PATTERN = 16,     /* a zero below the diagonal with a nonzero factor further down its column, or above it with one further right in its row */
    TNB_SINGULAR = 17,           /* the chosen submatrix is singular: its exact determinant is zero */
    TNB_BAD_STEP_COUNT = 18,     /* a recipe has not 2 to 6 steps */
    TNB_FOREIGN_SHELF = 255      /* the shelf handed over is not one that these calls can have made */
};

/* Eight places, each empty or holding a matrix. What is inside is private to the library and changes between versions: a shelf comes from tnb_new or
 * an answer, is copied whole, and is read by tnb_rows, tnb_factor and tnb_write. Words in place of fields, so that no program can come to use
 * one; size and alignment are the library's. */
typedef struct {
    uint64_t private_[1025];
} tnb_shelf;

/* What a call answers that may change the shelf: the bound of an operation, a recipe or a build (0 for a load or drop), the steps that an operation or recipe
 * made (0 for any other call and for a refusal), and the shelf after the call. A step is one row set updated by one letter E or Et of the rule; a forecast
 * tells beforehand how many there will be. (A step of a recipe, tnb_step, is another thing.) */
typedef struct {
    uint8_t number;
    uint32_t bound;
    size_t offset;
    size_t steps;
    tnb_shelf shelf;
} tnb_answer;

/* How many bytes were written or will be, reversals counted, or rows a place has; 0 for a refusal. */
typedef struct {
    uint8_t number;
    size_t offset;
    size_t length;
} tnb_length;

/* How many steps an operation or recipe will make; 0 for a refusal, and for a transpose. */
typedef struct {
    uint8_t number;
    size_t offset;
    size_t steps;
} tnb_steps;

/* Whether a call was accepted that answers nothing else. */
typedef struct {
    uint8_t number;
    size_t offset;
} tnb_status;

/* A minor or a factor: mantissa times 2 to the power exponent. Mantissa from 2^31 to 2^32 - 1; both 0 for zero, which a minor and a factor off the
 * diagonal may be, and for a refusal. */
typedef struct {
    uint8_t number;
    size_t offset;
    uint64_t mantissa;
    int64_t exponent;
} tnb_value;

/* A number worked from two others, and what rounding took away. The result is mantissa times 2 to the power exponent: the exact one, rounded once to
 * nearest, ties to even, at 32 bits. Mantissa from 2^31 to 2^32 - 1; the exponent may lie outside -1000 to 1000, and then it is no list item. The rest is
 * rest times 2 to the power rest_exponent, exactly: an odd whole number between -2^32 and 2^32, or 0 with rest_exponent 0. It is negative exactly when
 * the result was rounded up. For a refusal all four are 0. */
typedef struct {
    uint8_t number;
    size_t offset;
    uint64_t mantissa;
    int64_t exponent;
    int64_t rest;
    int64_t rest_exponent;
} tnb_worked;

/* A shelf with all places empty. */
tnb_shelf tnb_new(void);

/* The rows of the matrix at a place; 0 where the place is empty or above 7. Never refused, but for 255. */
tnb_length tnb_rows(tnb_shelf shelf, size_t place);

/* Factor b(i, j) of the matrix at a place, i and j from 1 to its rows; zero (mantissa and exponent 0) for any other i or j, for an empty place
 * and for a place above 7. A factor off the diagonal may be zero too, so that tnb_rows tells what is there. Never refused, but for 255. */
tnb_value tnb_factor(tnb_shelf shelf, size_t place, size_t i, size_t j);

/* Loads an empty place from the bytes of one matrix. A factor off the diagonal may be zero where every factor further down its column (below the
 * diagonal) or further right in its row (above it) is zero too; 16 stands at the exponent code of the first nonzero factor behind a zero there.
 * Refusals 1, 12, 2 to 7, 16. */
tnb_answer tnb_load(tnb_shelf shelf, size_t place, const uint8_t *bytes, size_t count);

/* Writes a place to lent bytes and answers the length, at most 449; no byte past it is changed. Refusals 1, 11, 10. */
tnb_length tnb_write(tnb_shelf shelf, size_t place, uint8_t *out, size_t room);

/* How many bytes tnb_write of a place will take, exactly. Nothing is written. Refusals 1, 11. */
tnb_length tnb_byte_length(tnb_shelf shelf, size_t place);

/* Empties a place, which can then be filled again. Refusals 1, 11. */
tnb_answer tnb_drop(tnb_shelf shelf, size_t place);

/* The product of two places, to an empty place. Both sources may be one place. Refusals 1, 11, 12, 13, 14. */
tnb_answer tnb_product(tnb_shelf shelf, size_t left, size_t right, size_t target);

/* The re-signed inverse of a place, to an empty place: the inverse with signs (-1)^(i+j). Refusals 1, 11, 12, 14. */
tnb_answer tnb_inverse(tnb_shelf shelf, size_t source, size_t target);

/* The converse of a place, to an empty place: rows and columns read backwards. Refusals 1, 11, 12, 14. */
tnb_answer tnb_converse(tnb_shelf shelf, size_t source, size_t target);

/* The submatrix of chosen rows and columns, to an empty place. It must not be singular, which it cannot be where no factor of the source is zero.
 * Refusals 1, 11, 12, 8, 17, 14. */
tnb_answer tnb_submatrix(tnb_shelf shelf, size_t source, uint8_t rows, uint8_t columns, size_t target);

/* The Schur complement of the first k rows and columns of a place of n rows, 1 <= k < n, to an empty place: what remains for the other control points once
 * the first k are clamped, that is, the lower right block minus the lower left one times the leading block's inverse times the upper right one. It has n - k
 * rows; its bound goes by n. It is never singular. Refusals 1, 11, 12, 8 (k is 0, or not below n), 14. */
tnb_answer tnb_schur(tnb_shelf shelf, size_t source, size_t k, size_t target);

/* The transpose of a place, to an empty place; no rounding, bound 0. Refusals 1, 11, 12. */
tnb_answer tnb_transpose(tnb_shelf shelf, size_t source, size_t target);

/* A step of a recipe: a place together with the way it is taken. It is made by one of the four calls below and by nothing else; what is inside is private.
 * Whatever it holds, a recipe takes it for some place in some way. A step of a place above 7 can be made, and one that was left zero is such a step: the
 * recipe then refuses with 1. */
typedef struct {
    uint64_t private_;
} tnb_step;

tnb_step tnb_plain(size_t place);      /* the matrix of the place */
tnb_step tnb_inverted(size_t place);   /* its re-signed inverse */
tnb_step tnb_conversed(size_t place);  /* its converse */
tnb_step tnb_transposed(size_t place); /* its transpose */

/* A recipe: the product of 2 to 6 steps, from the first to the last, to an empty place.
 *
 *     tnb_step steps[] = {tnb_plain(0), tnb_transposed(1), tnb_plain(0)};
 *     tnb_answer a = tnb_recipe(shelf, steps, 3, 7);
 *
 * The rule is run once, over all steps: for m steps of n rows the bound is 4 m (2 n^2 - n) + 3, at most 2883, counted from the stored sources. A place may
 * stand in several steps. Two plain steps are tnb_product, to the last bit. A transposed step counts like any other, in bound and steps. count counts steps.
 * Refusals 18 (the count is not 2 to 6, tested before all others but 255), 1, 11, 12, 13, 14. */
tnb_answer tnb_recipe(tnb_shelf shelf, const tnb_step *steps, size_t count, size_t target);

/* The steps that an operation or recipe will make, without working it: what it answers where it is accepted. They depend on how many sources there are, on
 * their rows and on how many rows are chosen or clamped, on nothing else. No target is named. A forecast is refused where the call would be for its sources,
 * sets, clamped rows or count; with a target that is empty, the call itself can then be refused only by 14 or, of a submatrix, 17. Refusals 1, 11, and of a
 * product 13, of a submatrix or Schur complement 8, of a recipe 18 and 13. */
tnb_steps tnb_forecast_product(tnb_shelf shelf, size_t left, size_t right);
tnb_steps tnb_forecast_inverse(tnb_shelf shelf, size_t source);
tnb_steps tnb_forecast_converse(tnb_shelf shelf, size_t source);
tnb_steps tnb_forecast_transpose(tnb_shelf shelf, size_t source);
tnb_steps tnb_forecast_submatrix(tnb_shelf shelf, size_t source, uint8_t rows, uint8_t columns);
tnb_steps tnb_forecast_schur(tnb_shelf shelf, size_t source, size_t k);
tnb_steps tnb_forecast_recipe(tnb_shelf shelf, const tnb_step *steps, size_t count);

/* Fills an empty place from time stamps: with n of them, 1 to 8, the matrix whose row i holds the powers 0 to n - 1 of stamp i, as a polynomial through
 * positions at those times needs it. Stamps are positive, strictly increasing and below 2^32; they go in as 64-bit numbers, so that a larger one is refused
 * and not cut. The bound is 11: each factor is within 11 unit roundings of the exact one, and the exact ones multiply out to exactly that matrix. Exponents
 * are always in range. Refusals 1, 12, 15. */
tnb_answer tnb_build(tnb_shelf shelf, size_t target, const uint64_t *stamps, size_t count);

/* A minor of a place. It may be zero, mantissa and exponent 0, which is in range. Refusals 1, 11, 8, 14. */
tnb_value tnb_minor(tnb_shelf shelf, size_t place, uint8_t rows, uint8_t columns);

/* How many bytes lie behind the first matrix of a bundle, so that the next one starts at bytes + count - tnb_rest(bytes, count); all of
 * them, where a load would refuse that matrix for a fault in its own bytes (2 to 6, 16). Never refused. */
size_t tnb_rest(const uint8_t *bytes, size_t count);

/* Carries n items through the matrix of a place, n being its rows, into a second list. An item is three numbers: sign (-1, 0 or 1),
 * mantissa and exponent; zero is 0, 0, 0. count and room count numbers, three to an item. Nothing past the first 3 n numbers of out is
 * changed. Refusals 1, 11, 9, 14, 10.
 * The list that an accepted carry wrote never has more reversals than the list that it was given: tnb_reversals(out, count) answers at most what
 * tnb_reversals(items, count) answers. That is part of the proved contract, for the numbers as they are rounded. */
tnb_status tnb_carry(tnb_shelf shelf, size_t place, const int64_t *items, size_t count, int64_t *out, size_t room);

/* Counts the reversals of a list of 1 to 8 items, three numbers each: pairs of nonzero items of opposite sign with only zeros between. A standstill is
 * passed over: 1, 0, -1 has one reversal. All items are judged before any is counted. Refusal 9. */
tnb_length tnb_reversals(const int64_t *items, size_t count);

/* Numbers worked, with what rounding took away, so that a log balances to the last bit. Each call takes two positive items, three numbers each: count is 6.
 * No shelf is handed over, and the result's exponent is not judged. Refusal 9: another count, an item not of the stated form, or one that is zero or
 * negative.
 * The sum; rest: first plus second, minus the result. */
tnb_worked tnb_add(const int64_t *items, size_t count);

/* The product; rest: first times second, minus the result. */
tnb_worked tnb_multiply(const int64_t *items, size_t count);

/* The quotient, first over second; rest: first, minus the result times second. */
tnb_worked tnb_divide(const int64_t *items, size_t count);

/* What is always enough to lend to tnb_sentence. */
#define TNB_SENTENCE_ROOM 220

/* Writes the sentence of a refusal to lent bytes, for a panel to show, and answers its length; no byte past it is changed, and no zero is put behind
 * it. From the number, the offset and up to seven places, in the order given: "refused 11 at 0 source place empty 6". The reason is that of the
 * number in docs/REFUSALS.md, which has one for each from 1 to 22, also for those that no call answers yet. One sentence belongs to one number,
 * offset and list of places: they can be recovered from it in only one way. No shelf is handed over, and offset and places may be any numbers.
 * Refusals 9 (a number outside 1 to 22, 255 among them, or more than seven places), 10. */
tnb_length tnb_sentence(uint64_t number, uint64_t offset, const uint64_t *places, size_t count, uint8_t *out, size_t room);

#ifdef __cplusplus
}
#endif

#endif
