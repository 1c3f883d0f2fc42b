/* Document 01's product and re-signed inverse in C written for speed, rounding without a branch: the faster of the two yardsticks. */
#ifndef BEECHCRIB_FAST_H
#define BEECHCRIB_FAST_H
#include <stdint.h>

/* m times 2 to the power e in one word; zero is the word 0. */
uint64_t fast_pack(uint64_t m, int64_t e);

/* The new factors of a product of two matrices of n rows, and of a re-signed inverse; factor (i, j) at (i-1)*8+(j-1). */
void fast_product(int n, const uint64_t left[64], const uint64_t right[64], uint64_t result[64]);
void fast_inverse(int n, const uint64_t source[64], uint64_t result[64]);

#endif
