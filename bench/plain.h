/* Document 01's product and re-signed inverse, written plainly in C: a yardstick for the benchmark. */
#ifndef BEECHCRIB_PLAIN_H
#define BEECHCRIB_PLAIN_H
#include <stdint.h>

/* m times 2 to the power e; zero has m 0 and e 0. */
typedef struct {
    uint64_t m;
    int64_t e;
} plain_number;

plain_number plain_add(plain_number a, plain_number b);
plain_number plain_mul(plain_number a, plain_number b);
plain_number plain_div(plain_number a, plain_number b);

/* The new factors of a product of two matrices of n rows, and of a re-signed inverse; factor (i, j) at (i-1)*8+(j-1). */
void plain_product(int n, const plain_number left[64], const plain_number right[64], plain_number result[64]);
void plain_inverse(int n, const plain_number source[64], plain_number result[64]);

#endif
