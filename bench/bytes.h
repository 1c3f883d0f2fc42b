/* A matrix as document 01's bytes, so that the benchmark fills a shelf as any program does: by loading. */
#ifndef BEECHCRIB_BYTES_H
#define BEECHCRIB_BYTES_H
#include "plain.h"
#include <stddef.h>

#define MOST_BYTES 449

/* The bytes of the matrix of n rows whose factor (i, j) stands at (i-1)*8+(j-1); answers how many. */
size_t matrix_bytes(int n, const plain_number factors[64], uint8_t out[MOST_BYTES]);

#endif
