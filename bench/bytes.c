/* Document 01's bytes: n, then for each factor, row by row, its exponent and its mantissa as group numbers; zero is the exponent code 0 alone. */
#include "bytes.h"

static size_t put(uint64_t value, uint8_t *out)
{
    size_t length = 0;
    for (; value >= 128; value >>= 7)
        out[length++] = (uint8_t)(value | 128);
    out[length++] = (uint8_t)value;
    return length;
}

size_t matrix_bytes(int n, const plain_number factors[64], uint8_t out[MOST_BYTES])
{
    size_t length = put((uint64_t)n, out);
    for (int t = 0; t < 64; t++) {
        if (t / 8 >= n || t % 8 >= n)
            continue;
        if (factors[t].m == 0) {
            length += put(0, out + length);
            continue;
        }
        length += put((uint64_t)(factors[t].e + 1001), out + length);
        length += put(factors[t].m - 0x80000000u, out + length);
    }
    return length;
}
