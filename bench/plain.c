/* Document 01's product and re-signed inverse, written plainly in C. Nothing here is proved; bench/run compares it with the proved library. */
#include "plain.h"

static plain_number rounded(uint64_t n, int64_t e)
{
    plain_number r = {0, 0};
    if (n == 0)
        return r;
    int z = __builtin_clzll(n);
    if (z >= 32) {
        r.m = n << (z - 32);
        r.e = e - (z - 32);
        return r;
    }
    int w = 32 - z;
    uint64_t q = n >> w, rest = n & (((uint64_t)1 << w) - 1), half = (uint64_t)1 << (w - 1);
    if (rest > half || (rest == half && (q & 1)))
        q++;
    if (q >> 32) {
        q >>= 1;
        w++;
    }
    r.m = q;
    r.e = e + w;
    return r;
}

plain_number plain_add(plain_number a, plain_number b)
{
    if (a.m == 0)
        return b;
    if (b.m == 0)
        return a;
    if (a.e < b.e) {
        plain_number t = a;
        a = b;
        b = t;
    }
    int64_t k = a.e - b.e;
    if (k > 32)
        return a;
    return rounded((a.m << k) + b.m, b.e);
}

plain_number plain_mul(plain_number a, plain_number b)
{
    return rounded(a.m * b.m, a.e + b.e);
}

plain_number plain_div(plain_number a, plain_number b)
{
    plain_number r = {0, 0};
    if (a.m == 0)
        return r;
    int s = a.m >= b.m ? 31 : 32;
    uint64_t n = a.m << s, q = n / b.m, rest = n % b.m;
    if (rest * 2 > b.m || (rest * 2 == b.m && (q & 1)))
        q++;
    r.m = q;
    r.e = a.e - b.e - s;
    return r;
}

/* the masks of n rows, by how many rows they have */
static int masks[9][70], counts[9];

static void list_masks(int n)
{
    for (int k = 0; k <= n; k++)
        counts[k] = 0;
    for (int s = 0; s < 1 << n; s++) {
        int k = __builtin_popcount(s);
        masks[k][counts[k]++] = s;
    }
}

/* each set with row a and without row o gets w times the number of the set with o in place of a */
static void move(plain_number v[256], int k, int a, int o, plain_number w)
{
    int in = 1 << (a - 1), out = 1 << (o - 1);
    for (int t = 0; t < counts[k]; t++) {
        int s = masks[k][t];
        if ((s & in) && !(s & out))
            v[s] = plain_add(v[s], plain_mul(w, v[(s ^ in) | out]));
    }
}

static void diagonal(plain_number v[256], int n, int k, const plain_number b[64], int inverse)
{
    for (int t = 0; t < counts[k]; t++) {
        int s = masks[k][t];
        for (int i = 1; i <= n; i++)
            if (s >> (i - 1) & 1) {
                plain_number e = b[(i - 1) * 8 + i - 1];
                v[s] = inverse ? plain_div(v[s], e) : plain_mul(v[s], e);
            }
    }
}

/* the letters from right to left */
static void walk(plain_number v[256], int n, int k, const plain_number b[64])
{
    for (int i = 1; i <= n - 1; i++)
        for (int j = n - i + 1; j <= n; j++)
            move(v, k, j - 1, j, b[(i + j - n - 1) * 8 + j - 1]);
    diagonal(v, n, k, b, 0);
    for (int i = n - 1; i >= 1; i--)
        for (int j = n; j >= n - i + 1; j--)
            move(v, k, j, j - 1, b[(j - 1) * 8 + i + j - n - 1]);
}

/* The word reversed, letters kept, D dividing: its letters from right to left are those of the word from left to right. */
static void walk_inverse(plain_number v[256], int n, int k, const plain_number b[64])
{
    for (int i = 1; i <= n - 1; i++)
        for (int j = n - i + 1; j <= n; j++)
            move(v, k, j, j - 1, b[(j - 1) * 8 + i + j - n - 1]);
    diagonal(v, n, k, b, 1);
    for (int i = n - 1; i >= 1; i--)
        for (int j = n; j >= n - i + 1; j--)
            move(v, k, j - 1, j, b[(i + j - n - 1) * 8 + j - 1]);
}

/* right is null for the re-signed inverse of left */
static plain_number minor(int n, const plain_number left[64], const plain_number *right, int rows, int columns)
{
    plain_number v[256], zero = {0, 0}, one = {(uint64_t)1 << 31, -31};
    int k = __builtin_popcount(rows);
    if (k == 0)
        return one;
    for (int t = 0; t < counts[k]; t++)
        v[masks[k][t]] = zero;
    v[columns] = one;
    if (right) {
        walk(v, n, k, right);
        walk(v, n, k, left);
    } else
        walk_inverse(v, n, k, left);
    return v[rows];
}

static int run(int a, int b)
{
    return b < a ? 0 : (1 << b) - (1 << (a - 1));
}

static void refactored(int n, const plain_number left[64], const plain_number *right, plain_number result[64])
{
    list_masks(n);
    for (int i = 1; i <= n; i++)
        for (int j = 1; j <= n; j++) {
            plain_number *r = &result[(i - 1) * 8 + j - 1];
            if (i == j) {
                *r = plain_div(minor(n, left, right, run(1, i), run(1, i)), minor(n, left, right, run(1, i - 1), run(1, i - 1)));
                continue;
            }
            int p = i > j ? i : j, q = i > j ? j : i, d = p - q;
            int set[4][2] = {{run(d + 1, p), run(1, q)}, {run(d, p - 2), run(1, q - 1)}, {run(d + 1, p - 1), run(1, q - 1)}, {run(d, p - 1), run(1, q)}};
            plain_number m[4];
            for (int t = 0; t < 4; t++)
                m[t] = i > j ? minor(n, left, right, set[t][0], set[t][1]) : minor(n, left, right, set[t][1], set[t][0]);
            *r = plain_div(plain_mul(m[0], m[1]), plain_mul(m[2], m[3]));
        }
}

void plain_product(int n, const plain_number left[64], const plain_number right[64], plain_number result[64])
{
    refactored(n, left, right, result);
}

void plain_inverse(int n, const plain_number source[64], plain_number result[64])
{
    refactored(n, source, 0, result);
}
