/* The rule of plain.c, step for step and bit for bit, as a C programmer would write it for speed: a number in one word, rounding without a branch
 * on data, and the positions of the sets that a letter changes listed beforehand. Each minor is worked afresh and every letter applied, as in
 * plain.c. Nothing here is proved; bench/run compares it with the proved library. */
#include "fast.h"

/* The mantissa is the low half of the word, the exponent, biased, the high half. So of two words the larger is the larger number, and zero, the
 * word 0, is below all others. */
#define BIAS ((uint64_t)1 << 22)
#define ONE ((BIAS - 31) << 32 | (uint64_t)1 << 31)

uint64_t fast_pack(uint64_t m, int64_t e)
{
    return m == 0 ? 0 : (uint64_t)(e + (int64_t)BIAS) << 32 | m;
}

/* p at exponent x, rounded to 32 bits, to nearest, ties to even. The highest bit of p is bit 62 or 63 (t), so 31 or 32 bits are dropped: adding half
 * of the last kept bit less one, and one more where that bit is odd, rounds. The sum has bit 63 set (u) also where rounding carried into it. */
static inline uint64_t rounded(uint64_t p, uint64_t x)
{
    uint64_t t = p >> 63;
    uint64_t r = p + 0x3fffffff + (t << 30) + (p >> 31 >> t & 1);
    uint64_t u = r >> 63;
    return (x + 31 + u) << 32 | r >> 31 >> u;
}

/* neither is zero */
static inline uint64_t mul(uint64_t a, uint64_t b)
{
    return rounded((uint64_t)(uint32_t)a * (uint32_t)b, (a >> 32) + (b >> 32) - BIAS);
}

/* Not both are zero; one that is adds nothing. The smaller one is shifted into place, and what falls off its end leaves one bit behind it, so that
 * rounding still sees that there was something. */
static inline uint64_t add(uint64_t a, uint64_t b)
{
    uint64_t h = a > b ? a : b, l = a > b ? b : a;
    uint64_t k = (h >> 32) - (l >> 32);
    k = k < 63 ? k : 63;
    uint64_t z = (uint64_t)(uint32_t)l << 30, y = z >> k;
    uint64_t p = ((((uint64_t)(uint32_t)h << 30) + y) << 1) | ((y << k) != z);
    return rounded(p, (h >> 32) - 31);
}

/* the quotient is below 2^32 after rounding too, since 2^32 - 1 is met only without a rest */
static uint64_t divided(uint64_t a, uint64_t b)
{
    uint64_t m = (uint32_t)a, d = (uint32_t)b;
    uint64_t s = m >= d ? 31 : 32;
    uint64_t n = m << s, q = n / d, rest = n % d;
    q += rest * 2 > d - (q & 1);
    return ((a >> 32) + BIAS - (b >> 32) - s) << 32 | q;
}

/* The masks of n rows by how many rows they have, and the position of each among those with equally many. For the letters on rows j - 1 and j and
 * sets of k rows: the positions of the sets with j - 1 and without j (low), and of the same sets with j in place of j - 1 (high). */
static uint8_t masks[9][70], sets[9], position[256];
static uint8_t low[9][9][20], high[9][9][20], changed[9];

static void list_changes(int k, int j)
{
    int one = 1 << (j - 2), two = 1 << (j - 1), c = 0;
    for (int t = 0; t < sets[k]; t++) {
        int s = masks[k][t];
        if ((s & one) && !(s & two)) {
            low[k][j][c] = position[s];
            high[k][j][c++] = position[(s ^ one) | two];
        }
    }
    changed[k] = (uint8_t)c;
}

/* once for each n: a second call with the same n finds the lists as they are */
static void list_sets(int n)
{
    static int listed;
    if (n == listed)
        return;
    listed = n;
    for (int k = 0; k <= n; k++)
        sets[k] = changed[k] = 0;
    for (int s = 0; s < 1 << n; s++) {
        int k = __builtin_popcount((unsigned)s);
        position[s] = sets[k];
        masks[k][sets[k]++] = (uint8_t)s;
    }
    for (int k = 1; k <= n; k++)
        for (int j = 2; j <= n; j++)
            list_changes(k, j);
}

/* A number that is zero is passed over. Which ones are depends on the word and the sets alone, so this branch goes the same way for any factors.
 * Working them all, with a mask for zero, is slower by a third at eight rows. */
static inline void move(uint64_t v[70], const uint8_t *to, const uint8_t *from, int count, uint64_t w)
{
    for (int t = 0; t < count; t++) {
        uint64_t y = v[from[t]];
        if (y != 0)
            v[to[t]] = add(v[to[t]], mul(w, y));
    }
}

static void diagonal(uint64_t v[70], int n, int k, const uint64_t b[64], int inverse)
{
    for (int t = 0; t < sets[k]; t++) {
        uint64_t x = v[t];
        if (x == 0)
            continue;
        for (int i = 0; i < n; i++)
            if (masks[k][t] >> i & 1)
                x = inverse ? divided(x, b[i * 9]) : mul(x, b[i * 9]);
        v[t] = x;
    }
}

/* the letters from right to left */
static void walk(uint64_t v[70], int n, int k, const uint64_t b[64])
{
    for (int i = 1; i <= n - 1; i++)
        for (int j = n - i + 1; j <= n; j++)
            move(v, low[k][j], high[k][j], changed[k], b[(i + j - n - 1) * 8 + j - 1]);
    diagonal(v, n, k, b, 0);
    for (int i = n - 1; i >= 1; i--)
        for (int j = n; j >= n - i + 1; j--)
            move(v, high[k][j], low[k][j], changed[k], b[(j - 1) * 8 + i + j - n - 1]);
}

/* The word reversed, letters kept, D dividing: its letters from right to left are those of the word from left to right. */
static void walk_inverse(uint64_t v[70], int n, int k, const uint64_t b[64])
{
    for (int i = 1; i <= n - 1; i++)
        for (int j = n - i + 1; j <= n; j++)
            move(v, high[k][j], low[k][j], changed[k], b[(j - 1) * 8 + i + j - n - 1]);
    diagonal(v, n, k, b, 1);
    for (int i = n - 1; i >= 1; i--)
        for (int j = n; j >= n - i + 1; j--)
            move(v, low[k][j], high[k][j], changed[k], b[(i + j - n - 1) * 8 + j - 1]);
}

/* right is null for the re-signed inverse of left */
static uint64_t minor(int n, const uint64_t left[64], const uint64_t *right, int rows, int columns)
{
    int k = __builtin_popcount((unsigned)rows);
    if (k == 0)
        return ONE;
    uint64_t v[70];
    for (int t = 0; t < sets[k]; t++)
        v[t] = 0;
    v[position[columns]] = ONE;
    if (right) {
        walk(v, n, k, right);
        walk(v, n, k, left);
    } else
        walk_inverse(v, n, k, left);
    return v[position[rows]];
}

static int run(int a, int b)
{
    return b < a ? 0 : (1 << b) - (1 << (a - 1));
}

/* no minor here is zero */
static void refactored(int n, const uint64_t left[64], const uint64_t *right, uint64_t result[64])
{
    list_sets(n);
    for (int i = 1; i <= n; i++)
        for (int j = 1; j <= n; j++) {
            uint64_t *r = &result[(i - 1) * 8 + j - 1];
            if (i == j) {
                *r = divided(minor(n, left, right, run(1, i), run(1, i)), minor(n, left, right, run(1, i - 1), run(1, i - 1)));
                continue;
            }
            int p = i > j ? i : j, q = i > j ? j : i, d = p - q;
            int set[4][2] = {{run(d + 1, p), run(1, q)}, {run(d, p - 2), run(1, q - 1)}, {run(d + 1, p - 1), run(1, q - 1)}, {run(d, p - 1), run(1, q)}};
            uint64_t m[4];
            for (int t = 0; t < 4; t++)
                m[t] = i > j ? minor(n, left, right, set[t][0], set[t][1]) : minor(n, left, right, set[t][1], set[t][0]);
            *r = divided(mul(m[0], m[1]), mul(m[2], m[3]));
        }
}

void fast_product(int n, const uint64_t left[64], const uint64_t right[64], uint64_t result[64])
{
    refactored(n, left, right, result);
}

void fast_inverse(int n, const uint64_t source[64], uint64_t result[64])
{
    refactored(n, source, 0, result);
}
