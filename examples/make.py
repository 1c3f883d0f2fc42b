#!/usr/bin/env python3
"""Writes the pairs of matrices in the folders beside it, left.tnb and right.tnb in each.

Each matrix but those with zeros is given by closed forms of its factors b(i,j), rounded to 32 binary digits. They come of the minors of the
matrix: with M for minors, b(i,i) is M(1..i | 1..i) / M(1..i-1 | 1..i-1), and below the diagonal b(i,j) is
(M(i-j+1..i | 1..j) M(i-j..i-2 | 1..j-1)) / (M(i-j+1..i-1 | 1..j-1) M(i-j..i-1 | 1..j)); these matrices are symmetric.

- ones: all factors one, two rows: the matrix 1 1; 1 2.
- pascal: all factors one, five rows: entry (i,j) is the binomial number of i+j-2 over i-1. The minors named above are all one.
- hilbert: entry (i,j) is 1/(i+j-1), eight rows. Its minors are Cauchy's determinants, which leave b(i,j) = (i-1)^2 / ((i+j-2)(i+j-1)) below
  the diagonal and b(i,i) = (i-1)!^4 / ((2i-2)! (2i-1)!).
- mixed: left the three rows of hilbert, right those of pascal, so that the two files differ.
- banded: five control points of a uniform cubic B-spline. Right takes them to the five around the middle one after every span is halved:
  (P + 6 Q + R) / 8 in place of a control point Q between P and R, (P + Q) / 2 halfway between two. Left takes control points to the points of the
  curve at their knots, (P + 4 Q + R) / 6, as if those beyond the five were zero. So the product takes the old control points to points of the
  curve, and its middle row is 0 1 4 1 0 over 6 again: halving leaves the curve as it is. Factors, zeros among them, by elimination.

Before a matrix is written, the exact factors are multiplied out as fractions and held to the entries.
"""
import os
from fractions import Fraction
from math import comb, factorial

HERE = os.path.dirname(os.path.abspath(__file__))


def one(i, j):
    return Fraction(1)


def hilbert(i, j):
    if i == j:
        return Fraction(factorial(i - 1) ** 4, factorial(2 * i - 2) * factorial(2 * i - 1))
    row, column = max(i, j), min(i, j)
    return Fraction((row - 1) ** 2, (row + column - 2) * (row + column - 1))


def pascal_entry(i, j):
    return comb(i + j - 2, i - 1)


def hilbert_entry(i, j):
    return Fraction(1, i + j - 1)


def knot_entry(i, j):
    return Fraction(comb(2, 1 + i - j) ** 2, 6) if abs(i - j) < 2 else Fraction(0)


def halved_entry(i, j):
    """The binomial numbers 1 4 6 4 1 over 8, read two columns on for each row."""
    k = 2 * (j - 1) - (i - 1)
    return Fraction(comb(4, k), 8) if 0 <= k <= 4 else Fraction(0)


def lower_factors(rows):
    """Neville's elimination: from the last row up, each less a multiple of the one before it, column by column. What is zero already has the factor zero."""
    rows, factors = [list(row) for row in rows], {}
    for j in range(len(rows)):
        for i in range(len(rows) - 1, j, -1):
            factors[i + 1, j + 1] = multiple = rows[i][j] / rows[i - 1][j] if rows[i][j] else Fraction(0)
            rows[i] = [x - multiple * y for x, y in zip(rows[i], rows[i - 1])]
        factors[j + 1, j + 1] = rows[j][j]
    return factors


def eliminated(n, entry):
    """The factors of a matrix that is given by its entries: those above the diagonal are the transpose's below it."""
    rows = [[entry(i, j) for j in range(1, n + 1)] for i in range(1, n + 1)]
    lower, upper = lower_factors(rows), lower_factors(zip(*rows))
    return lambda i, j: lower[i, j] if i >= j else upper[j, i]


# factors and entries of a matrix
PASCAL = (one, pascal_entry)
HILBERT = (hilbert, hilbert_entry)
KNOTS = (eliminated(5, knot_entry), knot_entry)
HALVED = (eliminated(5, halved_entry), halved_entry)

# folder: rows, left, right
PAIRS = {"ones": (2, PASCAL, PASCAL), "pascal": (5, PASCAL, PASCAL), "hilbert": (8, HILBERT, HILBERT), "mixed": (3, HILBERT, PASCAL),
         "banded": (5, KNOTS, HALVED)}


def word(n, factor):
    """The letters, left to right: the row added to, the row read and the weight; for the diagonal (None, None, its entries)."""
    for i in range(1, n):
        for j in range(n - i + 1, n + 1):
            yield j, j - 1, factor(j, i + j - n)
    yield None, None, [factor(i, i) for i in range(1, n + 1)]
    for i in range(n - 1, 0, -1):
        for j in range(n, n - i, -1):
            yield j - 1, j, factor(i + j - n, j)


def multiplied_out(n, factor):
    rows = [[Fraction(i == j) for j in range(n)] for i in range(n)]
    for to, source, weight in reversed(list(word(n, factor))):
        if to is None:
            rows = [[weight[i] * x for x in rows[i]] for i in range(n)]
        else:
            rows[to - 1] = [x + weight * y for x, y in zip(rows[to - 1], rows[source - 1])]
    return rows


def rounded(x):
    """Mantissa from 2^31 to 2^32 - 1 and exponent of the nearest number, at a tie the even one."""
    exponent = x.numerator.bit_length() - x.denominator.bit_length() - 32
    while x / Fraction(2) ** exponent >= 2 ** 32:
        exponent += 1
    mantissa = round(x / Fraction(2) ** exponent)
    return (mantissa // 2, exponent + 1) if mantissa == 2 ** 32 else (mantissa, exponent)


def group(value):
    low, rest = value % 128, value // 128
    return bytes([128 + low]) + group(rest) if rest else bytes([low])


def encoding(n, factor):
    """The bytes; zero is the exponent code 0 and has no mantissa."""
    numbers = (factor(i, j) for i in range(1, n + 1) for j in range(1, n + 1))
    pairs = (rounded(x) if x else None for x in numbers)
    return group(n) + b"".join(group(pair[1] + 1001) + group(pair[0] - 2 ** 31) if pair else group(0) for pair in pairs)


def main():
    for folder, (n, left, right) in PAIRS.items():
        os.makedirs(os.path.join(HERE, folder), exist_ok=True)
        for side, (factor, entry) in (("left", left), ("right", right)):
            assert multiplied_out(n, factor) == [[entry(i, j) for j in range(1, n + 1)] for i in range(1, n + 1)], (folder, side)
            with open(os.path.join(HERE, folder, side + ".tnb"), "wb") as file:
                file.write(encoding(n, factor))


if __name__ == "__main__":
    main()
