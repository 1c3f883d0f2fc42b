"""Zeros among the factors, document 02, (e).

kept: whether factors keep the pattern, said of each zero and everything behind it; breaks: the places that break it. shape, every_shape: patterns, each a
tuple that says of every factor, row by row, whether it is nonzero. masked: a matrix with the zeros of a pattern. reached: the row sets whose minor is not
zero, told by the zeros among the letters alone.
"""
from itertools import product

from number import ZERO
from words import Matrix, bit


def places(n):
    return product(range(1, n + 1), repeat=2)


def line_behind(n, i, j):
    """The places further down the column of one below the diagonal, further right in the row of one above it."""
    if i == j:
        return []
    return [(k, j) for k in range(i + 1, n + 1)] if i > j else [(i, k) for k in range(j + 1, n + 1)]


def breaks(n, nonzero):
    """The nonzero places behind a zero, in byte order; `nonzero` tells of each place, row by row."""
    held = dict(zip(places(n), nonzero))
    return sorted({behind for place in held if not held[place] for behind in line_behind(n, *place) if held[behind]})


def kept(n, factors):
    """Whether these factors are accepted: none on the diagonal is zero, and behind each zero there are zeros alone."""
    nonzero = [x != ZERO for x in factors]
    return all(nonzero[::n + 1]) and not breaks(n, nonzero)


def shape(n, lower, upper):
    """Of column j below the diagonal the first lower[j-1] factors are nonzero, of row i above it the first upper[i-1]."""
    return tuple(i == j or (i - j <= lower[j - 1] if i > j else j - i <= upper[i - 1]) for i, j in places(n))


def every_shape(n):
    """All patterns, 1, 4, 36, 576 for n from 1 to 4; of each line any beginning may be nonzero."""
    lengths = list(product(*(range(n - j + 1) for j in range(1, n))))
    return [shape(n, lower, upper) for lower in lengths for upper in lengths]


def shape_of(source):
    return tuple(x != ZERO for x in source.factors)


def masked(source, nonzero):
    return Matrix(source.n, tuple(x if there else ZERO for x, there in zip(source.factors, nonzero)))


def reached(letters, n, columns):
    """The row sets that the walk from a column set gives a nonzero number: each letter with a nonzero weight may move a row up or down by one."""
    found = {columns}
    for kind, j, w in reversed(letters):
        if kind != "D" and w != ZERO:
            here, there = (bit(j - 1), bit(j)) if kind == "E" else (bit(j), bit(j - 1))
            found |= {s ^ here ^ there for s in found if s & here and not s & there}
    return found
