"""Banded sources, document 02, (e): random matter with zeros among the factors.

banded: a matrix with zeros in one of the ways of SHAPES. any_matrix: a full one or a banded one. jumping: one whose sets R leave rows out. broken: a matrix
whose first place to break the pattern is a given one. sets_of: row and column sets whose determinant is zero, is not, or either.
"""
from number import ZERO
from patterns import masked, places, reached, shape
from sources import good_masks, matrix, spread_number
from words import Matrix, count, sets, word


def lengths(rng, n):
    """How many factors of each line are nonzero."""
    return [rng.randint(0, n - j) for j in range(1, n)]


def full(n):
    return list(range(n - 1, 0, -1))


def any_lines(rng, n):
    return lengths(rng, n), lengths(rng, n)


def band(rng, n):
    """So many diagonals below, so many above."""
    return [[min(width, longest) for longest in full(n)] for width in (rng.randrange(n), rng.randrange(n))]


def one_side(rng, n):
    """A triangular matrix, or a diagonal one."""
    sides = [rng.choice((full(n), lengths(rng, n))), [0] * (n - 1)]
    return rng.choice((sides, sides[::-1], sides, sides[::-1], [[0] * (n - 1)] * 2))


def few_zeros(rng, n):
    """A line or two that lack their last factors."""
    sides = [full(n), full(n)]
    for _ in range(rng.randint(1, 2) if n > 1 else 0):
        line = rng.randrange(n - 1)
        rng.choice(sides)[line] = rng.randint(0, n - 2 - line)
    return sides


def few_nonzero(rng, n):
    """Lines that are empty as often as not."""
    return [[length if rng.random() < 0.5 else 0 for length in lengths(rng, n)] for _ in range(2)]


def leaping(rng, n):
    """The first line goes on where the second is empty: the sets R leave out rows in between."""
    sides = [lengths(rng, n), lengths(rng, n)]
    for side in sides if n > 3 else ():
        side[:2] = [rng.randint(2, n - 1), 0]
    return sides


SHAPES = (any_lines, any_lines, any_lines, band, band, one_side, few_zeros, few_zeros, few_nonzero, leaping, leaping)


def banded(rng, n, drawn=None, numbers=matrix):
    return masked(numbers(rng, n), shape(n, *(drawn or rng.choice(SHAPES))(rng, n)))


def any_matrix(rng, n):
    return banded(rng, n) if n > 1 and rng.random() < 0.4 else matrix(rng, n)


def breakable(n):
    """The places that can break the pattern: another stands between them and the diagonal."""
    return [(i, j) for i, j in places(n) if abs(i - j) > 1]


def broken(rng, source, i, j):
    """The source with zeros before (i, j) in its line, from some place on, and none at (i, j): the first place, in byte order, that breaks the pattern."""
    n, factors = source.n, list(source.factors)
    for k in range(rng.randint(min(i, j) + 1, max(i, j) - 1), max(i, j)):
        factors[(k - 1) * n + j - 1 if i > j else (i - 1) * n + k - 1] = ZERO
    if factors[(i - 1) * n + j - 1] == ZERO:
        factors[(i - 1) * n + j - 1] = spread_number(rng, 3)
    return Matrix(n, tuple(factors))


def sets_of(rng, source, singular=None):
    """Equally many rows and columns, with the determinant that is asked for; any if none is asked for or no such choice is found."""
    n = source.n
    for _ in range(20):
        rows, columns = good_masks(rng, n)
        if singular is None:
            break
        regular = reached(word(source), n, columns)
        fitting = [s for s, _ in sets(n, count(columns)) if (s in regular) != singular]
        if fitting:
            return [rng.choice(fitting), columns]
    return [rows, columns]


def any_sets(rng, source):
    return sets_of(rng, source, rng.choice((None, False, False, True)))
