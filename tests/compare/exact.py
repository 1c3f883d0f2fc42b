"""The exact run, in fractions, and the matrices that its answers are held to.

exact_run: the exact factors, by the same word, minors, sets R and formulas as the rounded rule. multiply_out: the entries that a
matrix's letters multiply out to. requested: the entries that ordinary matrix arithmetic on the sources' entries gives. singular: of a
choice of rows and columns. exact_parts: the exact run for measuring, without fractions in lowest terms. units: a ratio in unit roundings.
"""
import math
from fractions import Fraction
from functools import reduce

from number import value
from words import Arithmetic, Walker, chosen_rows, count, factors_by, interval, operation_word, plain_walk, rows_of, sets, updates, word

FRACTIONS = Arithmetic(Fraction(0), Fraction(1), lambda a, b: a + b, lambda a, b: a * b, lambda a, b: a / b)
UNIT = -math.log1p(-2.0 ** -32)


def in_fractions(letters):
    return [(kind, tuple(map(value, j)), w) if kind == "D" else (kind, j, value(w)) for kind, j, w in letters]


def exact_run(kind, sources, *given):
    """One fraction for each (i, j), row by row. It finds the sets R by its own minors. Given are the sets of a submatrix, the k of a Schur complement."""
    n = sources[0].n
    letters = in_fractions(operation_word(kind, sources))
    walks = {}

    def minor(r, c):
        if c not in walks:
            walks[c] = plain_walk(letters, n, c, FRACTIONS)
        return walks[c][r]

    return factors_by(minor, FRACTIONS, *chosen_rows(kind, n, *given))


def identity(n):
    return [[Fraction(i == j) for j in range(n)] for i in range(n)]


def matrix_product(a, b):
    """Terms with a zero are left out: most entries of a letter's matrix are."""
    columns = list(zip(*b))
    return [[sum((x * y for x, y in zip(row, column) if x and y), Fraction(0)) for column in columns] for row in a]


def letter_matrix(letter, n):
    kind, j, w = letter
    entries = identity(n)
    if kind == "D":
        for i in range(n):
            entries[i][i] = 1 / j[i] if w else j[i]
    elif kind == "E":
        entries[j - 1][j - 2] = w
    else:
        entries[j - 2][j - 1] = w
    return entries


def multiply_out(n, fractions):
    """The entries that n * n factors, given as fractions row by row, multiply out to."""
    entries = identity(n)
    for letter in word_of_fractions(n, fractions):
        entries = matrix_product(entries, letter_matrix(letter, n))
    return entries


def word_of_fractions(n, fractions):
    """The word of document 01 once more, its letters taken by their own row and column."""
    def b(i, j):
        return fractions[(i - 1) * n + j - 1]

    letters = []
    for i in range(1, n):
        for j in range(n - i + 1, n + 1):
            letters.append(("E", j, b(j, i + j - n)))
    letters.append(("D", [b(i, i) for i in range(1, n + 1)], False))
    for i in range(n - 1, 0, -1):
        for j in range(n, n - i, -1):
            letters.append(("Et", j, b(i + j - n, j)))
    return letters


def entries_of(matrix):
    return multiply_out(matrix.n, [value(x) for x in matrix.factors])


def inverse(entries):
    """The inverse by Gauss and Jordan's elimination."""
    n = len(entries)
    rows = [row + unit for row, unit in zip(entries, identity(n))]
    for k in range(n):
        pivot = next(i for i in range(k, n) if rows[i][k])
        rows[k], rows[pivot] = rows[pivot], rows[k]
        rows[k] = [x / rows[k][k] for x in rows[k]]
        for i in range(n):
            if i != k:
                rows[i] = [x - rows[i][k] * y for x, y in zip(rows[i], rows[k])]
    return [row[n:] for row in rows]


def schur_complement(entries, k):
    """The lower right block minus the lower left one times the leading block's inverse times the upper right one."""
    (lead, right), (left, lower) = ([[row[:k] for row in rows], [row[k:] for row in rows]] for rows in (entries[:k], entries[k:]))
    taken = matrix_product(matrix_product(left, inverse(lead)), right)
    return [[x - y for x, y in zip(*rows)] for rows in zip(lower, taken)]


def requested(kind, sources, *given):
    """The entries of the requested matrix; of a recipe, whose kind is the tuple of its ways, the product of what each step asks for."""
    if isinstance(kind, tuple):
        return reduce(matrix_product, (requested(way, [source]) for way, source in zip(kind, sources)))
    entries = entries_of(sources[0])
    if kind == "plain":
        return entries
    if kind == "transpose":
        return [list(column) for column in zip(*entries)]
    if kind == "product":
        return matrix_product(entries, entries_of(sources[1]))
    if kind == "inverse":
        return [[(-1) ** (i + j) * x for j, x in enumerate(row)] for i, row in enumerate(inverse(entries))]
    if kind == "converse":
        return [row[::-1] for row in entries[::-1]]
    if kind == "schur":
        return schur_complement(entries, *given)
    rows, columns = map(rows_of, given)
    return [[entries[i - 1][j - 1] for j in columns] for i in rows]


def dyadic_add(a, b):
    """The exact sum of m * 2^e and m' * 2^e', whole numbers m and m' of any size."""
    gap = a[1] - b[1]
    return ((a[0] << gap) + b[0], b[1]) if gap >= 0 else (a[0] + (b[0] << -gap), a[1])


def dyadic_multiply(a, b):
    return (a[0] * b[0], a[1] + b[1])


class ExactWalker(Walker):
    """Exact minors m * 2^e. Where D divides, each set is multiplied by the entries outside it instead: every minor but the
    empty one then comes out times the product of all entries, which `scale` undoes."""

    def __init__(self, letters, n):
        super().__init__(letters, n)
        self.walks = {0: {0: (1, 0)}}

    def walk(self, columns):
        n, size = self.n, count(columns)
        numbers = [(0, 0)] * (1 << n)
        numbers[columns] = (1, 0)
        for kind, j, w in self.letters:
            if kind == "D":
                for s, rows in sets(n, size):
                    for row in rows_of(interval(1, n) ^ s) if w else rows:
                        numbers[s] = dyadic_multiply(numbers[s], j[row - 1])
            else:
                for s, t in updates(n, size, kind, j):
                    if w[0] and numbers[t][0]:
                        numbers[s] = dyadic_add(numbers[s], dyadic_multiply(w, numbers[t]))
        return numbers

    def scale(self):
        total = (1, 0)
        for kind, j, w in self.letters:
            if kind == "D" and w:
                for entry in j:
                    total = dyadic_multiply(total, entry)
        return total


def singular(source, rows, columns):
    """Whether the chosen rows and columns have determinant zero, exactly."""
    return ExactWalker(word(source), source.n).minor(rows, columns)[0] == 0


def exact_parts(kind, sources, *given):
    """The exact run as pairs of whole numbers times powers of two, above and below the line, row by row."""
    n = sources[0].n
    walker = ExactWalker(operation_word(kind, sources), n)
    scale = walker.scale()

    zero = ((0, 0), (1, 0))

    def minor(r, c):
        found = walker.minor(r, c)
        return (found, scale if r else (1, 0)) if found[0] else zero

    quotients = Arithmetic(
        zero, None, None,
        lambda a, b: (dyadic_multiply(a[0], b[0]), dyadic_multiply(a[1], b[1])),
        lambda a, b: (dyadic_multiply(a[0], b[1]), dyadic_multiply(a[1], b[0])))
    return factors_by(minor, quotients, *chosen_rows(kind, n, *given))


def units(number, parts):
    """How far a rounded number is from the exact quotient, in unit roundings, signed."""
    above = dyadic_multiply(number, parts[1])
    below = parts[0]
    difference, e = dyadic_add(above, (-below[0], below[1]))
    shift = e - below[1] + 96
    whole = (difference << shift) // below[0] if shift >= 0 else difference // (below[0] << -shift)
    return math.log1p(whole / 2.0 ** 96) / UNIT


def within(number, exact, k):
    """Whether a number and a fraction have a ratio from (1 - 2^-32)^k to its reciprocal, by whole numbers."""
    small, one = (2 ** 32 - 1) ** k, 2 ** (32 * k)
    x = value(number)
    left, right = x.numerator * exact.denominator, exact.numerator * x.denominator
    return left * one >= right * small and right * one >= left * small


def largest_units(kind, sources, result, *given):
    """The largest of the nonzero factors; a zero on one side alone is endlessly far."""
    pairs = list(zip(result.factors, exact_parts(kind, sources, *given)))
    if any((number[0] == 0) != (parts[0][0] == 0) for number, parts in pairs):
        return math.inf
    return max(abs(units(number, parts)) for number, parts in pairs if number[0])
