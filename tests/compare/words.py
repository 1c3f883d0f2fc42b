"""The matrix, its word of letters, and the rounded rule.

Matrix: n and its n * n factors, row by row. A letter is ("E", j, w), ("Et", j, w), or ("D", entries, divides), the
entries of the positions 1 to n. word, inverse_word, converse_word, transpose_word; operation_word: what an operation walks, the kind
of a recipe of document 02, (f), being the tuple of its steps' ways. chosen_rows: the rows and columns that its sets count among, and
what is joined to both, of a Schur complement of document 02, (l). factors_by: the new factors from minors, in any arithmetic;
latest, quotient: the set R of document 02, (e), and the minors that a new factor is made of. Walker: minors of a word by the
rounded rule, one walk for each column set, and the steps of document 02, (k). plain_walk, plain_minor: the same rule said letter by
letter for any arithmetic. operate_counted: the new factors with the steps that they took; foretold: the steps by the sizes alone.
Row sets are masks, bit 0 for row 1.
"""
from collections import namedtuple
from functools import lru_cache
from itertools import combinations

from number import ITEM_ZERO, ONE, ZERO, add, divide, multiply, signed_add, signed_multiply

Matrix = namedtuple("Matrix", "n factors")
Arithmetic = namedtuple("Arithmetic", "zero one add multiply divide")
ROUNDED = Arithmetic(ZERO, ONE, add, multiply, divide)


def factor(matrix, i, j):
    return matrix.factors[(i - 1) * matrix.n + j - 1]


def bit(row):
    return 1 << (row - 1)


def rows_of(mask):
    """The rows of a set, ascending."""
    return [row for row in range(1, mask.bit_length() + 1) if mask >> (row - 1) & 1]


def count(mask):
    return mask.bit_count()


def interval(a, b):
    """The set a..b, empty if b < a."""
    return sum(bit(row) for row in range(a, b + 1))


# The position of each mask among the masks with equally many rows, smallest first, from 0.
POSITION = [sum(count(other) == count(mask) for other in range(mask)) for mask in range(256)]


def word(matrix):
    """The letters, left to right."""
    n = matrix.n
    lower = [("E", j, factor(matrix, j, i + j - n)) for i in range(1, n) for j in range(n - i + 1, n + 1)]
    upper = [("Et", j, factor(matrix, i + j - n, j)) for i in range(n - 1, 0, -1) for j in range(n, n - i, -1)]
    return lower + [("D", tuple(factor(matrix, i, i) for i in range(1, n + 1)), False)] + upper


def inverse_word(matrix):
    """The word reversed, letters kept, D dividing."""
    return [("D", x[1], True) if x[0] == "D" else x for x in reversed(word(matrix))]


def converse_word(matrix):
    """Each E_j an Et_(n+2-j), each Et_j an E_(n+2-j), D read backwards, order kept."""
    n = matrix.n
    letters = []
    for kind, j, w in word(matrix):
        if kind == "D":
            letters.append(("D", j[::-1], w))
        else:
            letters.append(("Et" if kind == "E" else "E", n + 2 - j, w))
    return letters


def transpose_word(matrix):
    """The word reversed, E and Et exchanged."""
    return [x if x[0] == "D" else ("Et" if x[0] == "E" else "E", *x[1:]) for x in reversed(word(matrix))]


# The ways that a step of a recipe is taken.
WAYS = {"plain": word, "inverse": inverse_word, "converse": converse_word, "transpose": transpose_word}


def operation_word(kind, sources):
    """The word that an operation walks."""
    if isinstance(kind, tuple):
        return [letter for way, source in zip(kind, sources) for letter in WAYS[way](source)]
    if kind == "product":
        return word(sources[0]) + word(sources[1])
    return {"inverse": inverse_word, "converse": converse_word, "submatrix": word, "schur": word}[kind](sources[0])


@lru_cache(None)
def sets_before(i, size):
    """The sets of `size` rows, all before i, the latest first: largest rows are compared first."""
    return sorted((s for s in range(1 << (i - 1)) if count(s) == size), key=lambda s: rows_of(s)[::-1], reverse=True)


def latest(minor, zero, i, j):
    """Document 02, (e): R, the latest set of j - 1 rows, all before i, whose minor with columns 1..j-1 is not zero."""
    return next(s for s in sets_before(i, j - 1) if minor(s, interval(1, j - 1)) != zero)


def quotient(i, j, here, before):
    """The minors above and below the line in the new factor (i, j), i > j, as pairs of a row set and a column set: v(i, j) / v(i-1, j) with `here` for the
    set R of row i and `before` for that of row i - 1."""
    full, less = interval(1, j), interval(1, j - 1)
    return [(here | bit(i), full), (before, less)], [(here, less), (before | bit(i - 1), full)]


def side_factor(minor, worked, arithmetic, i, j):
    """The new factor (i, j) below the diagonal: `minor` finds the sets R, `worked` gives the minors of the quotient, all four of them for a zero factor too.
    The first is tested before anything is divided: v(i-1, j) may be zero with v(i, j)."""
    lines = quotient(i, j, latest(minor, arithmetic.zero, i, j), latest(minor, arithmetic.zero, i - 1, j))
    above, below = [[worked(*sets) for sets in line] for line in lines]
    if above[0] == arithmetic.zero:
        return arithmetic.zero
    return arithmetic.divide(arithmetic.multiply(*above), arithmetic.multiply(*below))


def chosen(mask, rows):
    """The members of `rows` whose places, from 1, are in mask."""
    return sum(bit(rows[place - 1]) for place in rows_of(mask))


def chosen_rows(kind, n, *given):
    """The rows and the columns that the sets of an operation on n rows count among, and the set that is joined to both: of a submatrix the given ones and none,
    of a Schur complement those behind the given k and 1..k, else all of them and none."""
    if kind == "submatrix":
        return *map(rows_of, given), 0
    k = given[0] if kind == "schur" else 0
    return *[rows_of(interval(k + 1, n))] * 2, interval(1, k)


def factors_by(minor, arithmetic, rows, columns, joined=0, worked=None):
    """The new factors, row by row, with the sets of the formulas counted among the chosen rows and columns, and `joined` added to each, the empty one too.
    The minors of the quotients are taken from `worked`, where it is given, and all others from `minor`."""
    def plain(work):
        return lambda r, c: work(joined | chosen(r, rows), joined | chosen(c, columns))

    def exchanged(work):
        """For the factors above the diagonal: the same minors, rows and columns exchanged."""
        turned = plain(work)
        return lambda c, r: turned(r, c)

    works = minor, worked or minor
    below, above = [plain(work) for work in works], [exchanged(work) for work in works]

    def new_factor(i, j):
        if i == j:
            return arithmetic.divide(*(below[1](interval(1, k), interval(1, k)) for k in (i, i - 1)))
        return side_factor(*below, arithmetic, i, j) if i > j else side_factor(*above, arithmetic, j, i)

    places = range(1, len(rows) + 1)
    return tuple(new_factor(i, j) for i in places for j in places)


@lru_cache(None)
def updates(n, size, kind, j):
    """The sets of `size` rows that a letter changes, each with the set it takes from."""
    here, there = (bit(j), bit(j - 1)) if kind == "E" else (bit(j - 1), bit(j))
    return [(s, s ^ here ^ there) for s in range(1 << n) if count(s) == size and s & here and not s & there]


@lru_cache(None)
def sets(n, size):
    return [(s, rows_of(s)) for s in range(1 << n) if count(s) == size]


class Walker:
    """Minors of a word over n rows by the rounded rule. One walk from a column set gives its minors for all row sets, and the row sets updated on the way are
    counted in it; `steps` adds them up anew for each minor that is worked."""

    def __init__(self, letters, n):
        self.n = n
        self.letters = letters[::-1]
        self.walks = {0: {0: ONE}}
        # The steps of each walk; the empty minor takes none.
        self.efforts = {0: 0}
        self.steps = 0

    def minor(self, rows, columns):
        numbers = self.walks.get(columns)
        if numbers is None:
            numbers = self.walks[columns] = self.walk(columns)
        return numbers[rows]

    def worked(self, rows, columns):
        """A minor whose steps count, as if it were worked afresh."""
        number = self.minor(rows, columns)
        self.steps += self.efforts[columns]
        return number

    def walk(self, columns):
        n, size, steps = self.n, count(columns), 0
        numbers = [ZERO] * (1 << n)
        numbers[columns] = ONE
        for kind, j, w in self.letters:
            if kind == "D":
                step = divide if w else multiply
                for s, rows in sets(n, size):
                    x = numbers[s]
                    if x[0]:
                        for row in rows:
                            x = step(x, j[row - 1])
                        numbers[s] = x
            else:
                for s, t in updates(n, size, kind, j):
                    # The set is updated, a step, whether or not zero is added.
                    steps += 1
                    x = numbers[t]
                    if x[0]:
                        numbers[s] = add(numbers[s], multiply(w, x))
        self.efforts[columns] = steps
        return numbers


def plain_walk(letters, n, columns, arithmetic=ROUNDED):
    """The walk from a column set as document 01 says it, for any arithmetic: a number for each row set. The letters hold that arithmetic's numbers."""
    numbers = {s: arithmetic.zero for s in range(1 << n) if count(s) == count(columns)}
    numbers[columns] = arithmetic.one
    for kind, j, w in reversed(letters):
        for s in sorted(numbers):
            if kind == "E" and s & bit(j) and not s & bit(j - 1):
                term = arithmetic.multiply(w, numbers[s - bit(j) + bit(j - 1)])
                numbers[s] = arithmetic.add(numbers[s], term)
            elif kind == "Et" and s & bit(j - 1) and not s & bit(j):
                term = arithmetic.multiply(w, numbers[s - bit(j - 1) + bit(j)])
                numbers[s] = arithmetic.add(numbers[s], term)
            elif kind == "D":
                for row in rows_of(s):
                    numbers[s] = (arithmetic.divide if w else arithmetic.multiply)(numbers[s], j[row - 1])
    return numbers


def plain_minor(letters, n, rows, columns, arithmetic=ROUNDED):
    return plain_walk(letters, n, columns, arithmetic)[rows]


def minor(matrix, rows, columns):
    return Walker(word(matrix), matrix.n).minor(rows, columns)


def operate_counted(kind, sources, *given):
    """The new factors of a product, inverse, converse, recipe, Schur complement or submatrix that is not singular, by the rounded rule, whatever their
    exponents; and the steps made. Given are the sets of a submatrix, the k of a Schur complement."""
    n = sources[0].n
    rows, columns, joined = chosen_rows(kind, n, *given)
    walker = Walker(operation_word(kind, sources), n)
    return Matrix(len(rows), factors_by(walker.minor, ROUNDED, rows, columns, joined, walker.worked)), walker.steps


def operate(kind, sources, *given):
    return operate_counted(kind, sources, *given)[0]


@lru_cache(None)
def foretold(kind, n, size):
    """The steps of an operation on n rows, `size` of them chosen for a submatrix or clamped for a Schur complement: counted where all factors are one, so that
    no minor is zero. A singular choice has the same number, as the formulas ask for minors of the same sizes."""
    if kind == "transpose":
        return 0
    ones, given = Matrix(n, (ONE,) * (n * n)), (size,) if kind == "schur" else (interval(1, size),) * 2
    return operate_counted(kind, [ones] * (len(kind) if isinstance(kind, tuple) else 2), *given)[1]


def transpose(matrix):
    n = matrix.n
    return Matrix(n, tuple(factor(matrix, j, i) for i in range(1, n + 1) for j in range(1, n + 1)))


def carry(matrix, items):
    """The list of n items taken through the word, right to left."""
    items = [ITEM_ZERO] + list(items)
    for kind, j, w in reversed(word(matrix)):
        if kind == "D":
            items[1:] = [signed_multiply(entry, item) for entry, item in zip(j, items[1:])]
        elif kind == "E":
            items[j] = signed_add(items[j], signed_multiply(w, items[j - 1]))
        else:
            items[j - 1] = signed_add(items[j - 1], signed_multiply(w, items[j]))
    return items[1:]


def reversals(items):
    """Pairs of nonzero items of opposite sign with only zeros between: document 02, (b)."""
    signs = [item[0] for item in items]
    return sum(signs[i] * signs[k] < 0 and not any(signs[i + 1:k]) for i, k in combinations(range(len(signs)), 2))


def bound(kind, n):
    if isinstance(kind, tuple):
        return 4 * len(kind) * (2 * n * n - n) + 3
    if kind == "transpose":
        return 0
    return 16 * n * n - 8 * n + 3 if kind == "product" else 8 * n * n - 4 * n + 3
