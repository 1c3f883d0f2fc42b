"""Checks of the rule for banded places, document 02, (e): factors found by hand, the sets R, every pattern of up to four rows, random ones up to eight, the old
results, uniqueness, singular choices, carried lists, and wrong readings that the sources drawn tell apart."""
from fractions import Fraction
from itertools import product

import words
from banded import SHAPES, any_lines, any_sets, banded, few_zeros, leaping, lengths
from banded_sweeps import mild
from check_random import determinant, neville
from checks import check, same
from exact import entries_of, exact_run, largest_units, matrix_product, multiply_out, requested, singular, within
from number import ITEM_ZERO, LOW, ONE, ZERO, round_fraction, value
from patterns import every_shape, kept, masked, reached, shape
from sources import KINDS
from words import (ROUNDED, Matrix, Walker, bit, bound, carry, chosen, count, factors_by, interval, latest, minor, operate, operation_word, quotient, reversals,
                   rows_of, sets_before, transpose, word)

ONE_SOURCE = ("inverse", "converse")


def fractions_matrix(text):
    """A matrix of factors as written, row by row."""
    numbers = [round_fraction(Fraction(x)) for x in text.split()]
    return Matrix(int(len(numbers) ** 0.5), tuple(numbers))


# Two diagonals: b(3,1) is zero, and the rows are 1 0 0, 1 1 0, 0 1 1. Its square has the rows 1 0 0, 2 1 0, 1 2 1.
TWO_DIAGONALS = fractions_matrix("1 0 0  1 1 0  0 1 1")
# The rows 1 0 0 0, 1 1 0 0, 1 1 1 0, 1 1 2 1: rows 2 and 3 agree in columns 1 and 2.
LEAPING = fractions_matrix("1 0 0 0  1 1 0 0  1 0 1 0  1 0 1 1")
# Found by hand: kind, sources, sets, and the new factors. The square's second stage has 3/2 over 1, its first 1/2.
BY_HAND = (
    ("product", [TWO_DIAGONALS, TWO_DIAGONALS], [], "1 0 0  2 1 0  1/2 3/2 1"),
    ("product", [TWO_DIAGONALS, transpose(TWO_DIAGONALS)], [], "1 1 0  1 1 1  0 1 1"),
    ("inverse", [TWO_DIAGONALS], [], "1 0 0  1 1 0  1 0 1"),
    ("converse", [TWO_DIAGONALS], [], "1 1 0  0 1 1  0 0 1"),
    ("submatrix", [TWO_DIAGONALS], [0b110, 0b011], "1 1  0 1"),
    ("submatrix", [LEAPING], [0b1111, 0b1111], "1 0 0 0  1 1 0 0  1 0 1 0  1 0 1 1"),
    ("submatrix", [LEAPING], [0b1010, 0b0011], None),
    # The rows 1 0 0, 1 1 1, 1 1 2.
    ("submatrix", [LEAPING], [0b1101, 0b0111], "1 0 0  1 1 1  1 0 1"),
)


@check
def banded_by_hand(rng, rounds):
    """The rows, by the rounded rule and by the exact run; nothing of them needs rounding."""
    for kind, sources, sets, wanted in BY_HAND:
        if wanted is None:
            assert singular(sources[0], *sets)
            continue
        same((kind, operate(kind, sources, *sets)), (kind, fractions_matrix(wanted)))
        same(list(exact_run(kind, sources, *sets)), [Fraction(x) for x in wanted.split()])


def sets_of_rule(kind, sources):
    """The set R of each (i, j) below the diagonal and on it, as masks."""
    n = sources[0].n
    walker = Walker(operation_word(kind, sources), n)
    places = range(1, n + 1)
    return {(i, j): latest(walker.minor, ZERO, i, j) for i in places for j in range(1, i + 1)}


@check
def sets_found(rng, rounds):
    """R where it leaps, where all is positive, and in general: largest rows first is the largest mask, and in each of its rows R is the latest of all."""
    found = sets_of_rule("submatrix", [LEAPING])
    same([rows_of(found[place]) for place in ((3, 3), (4, 2), (4, 3), (2, 1), (4, 4))], [[1, 2], [3], [1, 3], [], [1, 2, 3]])
    for n in range(1, 7):
        for (i, j), r in sets_of_rule("product", [mild(rng, n), mild(rng, n)]).items():
            same(r, interval(i - j + 1, i - 1))
    for i, size in product(range(1, 9), range(8)):
        same(sets_before(i, size), sorted((s for s in range(1 << (i - 1)) if count(s) == size), reverse=True))
    for _ in range(rounds // 8):
        n = rng.randint(2, 5)
        sources = [banded(rng, n, numbers=mild) for _ in range(2)]
        letters = operation_word("product", sources)
        for (i, j), r in sets_of_rule("product", sources).items():
            fitting = [s for s in reached(letters, n, interval(1, j - 1)) if s < bit(i)]
            same(r, max(fitting))
            assert all(x <= y for s in fitting for x, y in zip(rows_of(s), rows_of(r))), (sources, i, j)


def faults(kind, sources, *sets):
    """What a result does not keep of all that is promised."""
    rounded, exact, wanted = operate(kind, sources, *sets), exact_run(kind, sources, *sets), requested(kind, sources, *sets)
    facts = {
        "zeros": [x == ZERO for x in rounded.factors] == [x == 0 for x in exact],
        "pattern": kept(rounded.n, rounded.factors),
        "sign": all(x >= 0 for x in exact),
        "bound": all(within(x, y, bound(kind, sources[0].n)) for x, y in zip(rounded.factors, exact)),
        "matrix": multiply_out(rounded.n, exact) == wanted,
        "only": neville(wanted) == list(exact),
    }
    return [name for name, true in facts.items() if not true]


def held(kind, sources, *sets):
    same((kind, sources, sets, faults(kind, sources, *sets)), (kind, sources, sets, []))


@check
def every_pattern_multiplied(rng, rounds):
    """All patterns of up to three rows, each times each."""
    for n in (1, 2, 3):
        for left, right in product(every_shape(n), repeat=2):
            held("product", [masked(mild(rng, n), left), masked(mild(rng, n), right)])


@check
def every_pattern_alone(rng, rounds):
    """All patterns of up to four rows: inverse, converse, transpose; of up to three rows every submatrix, of four some."""
    for n in (1, 2, 3, 4):
        choices = [(r, c) for r, c in product(range(1, 1 << n), repeat=2) if count(r) == count(c)]
        for nonzero in every_shape(n):
            source = masked(mild(rng, n), nonzero)
            for kind in ONE_SOURCE:
                held(kind, [source])
            for r, c in choices if n < 4 else [(15, 15), rng.choice(choices)]:
                if not singular(source, r, c):
                    held("submatrix", [source], r, c)
            assert kept(n, transpose(source).factors)
            same(entries_of(transpose(source)), [list(row) for row in zip(*entries_of(source))])


@check
def banded_results(rng, rounds):
    """Random ones of up to eight rows, exponents at their ends among them; results taken as sources again."""
    kinds = ("product", "inverse", "converse", "submatrix")
    for _ in range(rounds // 10):
        n = rng.choices(range(2, 9), (4, 6, 8, 8, 3, 1, 1))[0]
        sources = [banded(rng, n, numbers=rng.choice((mild, *(KINDS if n < 7 else [mild])))) for _ in range(2)]
        kind = rng.choice(kinds)
        sets = any_sets(rng, sources[0]) if kind == "submatrix" else []
        if not sets or not singular(sources[0], *sets):
            held(kind, sources, *sets)
            assert largest_units(kind, sources, operate(kind, sources, *sets), *sets) <= bound(kind, n)
            if n < 6 and rng.random() < 0.3:
                again = operate(kind, sources, *sets)
                held("product", [again, again])


def interval_factors(kind, sources, rows=None, columns=None):
    """Document 01's formulas as they stand, for sources without zeros."""
    n = sources[0].n
    walker = Walker(operation_word(kind, sources), n)
    rows, columns = (rows_of(rows), rows_of(columns)) if rows else (rows_of(interval(1, n)),) * 2

    def number(r, c):
        return walker.minor(chosen(r, rows), chosen(c, columns))

    def factor(i, j):
        if i == j:
            return words.divide(number(interval(1, i), interval(1, i)), number(interval(1, i - 1), interval(1, i - 1)))
        a, b = max(i, j), min(i, j)
        lines = (((a - b + 1, a, 1, b), (a - b, a - 2, 1, b - 1)), ((a - b + 1, a - 1, 1, b - 1), (a - b, a - 1, 1, b)))
        pairs = [[(interval(*x[:2]), interval(*x[2:])) for x in line] for line in lines]
        parts = [[number(*(sets if i > j else sets[::-1])) for sets in line] for line in pairs]
        return words.divide(*(words.multiply(*line) for line in parts))

    places = range(1, len(rows) + 1)
    return tuple(factor(i, j) for i in places for j in places)


@check
def old_results(rng, rounds):
    """Without zeros the rule gives document 01's bits, whatever the exponents."""
    for _ in range(rounds // 4):
        n = rng.choices(range(1, 9), (2, 4, 6, 6, 4, 2, 1, 1))[0]
        sources = [rng.choice(KINDS)(rng, n) for _ in range(2)]
        for kind in ("product", "inverse", "converse", "submatrix"):
            sets = any_sets(rng, sources[0]) if kind == "submatrix" else []
            same((kind, sources, sets, operate(kind, sources, *sets).factors), (kind, sources, sets, interval_factors(kind, sources, *sets)))


@check
def banded_only(rng, rounds):
    """Of all factors, positive or zero, that keep the pattern, elimination finds those that a matrix was multiplied out from."""
    for n in (1, 2, 3, 4):
        for nonzero in every_shape(n):
            fractions = [Fraction(rng.randint(1, 9), rng.randint(1, 9)) if there else Fraction(0) for there in nonzero]
            same(neville(multiply_out(n, fractions)), fractions)
    for _ in range(rounds // 10):
        n = rng.randint(5, 7)
        fractions = [Fraction(rng.randint(1, 9), rng.randint(1, 9)) if there else Fraction(0) for there in shape(n, lengths(rng, n), lengths(rng, n))]
        same(neville(multiply_out(n, fractions)), fractions)


@check
def banded_minors(rng, rounds):
    """Zero is told alike by the rounded rule, exact numbers, the letters' zeros and the determinant of the entries; others lie within the roundings."""
    for _ in range(rounds // 4):
        n = rng.randint(1, 5)
        source = banded(rng, n, numbers=rng.choice(KINDS))
        rows, columns = any_sets(rng, source)
        entries = entries_of(source)
        exact = determinant([[entries[i - 1][j - 1] for j in rows_of(columns)] for i in rows_of(rows)])
        found = minor(source, rows, columns)
        same([found == ZERO, singular(source, rows, columns), rows not in reached(word(source), n, columns)], [exact == 0] * 3)
        assert within(found, exact, 2 * n * n - n)


@check
def banded_carries(rng, rounds):
    """Lists through banded places: powers of two exactly, no reversal more, and zero has one form."""
    for _ in range(rounds):
        n = rng.randint(1, 6)
        source = banded(rng, n, numbers=lambda rng, n: Matrix(n, tuple((LOW, rng.randint(-32, -30)) for _ in range(n * n))))
        items = [rng.choice((ITEM_ZERO, (1, LOW, rng.randint(-32, -30)), (-1, LOW, rng.randint(-32, -30)))) for _ in range(n)]
        carried = carry(source, items)
        assert reversals(carried) <= reversals(items) and all(item[0] or item == ITEM_ZERO for item in carried), (source, items)
        assert all(item[1] or item == ITEM_ZERO for item in carried), (source, items)
        if n < 4:
            wanted = matrix_product(entries_of(source), [[x[0] * value(x[1:])] for x in items])
            same([x[0] * value(x[1:]) for x in carried], [exact for [exact] in wanted])
    diagonal = Matrix(3, (ONE, ZERO, ZERO, ZERO, ONE, ZERO, ZERO, ZERO, ONE))
    same(carry(diagonal, [(1,) + ONE, ITEM_ZERO, (-1,) + ONE]), [(1,) + ONE, ITEM_ZERO, (-1,) + ONE])


def by_sets(choose):
    """The rule with other sets R: choose(minor, i, j) gives both."""
    def side(minor, worked, arithmetic, i, j):
        above, below = quotient(i, j, *choose(minor, i, j))
        numbers = [[worked(*sets) for sets in line] for line in (above, below)]
        if numbers[0][0] == ZERO or ZERO in numbers[1]:
            return ZERO
        return arithmetic.divide(*(arithmetic.multiply(*line) for line in numbers))
    return side


def earliest(minor, i, j):
    return next(s for s in sets_before(i, j - 1)[::-1] if minor(s, interval(1, j - 1)) != ZERO)


def moved_down(r):
    """Each row replaced by the one before it, as in document 01's intervals."""
    return r >> 1 if not r & 1 else r


WRONG = {
    "intervals": by_sets(lambda minor, i, j: (interval(i - j + 1, i - 1), interval(i - j, i - 2))),
    "earliest": by_sets(lambda minor, i, j: (earliest(minor, i, j), earliest(minor, i - 1, j))),
    "moved": by_sets(lambda minor, i, j: (latest(minor, ZERO, i, j), moved_down(latest(minor, ZERO, i, j)))),
    "leading": by_sets(lambda minor, i, j: (interval(1, j - 1), interval(1, j - 1))),
}


@check
def wrong_sets(rng, rounds):
    """Wrong sets R give other factors for the sources that are drawn."""
    right = words.side_factor
    for name, version in WRONG.items():
        differing = 0
        for _ in range(40):
            sources = [banded(rng, 4, rng.choice((any_lines, leaping)), mild) for _ in range(2)]
            walker = Walker(operation_word("product", sources), 4)
            wanted = factors_by(walker.minor, ROUNDED, range(1, 5), range(1, 5))
            words.side_factor = version
            try:
                differing += factors_by(walker.minor, ROUNDED, range(1, 5), range(1, 5)) != wanted
            finally:
                words.side_factor = right
        assert differing > 3, (name, differing)


@check
def shapes_drawn(rng, rounds):
    """Each way to draw zeros keeps the pattern; those for zeros have some, those that leap do."""
    for drawn in dict.fromkeys(SHAPES):
        for n in (*range(2, 9), 4, 5):
            source = banded(rng, n, drawn, mild)
            assert kept(n, source.factors), (drawn, source)
            assert drawn is not few_zeros or ZERO in source.factors
    found = sets_of_rule("submatrix", [banded(rng, 5, leaping, mild)])
    assert any(r != interval(i - j + 1, i - 1) for (i, j), r in found.items())
