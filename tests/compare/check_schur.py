"""Checks of what remains after clamped points, document 02, (l): results found by hand, the blocks' arithmetic and
elimination in fractions, joined minors, words without their first letters, the sets R, every pattern of up to four
rows, errors within the bound, steps."""
from collections import Counter
from fractions import Fraction
from functools import reduce
from itertools import combinations, product
from math import comb

from banded import banded
from banded_sweeps import mild
from check_banded import LEAPING, TWO_DIAGONALS, fractions_matrix, held
from check_forecasts import steps_afresh
from check_random import determinant
from checks import check, same
from encoding import encode
from exact import (entries_of, exact_run, in_fractions, inverse, largest_units, letter_matrix, matrix_product,
                   multiply_out, requested)
from model import Shelf, in_range
from number import HIGH, LOW, ZERO, round_fraction, stored
from patterns import every_shape, masked
from schur_sweeps import leaping_source, ones
from sources import EDGE, KINDS, near_edge
from stamps import built
from words import Matrix, Walker, bound, chosen, chosen_rows, foretold, interval, latest, operate, operate_counted, word

STAMPED = built((1, 3, 7))
# Found by hand: source, k, the rows that remain, their factors, steps. Of two rows the factors are a, b/a, c/a and
# the determinant over a.
BY_HAND = (
    # The rows 2 6, 10 37: 37 - 10 * 6 / 2. A minor of one row takes a step of E_2 and one of Et_2, of two rows none.
    (fractions_matrix("2 3  5 7"), 1, "7", "7", 2),
    # The rows 1 1 1, 1 2 3, 1 3 6: less 1 1, 1 1 there remain 1 2, 2 5. Minors of one row or two take six steps each,
    # that of three none: b(1,1) has M(12) over M(1), both sides two of each, b(2,2) M(123) over M(12): 11 of them.
    (ones(3), 1, "1 2  2 5", "1 2  2 1", 66),
    # 1 3 times the inverse 2 -1, -1 1 is -1 2, times 1 3 is 5: 6 - 5. M(123) takes no steps, M(12) takes six.
    (ones(3), 2, "1", "1", 6),
    # The rows 1 1 1, 1 3 9, 1 7 49: less 1 1, 1 1 there remain 2 8, 6 48; then 48 - 6 * 8 / 2.
    (STAMPED, 1, "2 8  6 48", "2 4  3 24", 66), (STAMPED, 2, "24", "24", 6),
    # The rows 1 1 1 1, 1 2 3 4, 1 3 6 10, 1 4 10 20. Row three less 3/2 of row two is 0 3/2 11/2, row two less twice
    # the first 0 1 3, the rest 0 0 1. Twelve letters: minors of one row and of three take 12, of two 24. Diagonal:
    # M(12) over M(1), M(123) over M(12), M(1234) over M(123), 84; b(2,1), b(3,1): M(12) twice and M(1) twice, 72 each;
    # b(3,2): M(123) and M(12) twice each, 72; twice for both sides.
    (ones(4), 1, "1 2 3  2 5 9  3 9 19", "1 2 3/2  2 1 3/2  3/2 3/2 1", 84 + 6 * 72),
    # Of 1 2 3, 2 5 9, 3 9 19 less the first: 1 3, 3 10; then 10 - 9. M(123) over M(12) and M(1234) over M(123), 48;
    # each side M(123) and M(12) twice each, 72.
    (ones(4), 2, "1 3  3 10", "1 3  3 1", 48 + 2 * 72), (ones(4), 3, "1", "1", 12),
    # Where nothing stands right of the clamped points nothing is taken away, and what remains is the block.
    (TWO_DIAGONALS, 1, "1 0  1 1", "1 0  1 1", 66), (LEAPING, 1, "1 0 0  1 1 0  1 2 1", "1 0 0  1 1 0  1 1 1", 516),
    # Five letters of E: the rows 1 0 0 0 0, 1 1 0 0 0, 1 1 1 0 0, 1 1 1 1 0, 1 1 1 2 1. Rows two and three of the rest
    # agree in its columns 1 and 2, so that R leaves row two out.
    (fractions_matrix("1 0 0 0 0  1 1 0 0 0  1 0 1 0 0  1 0 0 1 0  1 0 0 1 1"), 1,
     "1 0 0 0  1 1 0 0  1 1 1 0  1 1 2 1", "1 0 0 0  1 1 0 0  1 0 1 0  1 0 1 1", None),
)


@check
def schurs_by_hand(rng, rounds):
    """The rows, by the blocks, by the exact run, and by the rounded rule, which rounds nothing here."""
    for source, k, rows, factors, steps in BY_HAND:
        wanted = [Fraction(x) for x in factors.split()]
        same((k, sum(requested("schur", [source], k), [])), (k, [Fraction(x) for x in rows.split()]))
        same((k, list(exact_run("schur", [source], k))), (k, wanted))
        shelf = Shelf()
        shelf.load(3, encode(source))
        told = shelf.forecast("schur", 3, k)
        same((k, shelf.schur(3, k, 6)), (k, (bound("inverse", source.n), told)))
        same((k, shelf.places[6]), (k, Matrix(source.n - k, tuple(map(round_fraction, wanted)))))
        assert steps in (None, told), (source, k, told)
    same([bound("schur", n) for n in range(2, 9)], [27, 63, 115, 183, 267, 367, 483])
    # Of two rows b(2,2) is multiplied by b(1,1), rounded and divided by it, rounded. 3 * 2^30 times 2^32 - 1 has, over
    # 2^32, a mantissa of 3 * 2^30 - 3/4, to 3 * 2^30 - 1, and 2^32 times that over 3 * 2^30 is 2^32 - 4/3: as before.
    # But 2^31 + 1 times 2^32 - 1 has one of 2^31 and not quite 1/2, to 2^31, and 2^63 over 2^31 + 1 is 2^32 - 2 and a
    # little.
    for first, new in ((3 << 30, HIGH - 1), (LOW + 1, HIGH - 2)):
        same(operate("schur", [ones(2, b11=(first, -31), b22=(HIGH - 1, 0))], 1).factors, ((new, 0),))


def eliminated(entries, k):
    """What Gauss's elimination of the first k columns leaves."""
    rows = [list(row) for row in entries]
    for j in range(k):
        for i in range(j + 1, len(rows)):
            share = rows[i][j] / rows[j][j]
            rows[i] = [x - share * y for x, y in zip(rows[i], rows[j])]
    return [row[k:] for row in rows[k:]]


def shortened(source, k):
    """The letters that remain without E_j and Et_j up to j = k + 1, moved up, and the end of D."""
    for kind, j, w in in_fractions(word(source)):
        if kind == "D":
            yield kind, j[k:], w
        elif j > k + 1:
            yield kind, j - k, w


@check
def complements(rng, rounds):
    """The blocks' arithmetic is elimination, the inverse of the inverse's lower right block, and the shortened word;
    clamped twice is clamped at once."""
    for _ in range(rounds // 8):
        n = rng.randint(2, 6)
        k, source = rng.randint(1, n - 1), rng.choice((banded, mild))(rng, n)
        entries, wanted = entries_of(source), requested("schur", [source], k)
        same(eliminated(entries, k), wanted)
        same([row[k:] for row in inverse(entries)[k:]], inverse(wanted))
        same(reduce(matrix_product, (letter_matrix(letter, n - k) for letter in shortened(source, k))), wanted)
        for first in range(1, k):
            same(eliminated(requested("schur", [source], first), k - first), wanted)


def minor_of(entries, rows, columns):
    return determinant([[entries[i][j] for j in columns] for i in rows])


@check
def joined_minors(rng, rounds):
    """All minors of what remains, the empty one too, are those of the source with 1..k joined, over the one of 1..k."""
    for _ in range(rounds // 10):
        n = rng.randint(2, 5)
        k, source = rng.randint(1, n - 1), rng.choice((banded, mild))(rng, n)
        whole, lead = entries_of(source), tuple(range(k))
        left = multiply_out(n - k, exact_run("schur", [source], k))
        for size in range(n - k + 1):
            for rows, columns in product(combinations(range(n - k), size), repeat=2):
                joined = minor_of(whole, *(lead + tuple(k + x for x in chosen) for chosen in (rows, columns)))
                same(minor_of(left, rows, columns), joined / minor_of(whole, lead, lead))


def sets_searched(source, k, joined):
    """The sets R of all places on both sides, by minors that `joined` is added to."""
    rows, columns, _ = chosen_rows("schur", source.n, k)
    walker, places = Walker(word(source), source.n), range(1, source.n - k + 1)

    def below(r, c):
        return walker.minor(joined | chosen(r, rows), joined | chosen(c, columns))

    minors = (below, lambda r, c: below(c, r))
    return [latest(minor, ZERO, i, j) for minor in minors for i in places for j in places[:i]]


@check
def sets_alike(rng, rounds):
    """The sets R are those of the lower right block alone, without 1..k: of nonintersecting paths from rows of it to
    its first columns or before, each can end at its own of these columns. That reading cannot be told from the right
    one."""
    sources = [masked(mild(rng, n), nonzero) for n in (2, 3, 4) for nonzero in every_shape(n)]
    sources += [banded(rng, rng.randint(5, 7), numbers=mild) for _ in range(rounds // 4)]
    for source in (leaping_source(rng), *sources):
        for k in range(1, source.n):
            same((source, k, sets_searched(source, k, interval(1, k))), (source, k, sets_searched(source, k, 0)))
    # Of the four that remain row 4 has R = {1, 3} for two columns, as row 2 depends on row 3 there; row 3 has {1, 2}.
    found = sets_searched(leaping_source(rng), 1, 1)
    same([found[6 + 2], found[3 + 2]], [0b101, 0b011])


@check
def schurs_exact(rng, rounds):
    """Every pattern of up to four rows, random sources and their results: the exact run multiplies out to the
    complement, elimination finds no other factors; zeros, pattern and bound of the rounded result."""
    for n in (2, 3, 4):
        for nonzero, k in product(every_shape(n), range(1, n)):
            held("schur", [masked(mild(rng, n), nonzero)], k)
    held("schur", [leaping_source(rng)], 1)
    for _ in range(rounds // 10):
        n = rng.choice((2, 3, 4, 5, 6))
        k, source = rng.randint(1, n - 1), rng.choice((banded, mild, rng.choice(KINDS)))(rng, n)
        held("schur", [source], k)
        again = operate("schur", [source], k)
        if 1 < again.n < 5:
            held("schur", [again], rng.randint(1, again.n - 1))
            held("product", [again, again])


@check
def schurs_within(rng, rounds):
    """Every size lies within the bound, wide exponents among them, and errors are seen at all."""
    seen = Counter()
    for n in range(2, 9):
        for k, _ in product(range(1, n), range(max(1, rounds // (20 if n < 4 else 100)))):
            source = rng.choice((banded, mild, rng.choice(KINDS)))(rng, n)
            error = largest_units("schur", [source], operate("schur", [source], k), k)
            assert error <= bound("schur", n), (source, k, error)
            seen[n] += error > 0.4
    # Of two rows few are seen: there are two roundings, which mostly undo each other.
    assert all(seen[n] for n in range(3, 9)), seen


@check
def diagonals_kept(rng, rounds):
    """The new diagonal is never out of range, as each entry is multiplied in and divided out again: k = n - 1 is never
    14."""
    moved = 0
    for _ in range(rounds):
        n = rng.randint(2, 4)
        source = Matrix(n, tuple(rng.choice((near_edge(rng), (rng.choice((LOW, HIGH - 1)), rng.choice((-EDGE, EDGE)))))
                                 for _ in range(n * n)))
        for k in range(1, n):
            result = operate("schur", [source], k)
            assert all(map(stored, result.factors[::n - k + 1])), (source, k)
            moved += result.factors[-1] != source.factors[-1]
        assert in_range(result)
    assert moved


def steps_by_sizes(n, k):
    """A minor of s rows takes one step for each of the n (n - 1) letters and each set of s - 1 of the other rows."""
    def minor(s):
        return n * (n - 1) * comb(n - 2, s - 1)

    places = list(product(range(1, n - k + 1), repeat=2))
    sides = sum(2 * minor(k + min(i, j)) + 2 * minor(k + min(i, j) - 1) for i, j in places if i != j)
    return sides + sum(minor(k + i) + minor(k + i - 1) for i in range(1, n - k + 1))


@check
def schur_efforts(rng, rounds):
    """Steps: by the sizes of the minors, M(1..k) among them; counted again without memory; made as foretold."""
    for n in range(2, 9):
        for k in range(1, n):
            same((n, k, foretold("schur", n, k)), (n, k, steps_by_sizes(n, k)))
        # All but the last clamped is M(1..n), which takes none, over the minor of n - 1 rows.
        same(foretold("schur", n, n - 1), n * (n - 1))
        # Their sum is another for each k, and less than of all rows.
        same(len({foretold("schur", n, k) for k in range(1, n)} | {foretold("inverse", n, n)}), n)
    for _ in range(rounds // 8):
        n = rng.randint(2, 5)
        k, source = rng.randint(1, n - 1), rng.choice((banded, mild, rng.choice(KINDS)))(rng, n)
        made = operate_counted("schur", [source], k)[1]
        same((source, k, made), (source, k, foretold("schur", n, k)))
        same((source, k, made), (source, k, steps_afresh("schur", [source], *chosen_rows("schur", n, k))))
