"""Checks of effort and bytes foretold, document 02, (k): steps found by hand, counted again without memory, by the sizes alone, made as foretold; lengths
against writes; the order of tests; the lines drawn; the console's lines."""
import random
from itertools import product

from banded import any_sets, banded
from banded_sweeps import mild
from checks import check, refused, same
from comparison import batch
from console_model import BAD_REQUEST, Console, doubtful, parse
from encoding import encode
from exact import singular
from forecast_cases import unforetold
from forecast_lines import ODD_FORECASTS, TOLD, TOO_LARGE, forecast_of, misread, unread
from forecast_sweeps import every_forecast
from model import FORECASTS, ORDER, Shelf
from number import HIGH, LOW, ONE, ZERO
from patterns import every_shape, masked
from requests import Stream, stream
from sources import KINDS
from words import ROUNDED, Matrix, Walker, chosen as members, foretold, interval, latest, operate_counted, operation_word, plain_minor, quotient, rows_of

ONE_SOURCE = ("inverse", "converse", "submatrix")
# Found by hand: kind, rows, chosen rows, steps.
BY_HAND = (
    # One row: no letter of E or Et, and of transposed factors none is worked.
    ("product", 1, 1, 0), ("inverse", 1, 1, 0), ("converse", 1, 1, 0), ("submatrix", 1, 1, 0), ("transpose", 1, 1, 0), ("transpose", 8, 8, 0),
    # Two rows: E_2 updates the set 2, Et_2 the set 1, and neither the set of both. Minors of one row: one in b(1,1), two in b(1,2) and in b(2,1), whose others
    # are empty, one in b(2,2) beside that of both rows; six, with four letters for a product and two for one source.
    ("product", 2, 2, 24), ("inverse", 2, 2, 12), ("converse", 2, 2, 12), ("submatrix", 2, 2, 12),
    # One chosen row is one minor of one row. Of n rows each letter updates one set, and there are (n - 1) n letters.
    ("submatrix", 2, 1, 2), ("submatrix", 3, 1, 6), ("submatrix", 4, 1, 12), ("submatrix", 8, 1, 56),
    # Three rows, six letters: E_2 updates 2 and 23, E_3 updates 3 and 13, alike for Et, so a minor of one row or two takes six, that of three none. Minors:
    # diagonal 1, 2 and 1, 3 and 2; b(2,1) and b(3,1) two of one row each; b(3,2) two of two rows and two of one; the same above. 20 of one row or two.
    ("inverse", 3, 3, 120), ("product", 3, 3, 240),
    # P8: of three rows two chosen. Six minors of one row as in two rows, and one of two rows.
    ("submatrix", 3, 2, 42),
    # Four rows, twelve letters: one of 1 row, two sets of 2 rows, one of 3. Two chosen: six minors of one row, one of two rows: 6 * 12 + 24.
    ("submatrix", 4, 2, 96),
)


@check
def steps_by_hand(rng, rounds):
    """The rows, foretold and made, whatever the factors."""
    for kind, n, size, wanted in BY_HAND:
        same((kind, n, size, foretold(kind, n, size)), (kind, n, size, wanted))
        if kind != "transpose":
            first = interval(1, size)
            same((kind, n, size, operate_counted(kind, [mild(rng, n), mild(rng, n)], first, first)[1]), (kind, n, size, wanted))
    # P8's own rows and columns.
    same(operate_counted("submatrix", [Matrix(3, (ONE,) * 9)], 0b110, 0b011)[1], 42)


def counting():
    """Arithmetic that notes each sum: a letter of E or Et adds once for each set that it updates, D adds nothing."""
    sums = []

    def add(x, y):
        sums.append(1)
        return ROUNDED.add(x, y)

    return ROUNDED._replace(add=add), sums


def quotient_sets(minor, i, j):
    """Row and column sets of all minors in the new factor (i, j), with the sets R that `minor` finds; two on the diagonal."""
    if i == j:
        return [(interval(1, k), interval(1, k)) for k in (i, i - 1)]
    turned = minor if i > j else (lambda r, c: minor(c, r))
    a, b = max(i, j), min(i, j)
    found = sum(quotient(a, b, latest(turned, ZERO, a, b), latest(turned, ZERO, a - 1, b)), [])
    return found if i > j else [pair[::-1] for pair in found]


def steps_afresh(kind, sources, rows, columns, joined=0):
    """The steps with nothing remembered: each minor of each quotient walked letter by letter, with what is joined to its sets."""
    letters, n = operation_word(kind, sources), sources[0].n
    search, (arithmetic, sums) = Walker(letters, n), counting()

    def pair(r, c):
        return joined | members(r, rows), joined | members(c, columns)

    for i, j in product(range(1, len(rows) + 1), repeat=2):
        for r, c in quotient_sets(lambda *sets: search.minor(*pair(*sets)), i, j):
            plain_minor(letters, n, *pair(r, c), arithmetic)
    return len(sums)


@check
def steps_counted_again(rng, rounds):
    """The walks that are remembered count as if each minor were worked afresh; banded sources among them, with two equal minors in a quotient."""
    for _ in range(rounds // 8):
        n = rng.choice((1, 2, 3, 3, 4, 4, 5))
        sources = [rng.choice((banded, mild))(rng, n) for _ in range(2)]
        kind = rng.choice(("product", *ONE_SOURCE))
        sets = any_sets(rng, sources[0]) if kind == "submatrix" else [interval(1, n)] * 2
        if kind != "submatrix" or not singular(sources[0], *sets):
            same((kind, sources, sets, operate_counted(kind, sources, *sets)[1]), (kind, sources, sets, steps_afresh(kind, sources, *map(rows_of, sets))))
    column = Matrix(3, tuple(ZERO if k in (3, 6) else ONE for k in range(9)))
    pairs = quotient_sets(Walker(operation_word("submatrix", [column]), 3).minor, 3, 2)
    same((len(pairs), len(set(pairs))), (4, 3))


@check
def steps_by_sizes(rng, rounds):
    """Every pattern of up to three rows and random sources up to eight, exponents at their ends among them: the steps are those foretold by the sizes."""
    for n in (1, 2, 3):
        for left, right in product(every_shape(n), repeat=2):
            same(operate_counted("product", [masked(mild(rng, n), left), masked(mild(rng, n), right)])[1], foretold("product", n, n))
    for _ in range(rounds // 4):
        n = rng.choices(range(1, 9), (1, 3, 4, 6, 4, 3, 1, 1))[0]
        sources = [rng.choice((banded, rng.choice(KINDS)))(rng, n) for _ in range(2)]
        for kind in ("product", "inverse", "converse"):
            same((kind, sources, operate_counted(kind, sources)[1]), (kind, sources, foretold(kind, n, n)))
        sets = any_sets(rng, sources[0])
        if not singular(sources[0], *sets):
            same((sources[0], sets, operate_counted("submatrix", sources, *sets)[1]), (sources[0], sets, foretold("submatrix", n, sets[0].bit_count())))
    # Steps of a submatrix depend on the source's rows and on the chosen ones; all chosen is one source.
    same([len({foretold("submatrix", n, k) for k in range(1, n + 1)}) for n in range(2, 9)], list(range(2, 9)))
    same([foretold("submatrix", n, n) for n in range(1, 9)], [foretold("inverse", n, n) for n in range(1, 9)])


@check
def made_as_foretold(rng, rounds):
    """Every accepted operation makes the steps that its forecast says just before, and a forecast that is refused stands before a refused operation."""
    session, made = Console(), 0
    for _, line in zip(range(10 * rounds), stream(rng.random(), session.shelf)):
        forecast = forecast_of(line) if parse(line) else None
        before = list(session.shelf.places)
        told = session.answer(forecast) if forecast else None
        assert all(x is y for x, y in zip(before, session.shelf.places))
        answer = session.answer(line)
        if forecast and answer.startswith("bound"):
            same((line, answer.split(" ")[2:]), (line, told.split(" ")))
            made += 1
        elif forecast and told.startswith("refused"):
            # The operation may name another place above 7, its target, or find it full.
            assert answer in (told, "refused 1 at 0", "refused 12 at 0"), (line, told, answer)
    assert made > rounds // 4, made


@check
def lengths_written(rng, rounds):
    """A place is written in just the length told; the shortest, the longest, and ones by hand: one row has 1 byte and its factor, zero has 1."""
    for source, wanted in ((Matrix(1, ((LOW, -1000),)), 3), (Matrix(1, (ONE,)), 4), (Matrix(2, (ONE,) * 4), 13), (Matrix(2, (ONE, ZERO, ZERO, ONE)), 9),
                           (Matrix(8, ((HIGH - 1, 1000),) * 64), 449), (Matrix(8, tuple((LOW, -1000) if k % 9 == 0 else ZERO for k in range(64))), 73)):
        shelf = Shelf()
        shelf.load(5, encode(source))
        same((source, shelf.length(5)), (source, wanted))
    for _ in range(rounds // 2):
        shelf, source = Shelf(), rng.choice((banded, rng.choice(KINDS)))(rng, rng.randint(1, 8))
        shelf.load(2, encode(source))
        length = shelf.length(2)
        same([len(shelf.write(2, length)), refused(shelf.write, 2, length - 1), refused(shelf.length, 1), refused(shelf.length, 8)],
             [length, (10, 0), (11, 0), (1, 0)])


@check
def forecasts_refused(rng, rounds):
    """1, then 11, then 13 or 8; 12, 14 and 17 are never answered, and the order is the operation's."""
    same({call: ORDER[call] for call in FORECASTS}, {"forecast product": (1, 11, 13), "forecast submatrix": (1, 11, 8), "forecast inverse": (1, 11),
                                                     "forecast converse": (1, 11), "forecast transpose": (1, 11), "forecast recipe": (18, 1, 11, 13),
                                                     "forecast schur": (1, 11, 8)})
    shelf = Shelf()
    for place, source in ((0, Matrix(2, (ONE,) * 4)), (1, Matrix(3, (ONE,) * 9)), (2, Matrix(2, ((LOW, 1000),) * 4)), (3, Matrix(2, (ONE, ZERO, ZERO, ONE)))):
        shelf.load(place, encode(source))
    for places, wanted in (((8, 7), 1), ((7, 8), 1), ((0, 8), 1), ((7, 7), 11), ((0, 7), 11), ((7, 1), 11), ((0, 1), 13), ((1, 2), 13), ((8, 2 ** 32 - 1), 1)):
        same((places, refused(shelf.forecast, "product", *places)), (places, (wanted, 0)))
    for place, *sets, wanted in ((8, 0, 0, 1), (7, 0, 0, 11), (7, 1, 3, 11), (0, 0, 0, 8), (0, 1, 3, 8), (0, 4, 1, 8), (0, 1, 4, 8), (1, 8, 1, 8)):
        same((place, sets, refused(shelf.forecast, "submatrix", place, *sets)), (place, sets, (wanted, 0)))
    for kind in ("inverse", "converse", "transpose"):
        same([refused(shelf.forecast, kind, place) for place in (8, 7, 4)], [(1, 0), (11, 0), (11, 0)])
    same([refused(shelf.product, 2, 2, 4), refused(shelf.one_source, "inverse", 2, 4)] + [refused(shelf.submatrix, *x, 4) for x in ((2, 2, 2), (3, 1, 2))],
         [(14, 0)] * 3 + [(17, 0)])
    same([shelf.forecast("product", 2, 2), shelf.forecast("inverse", 2), shelf.forecast("submatrix", 2, 2, 2), shelf.forecast("submatrix", 3, 1, 2)],
         [24, 12, 2, 2])


@check
def forecasts_drawn(rng, rounds):
    """Lines that are no requests are none, and are not left open; the swept ones show every case by themselves."""
    assert not any(map(doubtful, ODD_FORECASTS)) and len(set(ODD_FORECASTS)) == len(ODD_FORECASTS)
    same([line for line in ODD_FORECASTS if parse(line) is not None], [])
    assert all(parse(line) for line in TOLD)
    maker = Stream(random.Random(rng.random()), Console().shelf)
    for _ in range(5 * rounds):
        line = unread(rng)
        assert parse(line) is None and not doubtful(line), line
        assert not any(map(doubtful, misread(maker)))
    for line in (f"forecast inverse {place}" for place in TOO_LARGE):
        same((line, parse(line), doubtful(line)), (line, None, False))
    asked, _ = batch(lambda shelf: (), 0, lambda shelf: every_forecast(Stream(random.Random(rng.random()), shelf)))
    same(unforetold(asked), [])


@check
def console_forecasts(rng, rounds):
    """Lines and answers of `forecast` and `length`; a build keeps its answer."""
    session = Console()
    talk = [("load 0 02ca0700ca0700ca0700ca0700", "loaded"), ("load 1 02ca0700ca0700ca0700ca0700", "loaded"),
            ("forecast product 0 1", "steps 24"), ("product 0 1 2", "bound 51 steps 24"), ("forecast product 0 0", "steps 24"),
            ("forecast inverse 0", "steps 12"), ("inverse 0 3", "bound 27 steps 12"), ("forecast converse 2", "steps 12"),
            ("converse 2 4", "bound 27 steps 12"), ("forecast transpose 2", "steps 0"), ("transpose 2 5", "bound 0 steps 0"),
            ("forecast submatrix 0 2 1", "steps 2"), ("submatrix 0 2 1 6", "bound 27 steps 2"), ("length 0", "length 13"), ("length 2", "length 21"),
            ("length 6", "length 4"), ("length 7", "refused 11 at 0"), ("length 8", "refused 1 at 0"), ("build 7 1 3 7", "bound 11"), ("length 7", "length 36"),
            ("forecast inverse 7", "steps 120"), ("inverse 7 7", "refused 12 at 0"), ("forecast product 0 7", "refused 13 at 0"),
            ("forecast submatrix 7 6 3", "steps 42"), ("forecast submatrix 7 6 1", "refused 8 at 0"), ("forecast submatrix 0 4 1", "refused 8 at 0"),
            ("drop 3", "dropped"), ("forecast inverse 3", "refused 11 at 0"), ("forecast product 3 8", "refused 1 at 0"),
            ("forecast product 0 3", "refused 11 at 0"), ("forecast product 3 7", "refused 11 at 0"), ("forecast submatrix 3 0 0", "refused 11 at 0"),
            ("forecast inverse 4294967295", "refused 1 at 0"), ("load 3 02ca07000000ca0700", "loaded"), ("forecast submatrix 3 1 2", "steps 2"),
            ("length 3", "length 9"), ("write 3 9", "wrote 9 02ca07000000ca0700"), ("write 3 8", "refused 10 at 0 " + "a5" * 8)]
    talk += [(line, BAD_REQUEST) for line in (
        "forecast", "forecast product", "forecast product 0", "forecast product 0 1 2", "forecast inverse 0 1", "forecast drop 0",
        "forecast forecast inverse 0", "forecast submatrix 0 3", "forecast submatrix 0 3 3 1", "forecast submatrix 0 256 1", "forecast inverse 4294967296",
        "length", "length 0 1", "length -1", "forecast length 0", "forecast  inverse 0", "length 18446744073709551615")]
    for line, wanted in talk:
        same((line, session.answer(line)), (line, wanted))
    same([doubtful(x) for x in ("forecast inverse 00", "forecast inverse +1", "length 01", "length -0", "forecast submatrix 0 01 1")], [True] * 5)
