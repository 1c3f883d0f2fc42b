"""Sweeps about forecasts and lengths, document 02, (k): every operation at each number of rows, and every number of chosen rows, foretold and then run; with
operations that are refused for the target, the exponents or a singular choice; every order of tests; a full shelf; the length of every group number; places
at the limits; lines that are no requests. Each takes a requests.Stream and gives lines as its scenarios do."""
from itertools import product

from banded import banded, few_zeros, leaping, sets_of
from banded_sweeps import OTHER_SETS, SINGULAR_SETS, cleared, corner, load, mild, undone
from encoding import encode
from forecast_lines import ODD_FORECASTS, TOO_LARGE, forecast_of
from model import ONE_SOURCE, PLACES
from number import HIGH, LOW, ONE, ZERO
from sources import EDGE, mask
from stamp_lists import build_line, rising
from words import Matrix, interval

BEYOND = 9
# Above the shelf: next to it, where 3, 4, 8, 16 and 31 bits end, and the largest.
UNKNOWN = (8, 9, 16, 255, 256, 257, 65535, 65536, 65537, 2 ** 31, 2 ** 32 - 2, 2 ** 32 - 1)
# Good for two rows (the first two out of range where factors are large), good for one, unequal, empty and beyond n.
SETS = ((2, 2), (3, 3), (1, 1), (1, 2), (1, 3), (3, 1), (0, 0), (0, 1), (1, 0), (4, 1), (1, 4), (128, 1), (255, 255))
# Where an exponent code and a mantissa part take another byte.
EXPONENTS = (-EDGE, -EDGE + 126, -EDGE + 127, -31, EDGE)
PARTS = (0, 127, 128, 2 ** 14 - 1, 2 ** 14, 2 ** 21 - 1, 2 ** 21, 2 ** 28 - 1, 2 ** 28, LOW - 1)


def told(line):
    """An operation behind its forecast."""
    yield from (forecast_of(line), line)


def each_length(stream, places=range(PLACES)):
    """The length of each place, and a write with so many bytes and with one less where it is full."""
    for place in places:
        yield f"length {place}"
        if stream.shelf.places[place] is not None:
            yield from (f"write {place} {len(encode(stream.shelf.places[place])) - less}" for less in (0, 1))


def each_operation(stream, first, second):
    """All operations on two matrices of one size, every number of chosen rows among them, and the lengths of what they fill."""
    n, rng = first.n, stream.rng
    yield from (load(0, first), load(1, second))
    for line in ("product 0 1 2", "inverse 0 3", "converse 1 4", "transpose 0 5"):
        yield from told(line)
    yield from each_length(stream)
    for size in range(1, n + 1):
        line = f"submatrix 0 {mask(rng, n, size)} {mask(rng, n, size)} 6"
        yield forecast_of(line)
        yield from undone(stream, line, 6)
    yield from cleared(stream)


def every_size_foretold(stream):
    """Each number of rows, without zeros and with, a regular and a singular choice among them; built sources; a result taken on."""
    rng = stream.rng
    yield from cleared(stream)
    for n in range(1, 9):
        yield from each_operation(stream, mild(rng, n), mild(rng, n))
    for n in range(2, 9):
        source = banded(rng, n, leaping if n > 3 else few_zeros, mild)
        yield from (load(0, source), build_line(1, rising(rng, n)))
        for line in ("product 1 0 2", "product 0 0 3", "inverse 0 4", "converse 0 5", "transpose 0 6"):
            yield from told(line)
        yield from each_length(stream)
        yield from ("drop 5", "drop 6")
        for singular in (False, True):
            yield from told(f"submatrix 0 {' '.join(map(str, sets_of(rng, source, singular)))} {5 + singular}")
        yield from (*told("converse 2 7"), "length 5", "length 7")
        yield from cleared(stream)


def every_zero_foretold(stream):
    """Zeros that make two minors of a quotient the same, that are read, and that are new: a diagonal, a corner, a column that is zero below its first."""
    yield from cleared(stream)
    for n in (2, 3, 4):
        diagonal = Matrix(n, tuple(ONE if k % (n + 1) == 0 else ZERO for k in range(n * n)))
        column = Matrix(n, tuple(ZERO if k % n == 0 and k else ONE for k in range(n * n)))
        for source in (diagonal, column, corner(-31)) if n == 3 else (diagonal, column):
            yield load(0, source)
            for line in ("product 0 0 1", "inverse 0 2", "converse 0 3", f"submatrix 0 {interval(1, n)} {interval(1, n)} 4", "submatrix 0 3 3 5"):
                yield from told(line)
            yield from cleared(stream)


def every_refusal_foretold(stream):
    """Operations that are refused for what a forecast does not test: a target that is full or none, exponents, a singular choice; each behind its forecast."""
    yield from cleared(stream)
    good, wild, target = stream.rng.sample(range(PLACES), 3)
    yield from (load(good, corner(-31)), load(wild, Matrix(3, ((LOW, EDGE),) * 9)))
    lines = [f"{kind} {place}" for kind, place in product(ONE_SOURCE, (good, wild))]
    lines += [f"product {left} {right}" for left, right in product((good, wild), repeat=2)]
    lines += [f"submatrix {place} {rows} {columns}" for place, (rows, columns) in ((wild, (2, 2)), *product((good,), SINGULAR_SETS + OTHER_SETS))]
    for line in lines:
        yield f"forecast {line}"
        # The accepted one comes last: after it the forecast is not of the same shelf.
        for into in (good, BEYOND, target):
            yield from undone(stream, f"{line} {into}", target)
    yield from cleared(stream)


def every_order_of_forecasts(stream):
    """Forecasts and lengths with arguments good and bad in every combination."""
    yield from cleared(stream)
    small, good, other, wild, hollow = stream.rng.sample(range(PLACES), 5)
    for place, source in ((small, Matrix(1, (ONE,))), (good, Matrix(2, (ONE,) * 4)), (other, mild(stream.rng, 3)), (wild, Matrix(2, ((LOW, EDGE),) * 4))):
        yield load(place, source)
    places = (small, good, other, wild, hollow, BEYOND)
    yield from (f"forecast product {left} {right}" for left, right in product(places, repeat=2))
    yield from (f"forecast {kind} {place}" for kind, place in product(ONE_SOURCE, places))
    yield from (f"forecast submatrix {place} {rows} {columns}" for place, (rows, columns) in product(places, SETS))
    yield from (f"length {place}" for place in places)
    yield from cleared(stream)


def every_place_foretold(stream):
    """A full shelf, its places of one to eight rows: no place is left for a result. Then places at the limits, each where a place may stand."""
    yield from cleared(stream)
    for place in range(PLACES):
        yield load(place, mild(stream.rng, place + 1))
    for place in range(PLACES):
        yield from (f"forecast {kind} {place}" for kind in ONE_SOURCE)
        yield from (f"forecast product {place} {place}", f"forecast product {place} {(place + 1) % PLACES}")
        yield from (f"forecast submatrix {place} {rows} {rows}" for rows in (1, interval(1, place + 1), 1 << place, 2 << place & 255, 255))
    yield from each_length(stream)
    for place in (*UNKNOWN, *TOO_LARGE):
        yield from (f"forecast {words}" for words in (f"product {place} 0", f"product 0 {place}", f"product {place} {place}", f"submatrix {place} 1 1"))
        yield from (*(f"forecast {kind} {place}" for kind in ONE_SOURCE), f"length {place}")
    yield from (f"show {place}" for place in range(PLACES))
    yield from cleared(stream)


def every_length_foretold(stream):
    """One row with every number of bytes of code and mantissa; eight rows in the most bytes and in the fewest."""
    yield from cleared(stream)
    one_row = [Matrix(1, ((LOW + part, e),)) for e, part in (*((e, 0) for e in EXPONENTS), *((-31, part) for part in PARTS[1:]))]
    most, fewest = Matrix(8, ((HIGH - 1, EDGE),) * 64), Matrix(8, tuple((LOW, -EDGE) if k % 9 == 0 else ZERO for k in range(64)))
    for source in (*one_row, most, fewest):
        yield load(0, source)
        yield from each_length(stream, (0,))
        yield "drop 0"


def every_forecast(stream):
    """All of these, and the lines that are no requests, with places full that they name."""
    for part in (every_size_foretold, every_zero_foretold, every_refusal_foretold, every_order_of_forecasts, every_place_foretold, every_length_foretold):
        yield from part(stream)
    yield from (load(0, mild(stream.rng, 2)), load(1, mild(stream.rng, 2)))
    yield from ODD_FORECASTS
    yield from cleared(stream)
