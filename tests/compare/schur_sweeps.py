"""Sweeps about Schur complements, document 02, (l): every number of rows and of clamped points, foretold and run;
numbers that are out of range; every order of tests; sums and quotients that leave the stored exponents; zeros, with
sets R that leave rows out; results taken on by every other call; places at the limits; lines that are no requests; all
patterns of up to four rows. Each takes a requests.Stream and gives lines as its scenarios do."""
from itertools import product

from banded import any_lines, banded, few_zeros, leaping
from banded_sweeps import BEYOND, cleared, load, mild, undone
from forecast_lines import forecast_of
from forecast_sweeps import UNKNOWN
from model import PLACES
from number import HIGH, LOW, ONE, ZERO
from patterns import every_shape, masked, shape
from schur_lines import HUGE, ODD_SCHURS, SPELLED, schur_line
from sources import EDGE
from stamp_lists import build_line
from words import Matrix, transpose

# The numbers of rows of which a request for no points is run; the others are foretold alone.
RUN_NONE = (1, 2, 8)


def told(line):
    yield from (forecast_of(line), line)


def ones(n, **others):
    """All ones but for some factors, given as b31 for row 3 and column 1."""
    factors = [ONE] * (n * n)
    for name, number in others.items():
        factors[(int(name[1]) - 1) * n + int(name[2]) - 1] = number
    return Matrix(n, tuple(factors))


def every_clamp(stream, source):
    """Each number of points of one source, which stands at place 0, foretold and run; eight rows fill the shelf."""
    yield load(0, source)
    for k in range(1, source.n):
        yield from told(schur_line(0, k, k))
    if source.n == PLACES:
        yield from ("forecast schur 0 7", "forecast schur 1 1")
    yield from cleared(stream)


def every_size_clamped(stream):
    """Each number of rows and points, without zeros, and with zeros some of them."""
    rng = stream.rng
    yield from cleared(stream)
    for n in range(1, 9):
        yield from every_clamp(stream, mild(rng, n))
    for n in range(2, 9):
        yield load(0, banded(rng, n, leaping if n > 3 else few_zeros, mild))
        yield from (schur_line(0, max(1, n // 3), 1), "drop 0", "drop 1")


def every_one_clamped(stream):
    """Each number of rows and points of all ones."""
    yield from cleared(stream)
    for n in range(1, 9):
        yield from every_clamp(stream, ones(n))


def every_wrong_clamp(stream):
    """Of each number of rows none, all and one more; of three rows also what is small when cut, and zeros in front."""
    rng = stream.rng
    yield from cleared(stream)
    for n in range(1, 9):
        yield load(0, mild(rng, n))
        yield from (forecast_of(schur_line(0, k, 1)) for k in (0, n, n + 1))
        yield from (schur_line(0, k, 1) for k in ((0, n) if n in RUN_NONE else (n,)))
        yield "drop 0"
    yield load(0, mild(rng, 3))
    # The longest fits into the line of the operation alone.
    yield from (f"forecast schur 0 {k}" for k in (*HUGE, *SPELLED[:-1]))
    yield from (schur_line(0, k, 7) for k in HUGE[::2])
    yield from (schur_line(0, SPELLED[1], 7), schur_line(0, SPELLED[-1], 6))
    yield from cleared(stream)


def every_order_clamped(stream):
    """Two faults at once: places, a full target, points that are none or too many, a result that is out of range."""
    yield from cleared(stream)
    good, wild, small, hollow, target = stream.rng.sample(range(PLACES), 5)
    large = (LOW, EDGE)
    for place, source in ((good, ones(3)), (wild, ones(3, b31=large, b32=large)), (small, ones(1))):
        yield load(place, source)
    yield from (f"forecast schur {place} {k}" for place in (hollow, BEYOND, small, wild, good) for k in (0, 1, 2, 3, 8))
    cases = [(place, k, into) for place, k in product((good, wild), (1, 0, 3)) for into in (BEYOND, good, target)]
    cases += [(small, k, into) for k in (0, 1, 2) for into in (small, target)]
    cases += [(place, k, into) for place in (hollow, BEYOND) for k in (1, 8) for into in (good, BEYOND, target)]
    cases += [(hollow, 0, target), (BEYOND, 0, BEYOND)]
    for place, k, into in cases:
        yield from undone(stream, schur_line(place, k, into), target)
    yield schur_line(hollow, 1, hollow)
    yield from cleared(stream)


def edge_sources():
    """Sources with the k that is worth trying. Of three rows the new b(2,1) is b(3,1) + b(3,2); of four, where b(4,3)
    is zero, the new b(3,2) is b(4,2) b(3,1) / (b(3,1) + b(3,2))."""
    top, below = (LOW, EDGE), (LOW, EDGE - 1)
    yield from ((ones(3, b31=top, b32=top), 1), (ones(3, b31=top, b32=below), 1))
    # The sum of the largest number and half a unit of it is a tie and goes up; a quarter is lost.
    yield from ((ones(3, b31=(HIGH - 1, EDGE), b32=(LOW, EDGE - shift)), 1) for shift in (32, 33))
    yield ones(4, b41=below, b42=below, b43=top), 2
    small = (LOW, -EDGE)
    yield from ((ones(4, b43=ZERO, b42=small, b32=weight), 1) for weight in ((LOW, -30), ONE))
    yield ones(4, b43=ZERO, b42=(LOW, 1 - EDGE)), 1
    # The diagonal stays in range whatever it is: it is multiplied in and divided out, with other bits now and then.
    yield ones(2, b11=(LOW + 1, -31), b22=(HIGH - 1, EDGE)), 1
    yield ones(3, b11=(HIGH - 1, EDGE), b22=(HIGH - 1, EDGE), b33=(LOW + 1, -EDGE)), 1
    yield ones(3, b11=(3 << 30, -EDGE), b22=(LOW, -EDGE), b33=(HIGH - 1, EDGE)), 2


def every_edge_clamped(stream):
    """Sums and quotients about the edge below the diagonal; the first of them above it too."""
    yield from cleared(stream)
    sources = [*edge_sources()]
    for source, k in sources + [(transpose(source), k) for source, k in (sources[0], sources[5])]:
        yield load(0, source)
        yield from told(schur_line(0, k, 1))
        yield from cleared(stream)


def leaping_source(rng):
    """Five rows, whose new first column goes on where the second is empty, while the lower right block has no zero: the
    sets R leave rows out, and only with row 1 joined. Of the columns 2 and 3 all is zero below the diagonal."""
    return masked(mild(rng, 5), shape(5, (4, 0, 0, 1), (4, 3, 2, 1)))


def every_zero_clamped(stream):
    """Sets R that leave rows out, on both sides; a diagonal; zeros that are gone with the clamped points."""
    rng = stream.rng
    yield from cleared(stream)
    leap = leaping_source(rng)
    lost = masked(mild(rng, 4), shape(4, (0, 2, 1), (3, 0, 1)))
    diagonal = masked(mild(rng, 3), shape(3, (0, 0), (0, 0)))
    full = masked(mild(rng, 4), shape(4, (0, 2, 1), (0, 2, 1)))
    for place, source in enumerate((leap, transpose(leap), lost, diagonal, full)):
        yield load(place, source)
        yield from undone(stream, schur_line(place, 1, 7), 7)
    yield from (*told(schur_line(2, 2, 7)), "drop 7", *told(schur_line(3, 2, 7)))
    yield from cleared(stream)


def every_use_clamped(stream):
    """Sources that each call fills, and results that each call takes."""
    yield from cleared(stream)
    yield from (build_line(0, (1, 3, 7)), *told(schur_line(0, 1, 1)), *told(schur_line(0, 2, 2)), "minor 1 3 3")
    yield from ("product 1 1 3", schur_line(3, 1, 4), "drop 3", "drop 4", "inverse 1 3", schur_line(3, 1, 4), "drop 3")
    yield from ("length 2", "write 2 7", "write 2 8", "carry 1 2 1,2147483648,-31 -1,2147483648,-31", "drop 4")
    yield from ("converse 1 3", schur_line(3, 1, 4), "drop 4", "transpose 1 4", schur_line(4, 1, 5))
    yield from ("submatrix 0 7 7 6", schur_line(6, 1, 7), "drop 5", schur_line(7, 1, 5), "drop 5", "submatrix 1 2 1 5")
    yield from ("drop 5", "recipe 5 1,plain 7,transpose", "drop 3", schur_line(5, 1, 3), "forecast schur 5 1")
    yield from cleared(stream)


def every_limit_clamped(stream):
    """Places above the shelf, and lines that are no requests, with places full that they name."""
    yield from cleared(stream)
    yield from (load(0, mild(stream.rng, 3)), load(1, mild(stream.rng, 2)))
    for k, place in enumerate(UNKNOWN[1::2]):
        yield (schur_line(place, 1, 7), schur_line(1, 1, place), forecast_of(schur_line(place, 1, 7)))[k % 3]
    yield from ODD_SCHURS
    yield from cleared(stream)


def every_schur(stream):
    """All of these but for the all-ones sources and the patterns, whose number is large."""
    for part in (every_wrong_clamp, every_order_clamped, every_edge_clamped, every_zero_clamped, every_use_clamped,
                 every_limit_clamped, every_size_clamped):
        yield from part(stream)


def some_patterns_clamped(stream):
    """Some patterns of three to five rows, with each number of points."""
    yield from cleared(stream)
    shapes = stream.rng.sample(every_shape(3), 4) + stream.rng.sample(every_shape(4), 4)
    for nonzero in shapes:
        yield from every_clamp(stream, masked(mild(stream.rng, int(len(nonzero) ** 0.5)), nonzero))
    yield from every_clamp(stream, banded(stream.rng, 5, any_lines, mild))


def every_pattern_clamped(stream):
    """All ones in every size, and all patterns of up to four rows with each number of points."""
    yield from every_one_clamped(stream)
    for n in (2, 3, 4):
        for nonzero in every_shape(n):
            yield load(0, masked(mild(stream.rng, n), nonzero))
            for k in range(1, n):
                yield from undone(stream, schur_line(0, k, 7), 7)
            yield "drop 0"
