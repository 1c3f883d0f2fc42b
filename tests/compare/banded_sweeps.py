"""Sweeps about banded places, document 02, (e): every place that can break the pattern, every order of its fault and another, each number of rows through
every call, singular choices, and all patterns of up to four rows. Each takes a requests.Stream and gives lines as its scenarios do."""
from itertools import product

from banded import any_lines, any_matrix, banded, breakable, broken, few_zeros, leaping, sets_of
from console_model import text_of_bytes, text_of_items
from encoding import encode
from model import PLACES
from number import ONE, ZERO
from patterns import every_shape, masked, shape
from sources import listed, matrix, spread_number
from words import Matrix

BEYOND = 9


def mild(rng, n):
    """Factors near one: what comes of them is in range."""
    return Matrix(n, tuple(spread_number(rng, 2) for _ in range(n * n)))


def load(place, source):
    return f"load {place} {text_of_bytes(encode(source))}"


def cleared(stream):
    """Every place emptied."""
    yield from [f"drop {place}" for place in stream.full()]


def undone(stream, line, target):
    """A request that may fill a place, which is emptied again."""
    yield line
    if stream.shelf.places[target] is not None:
        yield f"drop {target}"


def every_break(stream, n=None):
    """Of a number of rows each place that can break the pattern, and a zero at each place of the diagonal."""
    n = n or stream.rng.choice((3, 4, 4, 5))
    yield from stream.make_room()
    for place in breakable(n):
        yield from stream.bytes_judged(encode(broken(stream.rng, any_matrix(stream.rng, n), *place)))
    for zero in range(n):
        source = any_matrix(stream.rng, n)
        yield from stream.bytes_judged(encode(masked(source, [k != zero * (n + 1) for k in range(n * n)])))


# Factors as letters: one, zero, and nonzero ones at both ends of what is stored.
FACTORS = {"1": "ca0700", "0": "00", "m": "01ffffffff07", "M": "d10f00"}
# An exponent code above the range, two with a fault of form, and one in range before a mantissa with a fault; where there is a dot the bytes end.
FAULTS = {"v": "d20f00", "l": "808001", "s": "ca8700", "z": "8000", "u": "ca078000", "b": "ca078080808008", "h": "ca07.", "c": "ca.", ".": "."}
# Matrices of three or four rows, row by row, as far as the bytes go.
PRECEDENCE = (
    # Zeros that break the pattern, on either side, with the ends of the stored range behind them.
    "111 011 111", "101 111 111", "111 011 m11", "10M 111 111",
    # Zeros that break nothing: the other line goes on.
    "111 111 011", "110 111 111", "100 111 111", "111 011 011", "100 010 001", "100 011 011", "110 010 001", "111 111 101", "111 110 111", "100 110 111",
    # 5 and 3 come before 16, and so does the end of the bytes inside a code; the mantissa comes behind it.
    "111 011 v", "10v", "111 011 l", "10s", "111 011 s", "10z", "111 011 c", "10c", "111 011 .", "10.",
    "111 011 u", "10u", "111 011 b", "10b", "111 011 h", "10h",
    # 6 and 16 in the order of the bytes; two places that break the pattern.
    "111 001 111", "101 101 111", "011 011 111", "101 111 110", "111 011 110", "101 011 111", "100 000 000",
    # Behind a zero, and behind the matrix.
    "100 010 001 0", "101 111 111 1", "111 011 0.", "100 01.", "1z", "111 z",
    # Four rows: a zero further away, a line that is taken up again, lines of different lengths.
    "1111 0111 0111 1111", "1001 1111 1111 1111", "1111 0111 1111 0111", "1111 1111 1011 1111", "1111 1101 1111 1111", "1011 0111 1111 1111",
    "1000 1100 1110 1111", "1111 0111 0011 0001", "1000 1100 1010 0001", "1110 1111 1111 0111",
)


def spelled(text):
    """The bytes of a line of PRECEDENCE."""
    rows = text.split(" ")
    digits = f"{len(rows[0]) if len(rows) > 1 else 3:02x}" + "".join((FACTORS | FAULTS)[letter] for letter in "".join(rows))
    return bytes.fromhex(digits.partition(".")[0])


def every_precedence(stream):
    """Each fault before and behind a place that breaks the pattern."""
    yield from stream.make_room()
    for text in PRECEDENCE:
        yield from stream.bytes_judged(spelled(text))


def banded_tour(stream):
    """Each number of rows through every call, with sets R that leave rows out, a zero minor and a singular submatrix."""
    rng = stream.rng
    yield from cleared(stream)
    for n in range(2, 9):
        first, second = banded(rng, n, leaping if n > 3 else few_zeros, mild), banded(rng, n, any_lines, mild)
        yield from (load(0, first), load(1, second), "product 0 1 2", "inverse 0 3", "converse 0 4", "transpose 0 5")
        regular, singular = (" ".join(map(str, sets_of(rng, first, wanted))) for wanted in (False, True))
        yield from (f"submatrix 0 {regular} 6", f"submatrix 0 {singular} 7", f"minor 0 {regular}", f"minor 0 {singular}")
        yield from (f"carry {place} {n} {text_of_items(listed(rng, first))}" for place in (0, 2))
        yield from (f"write 1 {len(encode(second)) + more}" for more in (-1, 0))
        yield from cleared(stream)


def corner(e):
    """Three rows, the factors (1,2), (1,3), (2,3) and (3,2) zero and the others 2^31 times 2^e: its rows are 1 0 0, 1 1 0 and 1 1 1 for e = -31."""
    return Matrix(3, tuple(ZERO if k in (1, 2, 5, 7) else (ONE[0], e) for k in range(9)))


# Rows and columns for `corner`: singular, with no zero to be seen in the last one; good ones; and some that are refused.
SINGULAR_SETS = ((1, 2), (3, 6), (6, 3))
OTHER_SETS = ((1, 1), (7, 7), (6, 5), (2, 1), (0, 0), (1, 3), (8, 1))


def every_order_of_singular(stream):
    """17 with each condition before it; singular choices whose other factors are out of range; a tiny determinant that is no zero."""
    yield from cleared(stream)
    good, wild, tiny, hollow, target = stream.rng.sample(range(PLACES), 5)
    for place, e in ((good, -31), (wild, 1000), (tiny, -1000)):
        yield load(place, corner(e))
    cases = [(good, sets, into) for sets, into in product(SINGULAR_SETS, (good, BEYOND))]
    cases += [(place, sets, target) for place in (good, wild, tiny) for sets in SINGULAR_SETS + OTHER_SETS]
    cases += [(place, sets, target) for place in (hollow, BEYOND) for sets in SINGULAR_SETS[:1]]
    for place, (rows, columns), into in cases:
        yield from undone(stream, f"submatrix {place} {rows} {columns} {into}", target)
    for place, (rows, columns) in product((good, wild, tiny), SINGULAR_SETS + ((7, 7), (6, 5))):
        yield f"minor {place} {rows} {columns}"
    yield from cleared(stream)


def some_patterns(stream):
    """Some patterns of three rows, each times the one before it; and one whose first two rows and columns have no zero."""
    yield from cleared(stream)
    yield load(0, masked(mild(stream.rng, 3), shape(3, (2, 1), (1, 1))))
    yield from ("submatrix 0 3 3 1", "drop 1", "drop 0")
    last = None
    for place, nonzero in zip((0, 1) * 5, stream.rng.sample(every_shape(3), 10)):
        yield load(place, masked(mild(stream.rng, 3), nonzero))
        if last is not None:
            yield from (f"product {last} {place} 2", "drop 2", f"drop {last}")
        last = place
    yield f"drop {last}"


def products_of_patterns(stream, n):
    """Each pattern of n rows times each."""
    shapes = every_shape(n)
    for start in range(0, len(shapes), 6):
        rights = list(enumerate(shapes[start:start + 6], 1))
        for place, nonzero in rights:
            yield load(place, masked(matrix(stream.rng, n), nonzero))
        for nonzero in shapes:
            yield load(0, masked(mild(stream.rng, n), nonzero))
            for place, _ in rights:
                yield from undone(stream, f"product 0 {place} 7", 7)
            yield "drop 0"
        yield from [f"drop {place}" for place, _ in rights]


def every_pattern(stream):
    """All patterns: of up to three rows each times each, of four rows each by itself in two operations; every place of up to eight rows that breaks one."""
    rng = stream.rng
    yield from cleared(stream)
    for n in (1, 2, 3):
        yield from products_of_patterns(stream, n)
    for nonzero in every_shape(4):
        source = masked(mild(rng, 4), nonzero)
        yield load(0, source)
        yield from undone(stream, f"{rng.choice(('inverse', 'converse'))} 0 1", 1)
        rows, columns = sets_of(rng, source, rng.random() < 0.2)
        yield from undone(stream, rng.choice((f"submatrix 0 {rows} {columns} 1", f"submatrix 0 {rows} {columns} 1", "submatrix 0 15 15 1", "product 0 0 1")), 1)
        yield "drop 0"
    for n in range(3, 9):
        yield from every_break(stream, n)
