"""Scenarios that go through every case of something: sets, lengths, cuts, flipped bits, distances, ends of ranges, stamps, sentences, orders of tests.

Each takes a requests.Stream and gives lines as its scenarios do.
"""
from itertools import product

from console_model import MOST_LENT, MOST_LISTED, MOST_SAID, text_of_bytes, text_of_items
from encoding import encode
from model import ONE_SOURCE, PLACES, WORKED
from number import HIGH, ITEM_ZERO, LOW, ONE
from pairs import GAPS, pair
from sentence_lines import NUMBERS, OUTSIDE, TELLING, places_of, said, sentence_line
from sentences import LAST_NUMBER, MOST_NAMED, needed
from sources import EDGE, mantissa, matrix
from stamp_lists import DRAWS, build_line, each_fault
from stamps import MOST_STAMPS
from words import Matrix

BEYOND = 9
# Good for two rows (the first is out of range in `wild`), unequal, empty, and beyond n.
MASK_PAIRS = ((2, 2), (3, 3), (1, 2), (1, 3), (0, 0), (0, 1), (4, 1), (1, 128))
BYTES = (
    "01ca0700", "-", "01", "8000", "09", "ac02", "0100", "01d20f", "018000", "01ca0780808080", "01ca078080808008",
    "01ca078080808010", "01ca070000", "8080808080", "8080808000", "018080808000", "01ca078080808000",
    "01ca07ffffffff07", "01d10f00", "010100", "02ca07000000ca0700", "03ca070000ca07",
)
# Two that are taken, and one with each fault.
STAMPS = ([1, 3, 7], [HIGH - 1], [], [0], [1, 1], [3, 2], [1, HIGH], [1, HIGH + 2], [1, 2 ** 64 - 1], list(range(1, 10)))


def every_minor(stream):
    """All pairs of sets over n rows and one beyond."""
    yield from stream.put(matrix(stream.rng, stream.rng.choice((1, 2, 2, 3))))
    place, most = stream.last, 2 << stream.n(stream.last)
    for rows in range(most):
        for columns in range(most):
            yield f"minor {place} {rows} {columns}"


def every_length(stream):
    """A matrix written to buffers of every length from none to a few bytes more than it needs, and the largest."""
    yield from stream.put(matrix(stream.rng, stream.rng.choice((1, 1, 2, 2, 3))))
    place = stream.last
    for length in [*range(len(encode(stream.shelf.places[place])) + 4), 511, 512]:
        yield f"write {place} {length}"


def every_cut(stream):
    """All beginnings of an encoding."""
    yield from stream.make_room()
    data = encode(matrix(stream.rng, stream.rng.choice((1, 2, 2, 3))))
    for length in range(len(data) + 1):
        yield from stream.bytes_judged(data[:length])


def every_flip(stream):
    """An encoding with each of its bits changed."""
    yield from stream.make_room()
    data = encode(matrix(stream.rng, stream.rng.choice((1, 1, 2))))
    for place in range(8 * len(data)):
        changed = bytearray(data)
        changed[place // 8] ^= 1 << place % 8
        yield from stream.bytes_judged(bytes(changed))


def every_gap(stream):
    """Sums and differences of two items at all distances that matter, the larger one also a power of two."""
    yield from stream.put(Matrix(2, (ONE,) * 4))
    mantissas = (LOW, LOW + 1, HIGH - 1)
    for gap, large, small, sign in product((0, 1, 2, *range(30, 36)), mantissas, (*mantissas, stream.rng.randrange(LOW, HIGH)), (1, -1)):
        items = [(1, large, gap - 31), (sign, small, -31)]
        yield f"carry {stream.last} 2 {text_of_items(items)}"


def every_distance(stream):
    """Two positive items added at all distances that matter and far ones, either first; about 32 apart with mantissas at the ends of their range."""
    rng = stream.rng
    for gap in (*GAPS, 63, 64, 65, 1000, 2000):
        items = [(1, mantissa(rng), EDGE), (1, mantissa(rng), EDGE - gap)]
        yield f"add {text_of_items(items)}"
        yield f"add {text_of_items(items[::-1])}"
    for gap, large, small in product((31, 32, 33, 34), (LOW, LOW + 1, HIGH - 1), (LOW, LOW + 1, HIGH - 1)):
        yield f"add {text_of_items([(1, large, gap - 31), (1, small, -31)])}"


def every_pair(stream):
    """Products and quotients of numbers at the ends of their range, some pairs of each kind, and what is not two positive items."""
    ends = (LOW, LOW + 1, 3 << 30, HIGH - 2, HIGH - 1)
    for kind, first, second in product(("multiply", "divide"), ends, ends):
        yield f"{kind} {text_of_items([(1, first, -31), (1, second, -31)])}"
    for kind, e, f in product(WORKED, (-EDGE, EDGE), (-EDGE, EDGE)):
        yield f"{kind} {text_of_items([(1, HIGH - 1, e), (1, LOW + 1, f)])}"
    one = (1,) + ONE
    bad = (ITEM_ZERO, (-1,) + ONE, (2,) + ONE, (0,) + ONE, (1, LOW - 1, 0), (1, HIGH, 0), (1, 0, 0), (1, LOW, EDGE + 1), (1, LOW, -EDGE - 1))
    for kind in WORKED:
        yield from (f"{kind} {text_of_items(pair(stream.rng, kind))}" for _ in range(12))
        for item in bad:
            yield from (f"{kind} {text_of_items(items)}" for items in ([item, one], [one, item]))
        yield f"{kind} {text_of_items([(-1,) + ONE, (-1,) + ONE])}"
        yield from (kind + f" {text_of_items([one])}" * count for count in (0, 1, 3))


def every_wrong_stamp(stream):
    """Each fault of a list of stamps, for an empty place."""
    yield from stream.make_room()
    place = stream.rng.choice(stream.free())
    yield from (build_line(place, stamps) for stamps in each_fault(stream.rng))


def every_kind_of_stamps(stream):
    """Each number of stamps drawn in a few ways, eight of them in every way."""
    yield from stream.make_room()
    place = stream.rng.choice(stream.free())
    for count in range(1, MOST_STAMPS + 1):
        for draw in dict.fromkeys(DRAWS if count == MOST_STAMPS else stream.rng.sample(DRAWS, 3)):
            yield build_line(place, draw(stream.rng, count))
            yield f"drop {place}"


def every_sentence(stream):
    """Each number alone, for few lent bytes and for all; each with places, for a byte too few, just enough and one over, the longest too; each offset and place
    that tells; each count of places."""
    rng = stream.rng
    for number in sorted({*NUMBERS, *OUTSIDE}):
        yield from (sentence_line(length, number, rng.choice(TELLING), []) for length in (rng.randrange(8), MOST_LENT))
    longest = [(number, MOST_SAID, [MOST_SAID] * MOST_NAMED) for number in NUMBERS]
    for asked in [*(said(rng, number) for number in NUMBERS), max(longest, key=lambda asked: needed(*asked))]:
        yield from (sentence_line(needed(*asked) + more, *asked) for more in (-1, 0, 1))
    yield from (sentence_line(rng.randint(80, 200), rng.choice(NUMBERS), offset, [place]) for offset, place in zip(TELLING, reversed(TELLING)))
    for count in range(MOST_LISTED + 1):
        yield from (sentence_line(rng.randint(140, MOST_LENT), *said(rng, count=count)) for _ in range(4))


def every_lent(stream):
    """Two sentences for every length from none to a few bytes more than they need, and for the longest."""
    for count in (0, 3):
        asked = said(stream.rng, count=count)
        for length in [*range(needed(*asked) + 4), MOST_LENT - 1, MOST_LENT]:
            yield sentence_line(length, *asked)


def every_fault_of_sentences(stream):
    """Numbers and counts of places good and bad in every combination, for lengths good and bad."""
    counts = (0, MOST_NAMED, MOST_NAMED + 1, MOST_LISTED)
    for number, count in product((0, 1, LAST_NUMBER, LAST_NUMBER + 1, 256 + LAST_NUMBER, MOST_SAID), counts):
        asked = number, stream.rng.choice(TELLING), places_of(stream.rng, count)
        yield from (sentence_line(length, *asked) for length in (0, needed(*asked) - 1, needed(*asked), MOST_LENT))


def every_order(stream):
    """Each call with arguments good and bad in every combination, so that each test meets each later one."""
    for place in stream.full():
        yield f"drop {place}"
    small, wild, good, hollow, target = stream.rng.sample(range(PLACES), 5)
    far = (LOW, 1000)
    for place, source in ((small, Matrix(1, (far,))), (wild, Matrix(2, (far,) * 4)), (good, Matrix(2, (ONE,) * 4))):
        yield f"load {place} {text_of_bytes(encode(source))}"
    sources, targets = (good, wild, hollow, BEYOND), (target, good, BEYOND)
    for line in [*orders_of_operations(small, sources, targets), *orders_of_reading(sources, len(encode(Matrix(2, (ONE,) * 4))))]:
        yield line
        if stream.shelf.places[target] is not None:
            yield f"drop {target}"
    filling = [f"load {place} {text}" for place, text in product(targets, BYTES)]
    filling += [build_line(place, stamps) for place, stamps in product(targets, STAMPS)]
    for line in filling:
        yield line
        if stream.shelf.places[target] is not None:
            yield f"drop {target}"
    yield f"drop {hollow}"
    yield f"drop {BEYOND}"


def orders_of_operations(small, sources, targets):
    for left, right, target in product((small,) + sources, (small,) + sources, targets):
        yield f"product {left} {right} {target}"
    for kind, source, target in product(ONE_SOURCE, sources, targets):
        yield f"{kind} {source} {target}"
        yield f"{kind} {source} {source}"
    for source, sets, target in product(sources, MASK_PAIRS, targets):
        yield f"submatrix {source} {sets[0]} {sets[1]} {target}"


def orders_of_reading(sources, length):
    one = (1,) + ONE
    lists = ([one, one], [ITEM_ZERO, ITEM_ZERO], [one, (1, LOW, 1000)], [one, (1, 0, 0)], [(2,) + ONE, one], [one], [one] * 3, [])
    for source, sets in product(sources, MASK_PAIRS):
        yield f"minor {source} {sets[0]} {sets[1]}"
    for source, items, lent in product(sources, lists, (0, 1, 2, 3)):
        yield f"carry {source} {lent}" + (" " + text_of_items(items) if items else "")
    for source, lent in product(sources, (0, length - 1, length, 512)):
        yield f"write {source} {lent}"
