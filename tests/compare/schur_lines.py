"""Schur complements, document 02, (l): request lines.

schur_line: the request. clamped, edge, anywhere, misread: scenarios of requests.Stream. any_clamp: a number of clamped
points, good or bad. ODD_SCHURS: lines chosen by hand that are no requests, about every rule of their form; SPELLED:
numbers with zeros in front, which are taken. unread: a line that the console does not pass on.
"""
from banded import any_matrix, banded
from console_model import MOST_CLAMPED, MOST_PLACE, doubtful, parse
from forecast_lines import TOO_LARGE
from garbage import SAMPLES, cut, doubled, replaced, word_doubled, words_shuffled
from model import ONE_SOURCE, PLACES
from recipe_lines import any_steps, recipe_line
from sentence_lines import malformed
from sources import aimed, filled, near_edge

SCHURS = ("schur 0 1 7", "schur 2 3 5", "schur 1 4294967295 6", "forecast schur 0 1", "forecast schur 3 2")
# What is 1 when cut to 8, 16, 24 or 31 bits, the last number that has a sign bit to spare, and the largest of all.
HUGE = (257, 65537, 2 ** 24 + 1, 2 ** 31 - 1, 2 ** 31 + 1, MOST_CLAMPED - 1, MOST_CLAMPED)
SPELLED = ("01", "002", "0000000001", "000000000000000000000000000000001", "00", "03", "04294967295", "0" * 4085 + "1")
ODD_SCHURS = (
    "schur", "schur ", " schur 0 1 7", "schur  0 1 7", "schur 0  1 7", "schur 0 1  7", "schur 0 1 7 ", "schur\t0 1 7",
    "schur 0\t1 7", "schur 0 1 7\r", "schur 0 1 7\x00", "schur 0 \xb9 7", "Schur 0 1 7", "SCHUR 0 1 7", "schurs 0 1 7",
    "schu 0 1 7", "schur,0,1,7",
    # Words lacking, and more of them.
    "schur 0", "schur 0 ", "schur 0 1", "schur 0 7", "schur 0 1 ", "schur 0 1 7 7", "schur 0 1 1 7", "schur 0 1 7 -",
    # No number of points.
    "schur 0 -1 7", "schur 0 -0 7", "schur 0 +1 7", "schur 0 - 7", "schur 0 x 7", "schur 0 1. 7", "schur 0 1e0 7",
    "schur 0 0x1 7", "schur 0 1, 7", "schur 0 ,1 7", "schur 0 1,1 7", "schur 0 1a 7", "schur 0 -4294967295 7",
    # One beyond the largest, and what is 1 or 2 when cut to 32 or 64 bits; a fault behind places that are refused.
    "schur 0 4294967296 7", "schur 0 4294967297 7", "schur 0 4294967298 7", "schur 0 18446744073709551615 7",
    "schur 0 18446744073709551616 7", "schur 0 18446744073709551617 7", "schur 0 004294967297 7",
    "schur 0 " + "9" * 30 + " 7", "schur 9 4294967296 9", "schur 0 " + "0" * 4086 + "1 7",
    "schur 0 " + "9" * 4086 + " 7",
    # No places.
    "schur x 1 7", "schur 0 1 x", "schur - 1 7", "schur 0 1 -", "schur -1 1 7", "schur 0 1 -7", "schur 4294967296 1 7",
    "schur 0 1 4294967303",
    # The same of a forecast, which has no target.
    "forecast schur", "forecast schur ", "forecast schur 0", "forecast schur 0 ", "forecast schur 0 1 7",
    "forecast schur 0 1 0", "forecast schur 0 1 ", "forecast  schur 0 1", "forecast schur  0 1", "forecast schur 0  1",
    "forecast Schur 0 1", "forecast schur 0 -1", "forecast schur 0 -0", "forecast schur 0 +1", "forecast schur 0 x",
    "forecast schur 0 -", "forecast schur 0 1,", "forecast schur 0 4294967296", "forecast schur 0 4294967297",
    "forecast schur 0 18446744073709551617", "forecast schur 4294967296 1", "forecast schur 9 4294967296",
    "forecast forecast schur 0 1", "forecast schur schur 0 1", "schur forecast 0 1", "forecast 0 schur 1",
    "schur schur 0 1 7",
)


def schur_line(place, k, target):
    return f"schur {place} {k} {target}"


def any_clamp(rng, n):
    """A number of points that n rows allow, mostly; else none, all, one more, any few, or one small when cut."""
    if n > 1 and rng.random() < 0.6:
        return rng.randint(1, n - 1)
    return rng.choice((0, n, n + 1, rng.randrange(12), rng.choice(HUGE), 2 ** rng.randrange(8, 32) + rng.randrange(n)))


def use(stream, place, target):
    """A request that takes a result on: another operation, a recipe of it, or a Schur complement again."""
    rng, n = stream.rng, stream.n(place)
    if n > 1 and rng.random() < 0.4:
        return schur_line(place, rng.randint(1, n - 1), target)
    if rng.random() < 0.2:
        return recipe_line(target, any_steps(rng, [place], rng.randint(2, 4)))
    return stream.operation(rng.choice(("product", "submatrix") + ONE_SOURCE), place, target)


def clamped(stream):
    """A source, full or banded, with some numbers of points; what comes out is taken on."""
    rng = stream.rng
    n = max(2, stream.size())
    yield from stream.make_room(4)
    yield from stream.put(rng.choice((any_matrix, banded))(rng, n))
    place = stream.last
    for k in rng.sample(range(1, n), rng.randint(1, min(3, n - 1))):
        yield from stream.make_room(2, kept=place)
        target, after = rng.sample(stream.free(), 2)
        yield schur_line(place, k, target)
        if stream.shelf.places[target] is not None and rng.random() < 0.6:
            yield use(stream, target, after)


def wild(rng, n):
    """Factors at the ends of the stored exponents, whose sums leave them."""
    return filled(near_edge)(rng, n)


def edge(stream):
    """A result just inside or just outside the stored exponents, though every factor of the source is inside."""
    rng = stream.rng
    n = rng.choice((2, 3, 3, 3, 4, 4, 5))
    k = rng.randint(1, n - 1)
    yield from stream.make_room(2)
    yield from stream.put(rng.choice((lambda: aimed(rng, "schur", n, k)[0], lambda: wild(rng, n),
                                      lambda: banded(rng, n, numbers=wild)))())
    target = rng.choice(stream.free() if rng.random() < 0.9 else stream.full())
    yield schur_line(stream.last, k, target)
    yield schur_line(stream.last, any_clamp(rng, n), target)
    if rng.random() < 0.7:
        yield f"drop {stream.last}"


def anywhere(stream):
    """Places of any kind and any number of points: often two faults at once."""
    rng = stream.rng
    for _ in range(rng.randint(1, 4)):
        place = rng.choice(stream.full()) if stream.full() and rng.random() < 0.6 else stream.any_place()
        held = stream.shelf.places[place] if place < PLACES else None
        target = rng.choice(stream.free()) if stream.free() and rng.random() < 0.5 else stream.any_place()
        yield schur_line(place, any_clamp(rng, held.n if held else stream.size()), target)


def changed(rng):
    """A request of SCHURS with one word changed, lacking, doubled, empty or behind it."""
    words = rng.choice(SCHURS).split(" ")
    first = 2 if words[0] == "forecast" else 1
    i = rng.randrange(first, len(words))
    number = malformed(rng, int(words[i]), MOST_PLACE) if rng.random() < 0.7 else rng.choice(TOO_LARGE)
    other = words[:i] + [number] + words[i + 1:]
    return " ".join(map(str, rng.choice((
        other, other, other, words[:-1], words + [rng.randrange(9)], words[:i] + [""] + words[i:], words + [""],
        words[:1] + words, ["forecast", *words], words[:i] + words[i + 1:]))))


def unread(rng):
    """One of these, or another request's words behind the word."""
    while True:
        line = rng.choice((changed(rng), changed(rng), "schur " + rng.choice(SAMPLES), rng.choice(ODD_SCHURS)))
        if parse(line) is None and not doubtful(line):
            return line


def misread(stream):
    """Lines that are no requests, or might be."""
    rng = stream.rng
    while True:
        changes = (cut, doubled, replaced, words_shuffled, word_doubled)
        line = unread(rng) if rng.random() < 0.6 else rng.choice(changes)(rng, rng.choice(SCHURS))
        if "\n" not in line and not doubtful(line):
            break
    yield line
