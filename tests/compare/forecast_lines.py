"""Forecasts and lengths, document 02, (k): request lines.

forecast_of: the forecast of an operation. foretold: a scenario with the forecasts of its operations. anywhere, lengths, misread: scenarios of requests.Stream.
ODD_FORECASTS: lines chosen by hand, about every rule of their form. unread: a line that the console does not pass on.
"""
from banded import any_sets
from console_model import MOST_MASK, MOST_PLACE, doubtful, parse
from encoding import encode
from garbage import SAMPLES, cut, doubled, replaced, word_doubled, words_shuffled
from model import ONE_SOURCE, OPERATIONS, PLACES
from sentence_lines import malformed
from sources import masks

# No places: next to the largest and the last that 32 or 64 bits hold, and what is a place when cut to so many.
TOO_LARGE = (MOST_PLACE + 1, MOST_PLACE + 2, 2 ** 63, 2 ** 64 - 1, 2 ** 64, 2 ** 64 + 1, 10 ** 25)
TOLD = ("forecast product 0 1", "forecast product 7 7", "forecast inverse 0", "forecast converse 3", "forecast transpose 4", "forecast submatrix 0 3 3",
        "forecast submatrix 2 255 255", "length 0", "length 7")
ODD_FORECASTS = (
    "forecast", "forecast ", "forecast  ", " forecast inverse 0", "forecast  inverse 0", "forecast inverse  0", "forecast inverse 0 ", "forecast\tinverse 0",
    "forecast inverse\t0", "forecast inverse 0\r", "forecast inverse 0\x00", "forecast inverse \xb2", "Forecast inverse 0", "FORECAST inverse 0",
    "forecast Inverse 0", "forecast INVERSE 0", "forecasts inverse 0", "forecas inverse 0", "forecastinverse 0", "forecast inverse0", "forecast,inverse,0",
    "inverse forecast 0", "inverse 0 forecast", "forecast 0", "forecast 0 inverse", "forecast - 0", "forecast inverse -", "forecast inverse x",
    "forecast inverse -1", "forecast inverse 0x0", "forecast inverse 1e0", "forecast inverse 0.", "forecast inverse 0,1", "forecast product 0,1",
    # Words lacking.
    "forecast product", "forecast product ", "forecast product 0", "forecast product 0 ", "forecast inverse", "forecast inverse ", "forecast converse",
    "forecast transpose", "forecast submatrix", "forecast submatrix 0", "forecast submatrix 0 3", "forecast submatrix 0 3 ", "forecast submatrix 3 3",
    # A target, whatever it holds, and more.
    "forecast product 0 1 2", "forecast product 0 1 0", "forecast product 0 1 8", "forecast product 0 1 2 3", "forecast product 0 1 ", "forecast inverse 0 1",
    "forecast inverse 0 0", "forecast inverse 0 1 2", "forecast converse 0 1", "forecast converse 0 7", "forecast transpose 0 1", "forecast transpose 0 0",
    "forecast submatrix 0 3 3 1", "forecast submatrix 0 1 1 0", "forecast submatrix 0 3 3 1 1", "forecast submatrix 0 3 3 ", "forecast product 9 9 9",
    "forecast inverse 9 9", "forecast submatrix 9 0 0 9",
    # No sets.
    "forecast submatrix 0 256 1", "forecast submatrix 0 1 256", "forecast submatrix 0 257 1", "forecast submatrix 0 1 257", "forecast submatrix 0 -1 1",
    "forecast submatrix 0 1 -1", "forecast submatrix 0 x 1", "forecast submatrix 0 1 x", "forecast submatrix 0 - -", "forecast submatrix 0 1,1 1",
    "forecast submatrix 0 4294967297 1", "forecast submatrix 0 1 18446744073709551617", "forecast submatrix 9 256 1",
    # No operations.
    "forecast drop 0", "forecast load 0 -", "forecast load 7 -", "forecast write 0 13", "forecast minor 0 1 1", "forecast carry 0 1 0,0,0",
    "forecast reversals 0,0,0", "forecast rest -", "forecast show 0", "forecast length 0", "forecast build 7 1 3 7", "forecast sentence 38 11 0",
    "forecast add 1,2147483648,0 1,2147483648,0", "forecast forecast", "forecast forecast inverse 0", "forecast forecast product 0 1", "forecast steps 24",
    "forecast bound 51", "forecast quit", "steps 24", "steps", "bound 51 steps 24", "forecast minor", "forecast drop",
    "length", "length ", "length  0", "length 0 ", " length 0", "length 0 1", "length 0 512", "length -", "length x", "length -1", "length 0.", "length 0,1",
    "length 0x0", "length 1e0", "length\t0", "length 0\r", "length 0\x00", "length \xb2", "Length 0", "LENGTH 0", "lengths 0", "lengt 0", "length0",
    "length length", "length length 0", "length write 0", "length forecast inverse 0", "0 length", "write length 0", "wrote 13",
    "forecast inverse " + "9" * 30, "forecast product 0 " + "9" * 4077, "forecast product 0 " + "9" * 4078, "length " + "9" * 30, "length " + "1" * 4089,
    "length " + "1" * 4090,
)


def forecast_of(line):
    """The forecast of an operation's or recipe's line, its words without the target; None for another line."""
    words = line.split(" ")
    if words[0] == "recipe":
        return " ".join(["forecast", words[0], *words[2:]])
    return " ".join(["forecast", *words[:-1]]) if words[0] in OPERATIONS else None


def filled_by(stream, line):
    """The place that an operation, a load or a build left full, None for another line."""
    request = parse(line)
    if request is None or request[0] not in ("load", "build", *OPERATIONS):
        return None
    place = request[1][0 if request[0] in ("load", "build") else -1]
    return place if place < PLACES and stream.shelf.places[place] is not None else None


def foretold(scenario):
    """A scenario with the forecast of each operation before it, now and then after it again, and some lengths of what was filled."""
    def lines(stream):
        for line in scenario(stream):
            forecast = forecast_of(line)
            if forecast:
                yield forecast
            yield line
            if forecast and stream.rng.random() < 0.1:
                yield forecast
            place = filled_by(stream, line)
            if place is not None and stream.rng.random() < 0.3:
                yield from told_and_written(stream, place)
    return lines


def told_and_written(stream, place):
    """The length of a full place, and mostly a write that lends so many bytes, one less or one more."""
    yield f"length {place}"
    if stream.rng.random() < 0.6:
        yield f"write {place} {len(encode(stream.shelf.places[place])) + stream.rng.choice((-1, 0, 0, 1))}"


def anywhere(stream):
    """Forecasts of places and sets of any kind: empty, beyond the shelf, of unequal sizes, singular."""
    rng = stream.rng
    for _ in range(rng.randint(1, 4)):
        kind = rng.choice(("product", "product", "submatrix", "submatrix", "submatrix") + ONE_SOURCE)
        places = [rng.choice(stream.full()) if stream.full() and rng.random() < 0.5 else stream.any_place() for _ in range(2 if kind == "product" else 1)]
        held = stream.shelf.places[places[0]] if places[0] < PLACES else None
        sets = any_sets(rng, held) if held and rng.random() < 0.4 else masks(rng, held.n if held else stream.size())
        yield " ".join(map(str, ["forecast", kind, *places, *(sets if kind == "submatrix" else [])]))


def lengths(stream):
    """Lengths of places of any kind, and writes that just suffice or just don't."""
    yield from stream.filled_source()
    for _ in range(stream.rng.randint(1, 3)):
        if stream.rng.random() < 0.75:
            yield from told_and_written(stream, stream.rng.choice(stream.full()))
        else:
            yield f"length {stream.any_place()}"


def changed(rng):
    """A request of TOLD with one word changed, lacking, doubled, empty or behind it."""
    words = rng.choice(TOLD).split(" ")
    first = 1 if words[0] == "length" else 2
    i = rng.randrange(first, len(words))
    most = MOST_MASK if words[1] == "submatrix" and i > first else MOST_PLACE
    other = malformed(rng, int(words[i]), most) if most == MOST_MASK or rng.random() < 0.5 else rng.choice(TOO_LARGE)
    return " ".join(map(str, rng.choice((
        words[:i] + [other] + words[i + 1:], words[:i] + [other] + words[i + 1:], words[:-1], words + [rng.randrange(9)], words + [rng.randrange(9)],
        words[:i] + [""] + words[i:], words + [""], words[:1] + words, ["forecast", *words], words[1:2] + words[:1] + words[2:]))))


def unread(rng):
    """One of these, or what is no operation behind the word."""
    while True:
        line = rng.choice((changed(rng), changed(rng), "forecast " + rng.choice(SAMPLES), rng.choice(ODD_FORECASTS)))
        if parse(line) is None and not doubtful(line):
            return line


def misread(stream):
    """Lines that are no requests, or might be."""
    rng = stream.rng
    while True:
        line = unread(rng) if rng.random() < 0.6 else rng.choice((cut, doubled, replaced, words_shuffled, word_doubled))(rng, rng.choice(TOLD))
        if "\n" not in line and not doubtful(line):
            break
    yield line
