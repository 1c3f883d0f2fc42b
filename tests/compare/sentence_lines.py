"""Requests for sentences.

said: a number, an offset and places that there is a sentence of, the places drawn in one of the ways of DRAWS. spoiled: ones that are refused. unread: a line
that the console does not pass on. sentence_line: the request. sentences: a scenario of requests.Stream. sentence_cases: what a request shows;
every_sentence_case: all that the transcript has to show.
"""
from console_model import MOST_LENT, MOST_LISTED, MOST_SAID, doubtful
from model import PLACES
from sentences import LAST_NUMBER, MOST_NAMED, digits, needed, sayable

NUMBERS = range(1, LAST_NUMBER + 1)
# Next to the range, a little beyond, where 7, 8, 16, 31 and 32 bits end, and in the range when cut to 8, 16 or 31.
OUTSIDE = (0, LAST_NUMBER + 1, LAST_NUMBER + 2, 32, 100, 127, 128, 255, 256, 257, 256 + LAST_NUMBER, 65535, 65536, 65547, 65536 + LAST_NUMBER,
           2 ** 31 - 1, 2 ** 31, 2 ** 31 + LAST_NUMBER, MOST_SAID - 1, MOST_SAID)
# Where the count of digits changes, and where 8, 16, 31 and 32 bits end.
TELLING = (0, 1, 7, 8, 9, 10, 11, 19, 20, 90, 99, 100, 101, 110, 255, 256, 257, 999, 1000, 9999, 10000, 65535, 65536, 65537, 99999, 100000, 999999, 1000000,
           9999999, 10000000, 99999999, 100000000, 999999999, 1000000000, 2 ** 31 - 1, 2 ** 31, 2 ** 31 + 1, 4000000000, MOST_SAID - 1, MOST_SAID)
COUNT_WEIGHTS = (8, 8, 8, 6, 5, 5, 5, 10)
TOO_MANY = (8, 8, 8, *range(9, MOST_LISTED), 16, 16)
ALL_DIGITS = range(1, digits(MOST_SAID) + 1)
SPARE = {-1: "one byte short", 0: "just enough", 1: "one byte over"}


def sentence_line(length, number, offset, places):
    return " ".join(map(str, ["sentence", length, number, offset, *places]))


def of_digits(rng, count):
    """A number of so many digits, zero for one of them."""
    return rng.randrange(10 ** (count - 1) if count > 1 else 0, min(10 ** count, MOST_SAID + 1))


def any_number(rng):
    return rng.choice((rng.choice(TELLING), of_digits(rng, rng.choice(ALL_DIGITS)), rng.randrange(PLACES), rng.randint(0, MOST_SAID)))


def of_the_shelf(rng, count):
    return [rng.randrange(PLACES) for _ in range(count)]


def anywhere(rng, count):
    return [any_number(rng) for _ in range(count)]


def rising(rng, count):
    return sorted(anywhere(rng, count))


def falling(rng, count):
    return sorted(anywhere(rng, count), reverse=True)


def equal(rng, count):
    return [any_number(rng)] * count


def repeated(rng, count):
    """Few different ones, over and over."""
    return rng.choices(anywhere(rng, 2), k=count)


def large(rng, count):
    """Of ten digits."""
    return [rng.randint(10 ** 9, MOST_SAID) for _ in range(count)]


def run_together(rng, count):
    """Digits that other places have too when nothing stands between them."""
    return rng.choices((0, 1, 2, 12, 21, 10, 11, 111, 121, 1212), k=count)


DRAWS = (of_the_shelf, of_the_shelf, anywhere, anywhere, rising, falling, falling, equal, repeated, repeated, large, run_together)


def places_of(rng, count):
    return rng.choice(DRAWS)(rng, count)


def said(rng, number=None, count=None):
    """Number, offset and places."""
    if count is None:
        count = rng.choices(range(MOST_NAMED + 1), COUNT_WEIGHTS)[0]
    return number or rng.choice(NUMBERS), any_number(rng), places_of(rng, count)


def spoiled(rng):
    """A number outside 1 to 22, more than seven places, or both."""
    number, offset, places = said(rng)
    other, more = rng.choice((*OUTSIDE, rng.randint(LAST_NUMBER + 1, MOST_SAID))), places_of(rng, rng.choice(TOO_MANY))
    return rng.choice(((other, offset, places), (other, offset, places), (number, offset, more), (number, offset, more), (other, offset, more)))


def malformed(rng, word, most):
    """No number up to `most`: one beyond it, maybe the word again when cut; the word with a sign or another character; no number at all."""
    beyond = rng.choice((most + 1, most + 1, most + 2, 2 ** 32 + word, 2 ** 64 + word, 10 ** 25))
    return rng.choice((beyond, beyond, beyond, f"-{word}", f"+{word}", f"{word}.", f"{word},", f"{word}a", f"a{word}", f"0x{word:x}", f"{word}\t", "-", "x"))


def unread(rng):
    """One word malformed, words lacking, one empty, or 17 places."""
    while True:
        number, offset, places = said(rng)
        words = [rng.choice((0, MOST_LENT, needed(number, offset, places))), number, offset, *places]
        i = rng.randrange(len(words))
        changed = words[:i] + [malformed(rng, words[i], MOST_SAID if i else MOST_LENT)] + words[i + 1:]
        words = rng.choice((changed, changed, changed, words[:rng.randrange(3)], words[:i] + [""] + words[i:], words + [""],
                            words[:3] + places_of(rng, MOST_LISTED + 1)))
        line = " ".join(map(str, ["sentence", *words]))
        if not doubtful(line):
            return line


def sentences(stream):
    """A few, about as long as the lent bytes; now and then one that is refused or not even passed on."""
    rng = stream.rng
    for _ in range(rng.randint(1, 4)):
        if rng.random() < 0.08:
            yield unread(rng)
        else:
            asked = said(rng) if rng.random() < 0.75 else spoiled(rng)
            yield sentence_line(stream.lent(needed(*asked), MOST_LENT), *asked)


def order_of(places):
    """How each place follows the one before it."""
    steps = {(x > y) - (x < y) for x, y in zip(places, places[1:])}
    return {(1,): "falling", (0,): "equal", (-1,): "rising"}.get(tuple(steps), "mixed")


def sentence_cases(length, number, offset, places):
    """What a request shows."""
    if not sayable(number, places):
        if number not in NUMBERS and len(places) <= MOST_NAMED:
            yield f"number {number} refused"
        if number in NUMBERS:
            yield f"{len(places)} places refused"
        return
    spare = length - needed(number, offset, places)
    if spare in SPARE:
        yield f"number {number}, {SPARE[spare]}"
    if length in (0, MOST_LENT):
        yield f"{length} lent"
    if spare >= 0:
        yield from (f"{len(places)} places", f"{order_of(places)} places", f"offset of {digits(offset)} digits", f"offset {offset}")
        yield from (f"place of {digits(place)} digits" for place in places)


def every_sentence_case():
    yield from (f"number {number}, {lent}" for number in NUMBERS for lent in SPARE.values())
    yield from (f"{count} places" + " refused" * (count > MOST_NAMED) for count in range(MOST_LISTED + 1))
    yield from (f"{word} of {count} digits" for word in ("offset", "place") for count in ALL_DIGITS)
    yield from (f"number {number} refused" for number in OUTSIDE)
    yield from (f"offset {offset}" for offset in (0, 9, 10, 99, 100, MOST_SAID))
    yield from ("0 lent", f"{MOST_LENT} lent", "falling places", "equal places", "rising places")
