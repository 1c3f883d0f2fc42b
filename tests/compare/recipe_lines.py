"""Recipes, document 02, (f): request lines.

recipe_line: the request. joined, unequal, edge, anywhere, misread: scenarios of requests.Stream. aimed_steps: sources and ways whose result lies at the edge of
the stored exponents. ODD_RECIPES: lines chosen by hand, about every rule of their form. unread: a line that the console does not pass on.
"""
from banded import any_matrix
from console_model import MOST_LISTED, MOST_PLACE, doubtful, parse
from forecast_lines import TOO_LARGE
from garbage import SAMPLES, cut, doubled, replaced, word_doubled, words_shuffled
from model import FEWEST_STEPS, MOST_STEPS
from sentence_lines import malformed
from sources import EDGE, filled, shifted, spread_number
from words import WAYS as WAY_WORDS, operate

WAYS = tuple(WAY_WORDS)
COUNTS = range(FEWEST_STEPS, MOST_STEPS + 1)
RECIPES = ("recipe 7 0,plain 1,plain", "recipe 2 0,inverse 1,converse 0,transpose", "recipe 5 4,transpose 4,transpose 4,plain 4,inverse 4,converse 4,plain",
           "forecast recipe 0,plain 1,transpose 0,inverse", "forecast recipe 3,converse 3,converse")
ODD_RECIPES = (
    "recipe", "recipe ", " recipe 7 0,plain 1,plain", "recipe  7 0,plain 1,plain", "recipe 7  0,plain 1,plain", "recipe 7 0,plain  1,plain",
    "recipe 7 0,plain 1,plain ", "recipe 7 ", "recipe\t7 0,plain 1,plain", "recipe 7 0,plain\t1,plain", "recipe 7 0,plain 1,plain\r",
    "recipe 7 0,plain 1,plain\x00", "recipe 7 0,plain \xb2,plain", "Recipe 7 0,plain 1,plain", "RECIPE 7 0,plain 1,plain", "recipes 7 0,plain 1,plain",
    "recip 7 0,plain 1,plain", "recipe,7,0,plain,1,plain",
    # The target lacking, last, or none.
    "recipe 0,plain 1,plain", "recipe 0,plain 1,plain 7", "recipe 0,plain 7 1,plain", "recipe x 0,plain 1,plain", "recipe - 0,plain 1,plain",
    "recipe 7,plain 0,plain 1,plain", "recipe -7 0,plain 1,plain", "recipe 7 2 0,plain 1,plain",
    # Steps that are none: the comma, the way, the place.
    "recipe 7 0 1", "recipe 7 0,plain 1", "recipe 7 0, 1,plain", "recipe 7 ,plain 1,plain", "recipe 7 , ,", "recipe 7 plain plain", "recipe 7 0plain 1plain",
    "recipe 7 0 plain 1 plain", "recipe 7 0, plain 1, plain", "recipe 7 0,,plain 1,plain", "recipe 7 0,plain, 1,plain", "recipe 7 ,0,plain 1,plain",
    "recipe 7 0,plain,plain 1,plain", "recipe 7 0,plain,1,plain", "recipe 7 0,1,plain 1,plain", "recipe 7 0;plain 1;plain", "recipe 7 plain,0 plain,1",
    "recipe 7 0,0 1,1", "recipe 7 0,Plain 1,plain", "recipe 7 0,plain 1,PLAIN", "recipe 7 0,plai 1,plain", "recipe 7 0,plain 1,plains",
    "recipe 7 0,inverse 1,inv", "recipe 7 0,converse 1,conversed", "recipe 7 0,transpose 1,transposed", "recipe 7 0,submatrix 1,plain",
    "recipe 7 0,plain\x00 1,plain", "recipe 7 0,plain 1,\xffplain", "recipe 7 0,- 1,plain", "recipe 7 -,plain 1,plain", "recipe 7 -1,plain 1,plain",
    "recipe 7 0,plain -1,plain", "recipe 7 0,plain -0,plain", "recipe 7 +0,plain 1,plain", "recipe 7 a,plain 1,plain",
    # One beyond the largest place, and what is a place when cut to 32 or 64 bits; faults behind a count that is refused.
    "recipe 7 0,plain 4294967296,plain", "recipe 7 4294967297,plain 1,plain", "recipe 7 0,plain 18446744073709551617,plain",
    "recipe 4294967303 0,plain 1,plain", "recipe 4294967296", "recipe 7" + " 0,plain" * 6 + " x", "recipe 7" + " 0,plain" * 15 + " 0,plane",
    "recipe 7" + " 0,plain" * 17, "recipe 9" + " 9,inverse" * 17, "recipe 7" + " 0,plain" * 16 + " x", "recipe 7" + " 0,plain" * 16 + " ",
    "recipe 7" + " 4294967295,transpose" * 17, "recipe 7 " + "9" * 30 + ",plain 1,plain", "recipe 7 0,plain 1," + "p" * 4078,
    "recipe 7 0,plain 1," + "p" * 4079, "recipe 7 0,plain 1,plain" + " " * 4073, "forecast recipe ", "forecast recipe  0,plain 1,plain",
    "forecast  recipe 0,plain 1,plain", "forecast recipe 0,plain 1,plain ", "forecast recipe 7 0,plain 1,plain", "forecast recipe 0,plain 1,plain 7",
    "forecast recipe 7", "forecast recipe 0 1", "forecast recipe 0,plain 1,Plain", "forecast recipe 0,plain,1,plain", "forecast recipe 0,plain -1,plain",
    "forecast recipe 0,plain 4294967296,plain", "forecast recipe" + " 0,plain" * 17, "forecast recipe" + " 0,plain" * 16 + " 0",
    "forecast recipe recipe 0,plain 1,plain", "forecast forecast recipe 0,plain 1,plain", "recipe forecast 0,plain 1,plain", "forecast 0,plain 1,plain",
)


def recipe_line(target, steps):
    return " ".join(["recipe", str(target), *("%d,%s" % step for step in steps)])


def any_steps(rng, places, count):
    """So many steps of some of the places; as often as not all of one place, or all taken one way."""
    places = rng.choice((places, places, [rng.choice(places)]))
    ways = rng.choice((WAYS, WAYS, WAYS, [rng.choice(WAYS)]))
    return [(rng.choice(places), rng.choice(ways)) for _ in range(count)]


def joined(stream):
    """Places of one size, full and banded, joined again and again; what comes out is taken on."""
    rng, n = stream.rng, stream.size()
    yield from stream.make_room(5)
    for _ in range(rng.randint(1, 4)):
        yield from stream.put(any_matrix(rng, n))
    for _ in range(rng.randint(1, 3)):
        yield from stream.make_room(kept=stream.last)
        fits = [place for place in stream.full() if stream.n(place) == n]
        target = rng.choice(stream.free() if rng.random() < 0.95 else fits)
        yield recipe_line(target, any_steps(rng, fits, rng.choice(COUNTS)))


def unequal(stream):
    """Two sizes, or three, among the steps: one odd step at any place, or blocks, or any."""
    rng = stream.rng
    yield from stream.make_room(5)
    places = []
    for n in rng.sample((1, 2, 3, 4, 5), 3):
        yield from stream.put(any_matrix(rng, n))
        places.append(stream.last)
    for _ in range(rng.randint(1, 4)):
        count = rng.choice(COUNTS)
        chosen = [places[0]] * count
        begin, length = rng.randrange(count), rng.choice((1, 1, 2, 3))
        chosen[begin:begin + length] = [places[1]] * len(chosen[begin:begin + length])
        chosen = rng.choice((chosen, chosen, rng.choices(places, k=count), rng.choices(places[:2], k=count)))
        target = rng.choice(stream.free())
        yield recipe_line(target, [(place, rng.choice(WAYS)) for place in chosen])
        # Any choice may be of one size after all.
        if stream.shelf.places[target] is not None:
            yield f"drop {target}"
    yield from (f"drop {place}" for place in places)


def aimed_steps(rng, n, count):
    """Ways, and sources moved so that one new factor of the whole is about 1000 or -1000 while what comes of a few steps may lie far outside."""
    ways = tuple(rng.choice(WAYS) for _ in range(count))
    sources = [filled(lambda rng: spread_number(rng, 3))(rng, n) for _ in ways]
    factors = operate(ways, sources).factors
    place = rng.randrange(len(factors))
    i, j = divmod(place, n)
    wanted = rng.choice((-EDGE - 1, -EDGE, EDGE, EDGE + 1)) - factors[place][1]
    if i == j:
        parts = [rng.randint(-900, 900) for _ in ways]
        parts[-1] = wanted - sum(parts[:-1])
        moves = [(-part if way == "inverse" else part, 0) for way, part in zip(ways, parts)]
    else:
        side = wanted if i > j else -wanted
        moves = [(0, -side if way in ("converse", "transpose") else side) for way in ways]
    moved = [shifted(source, *move) for source, move in zip(sources, moves)]
    return ways, [source if there is None else there for source, there in zip(sources, moved)]


def edge(stream):
    """A recipe just inside or just outside the stored exponents, and one with its steps in another order."""
    rng = stream.rng
    count, n = rng.choice((2, 2, 3, 3, 4, 5, 6)), rng.choice((1, 1, 2, 2, 3))
    yield from stream.make_room(count + 1)
    places = []
    ways, sources = aimed_steps(rng, n, count)
    for source in sources:
        yield from stream.put(source)
        places.append(stream.last)
    steps, target = list(zip(places, ways)), rng.choice(stream.free())
    yield recipe_line(target, steps)
    if stream.shelf.places[target] is not None:
        yield f"drop {target}"
    yield recipe_line(target, rng.sample(steps, count))
    yield from (f"drop {place}" for place in places)


def anywhere(stream):
    """Any number of steps, of places of any kind, into any."""
    rng = stream.rng
    for _ in range(rng.randint(1, 4)):
        count = rng.randint(0, rng.choice((MOST_STEPS + 2, MOST_LISTED)))
        places = [stream.any_place() if rng.random() < 0.3 or not stream.full() else rng.choice(stream.full()) for _ in range(count)]
        yield recipe_line(stream.any_place(), [(place, rng.choice(WAYS)) for place in places])


def malformed_step(rng, place, way):
    """A step with another comma, another way or no place."""
    other = rng.choice((way.upper(), way.title(), way[:-1], way + "s", way[1:], "", "-", "product", f"{way},", f"{way},{way}", f",{way}", f"{way}\t"))
    number = malformed(rng, place, MOST_PLACE) if rng.random() < 0.5 else rng.choice(TOO_LARGE)
    return rng.choice((f"{place},{other}", f"{place},{other}", f"{number},{way}", f"{place}{rng.choice(';:. ')}{way}", f"{way},{place}", str(place), way))


def changed(rng):
    """A request of RECIPES with one word changed, lacking, doubled, empty or behind it, or with one step too many for a list."""
    words = rng.choice(RECIPES).split(" ")
    i = rng.randrange(2, len(words))
    place, way = words[i].split(",")
    other = words[:i] + [malformed_step(rng, int(place), way)] + words[i + 1:]
    target = [words[0], str(rng.choice(TOO_LARGE)), *words[2:]]
    return " ".join(rng.choice((other, other, other, target, words[:1] + words[2:], words[:i] + [""] + words[i:], words + [""], words + ["7"],
                                words[:2] + [words[i]] * (MOST_LISTED + 1), words[:1] + words, ["forecast", *words])))


def unread(rng):
    """One of these, or another request's words behind the word."""
    while True:
        line = rng.choice((changed(rng), changed(rng), "recipe " + rng.choice(SAMPLES), rng.choice(ODD_RECIPES)))
        if parse(line) is None and not doubtful(line):
            return line


def misread(stream):
    """Lines that are no requests, or might be."""
    rng = stream.rng
    while True:
        line = unread(rng) if rng.random() < 0.6 else rng.choice((cut, doubled, replaced, words_shuffled, word_doubled))(rng, rng.choice(RECIPES))
        if "\n" not in line and not doubtful(line):
            break
    yield line
