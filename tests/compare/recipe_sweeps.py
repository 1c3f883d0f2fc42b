"""Sweeps about recipes, document 02, (f): each number of steps at each number of rows, foretold and mostly run, each way at each step and beside each other;
counts that are refused; each fault at each step, and every order of tests; sizes that differ here and there; places that no step names; zeros; results at the
edge of the stored exponents; places at the limits; lines that are no requests. Each takes a requests.Stream and gives lines as its scenarios do."""
from itertools import cycle, product

from banded import banded, few_zeros, leaping
from banded_sweeps import BEYOND, cleared, load, mild, undone
from console_model import MOST_LISTED
from forecast_lines import forecast_of
from forecast_sweeps import UNKNOWN
from model import MOST_STEPS, PLACES
from number import LOW, ONE, ZERO
from recipe_lines import COUNTS, ODD_RECIPES, WAYS, aimed_steps, recipe_line
from sources import EDGE
from words import Matrix

REFUSED_COUNTS = (0, 1, *range(MOST_STEPS + 1, MOST_LISTED + 1))
# Those that are run as well.
RUN_COUNTS = (0, 1, 7, 8, 15, 16)
# The numbers of steps that are run, from one row to eight; the others are foretold alone.
RUN = ((2, 6), tuple(COUNTS), tuple(COUNTS), (2, 4, 6), (3, 5), (2, 6), (4,), (3, 6))
# Each way before each, and before itself; where a recipe begins in it is chosen so that each way stands at each step.
WAYS_IN_TURN = tuple(WAYS[int(k)] for k in "0010203112132233")
# Sizes by the place that holds them, odd ones where some neighbours, the ends, halves or pairs are alike.
UNLIKE = ("011", "0010", "0011", "0110", "0101", "00100", "01110", "010101", "001122", "000111", "011110", "012012")
RUN_UNLIKE = ("0011", "0110", "001122")


def taken(places, way="plain"):
    return [(place, way) for place in places]


def told(line):
    yield from (forecast_of(line), line)


def every_size_joined(stream):
    """Of each size two places, from two rows on one of them with zeros, taken in turn."""
    rng, places = stream.rng, cycle((0, 1, 1, 0, 1))
    yield from cleared(stream)
    for n, counts in enumerate(RUN, 1):
        yield from (load(0, mild(rng, n)), load(1, mild(rng, n) if n == 1 else banded(rng, n, leaping if n > 3 else few_zeros, mild)))
        for count in COUNTS:
            line = recipe_line(2, [(next(places), WAYS_IN_TURN[(13 * n + 7 * count + k) % 16]) for k in range(count)])
            yield forecast_of(line)
            if count in counts:
                yield from undone(stream, line, 2)
        yield from cleared(stream)


def every_count(stream):
    """Steps that are too few or too many, alone and with each fault that is tested later."""
    rng = stream.rng
    yield from cleared(stream)
    good, other, hollow, target = rng.sample(range(PLACES), 4)
    yield from (load(good, mild(rng, 2)), load(other, mild(rng, 3)))
    for count in REFUSED_COUNTS:
        lines = [*told(recipe_line(target, [(good, rng.choice(WAYS)) for _ in range(count)]))]
        yield from lines if count in RUN_COUNTS else lines[:1]
    for count, *places in ((0, good), (1, hollow), (1, BEYOND), (7, good, hollow), (7, hollow, BEYOND), (7, BEYOND, good), (7, good, other), (16, other)):
        line = recipe_line(good if count % 2 else BEYOND, taken((places * count)[:count], rng.choice(WAYS)))
        yield from told(line)


def every_order_joined(stream):
    """Two faults at once, each before and behind the other among the steps; exponents are out of range in `wild` where a way keeps its diagonal."""
    yield from cleared(stream)
    good, wild, other, hollow, target = stream.rng.sample(range(PLACES), 5)
    for place, source in ((good, Matrix(2, (ONE,) * 4)), (wild, Matrix(2, ((LOW, EDGE),) * 4)), (other, mild(stream.rng, 3))):
        yield load(place, source)
    for into, *places in (
            (target, hollow, BEYOND), (target, BEYOND, hollow), (good, good, hollow, BEYOND), (BEYOND, hollow, good), (good, BEYOND, good),
            (target, good, other, BEYOND), (good, BEYOND, other, good), (BEYOND, good, other), (BEYOND, wild, wild), (good, hollow, good), (wild, good, hollow),
            (target, good, other, hollow), (target, hollow, good, other), (good, other, hollow, wild), (good, good, other), (wild, other, good),
            (good, wild, wild), (target, wild, wild), (hollow, hollow, hollow)):
        yield from told(recipe_line(into, taken(places)))
    yield from cleared(stream)


def every_step_wrong(stream):
    """At each step a place above 7, an empty one, one of another size, the target itself: of three and five steps foretold, of six run."""
    rng = stream.rng
    yield from cleared(stream)
    good, other, third, hollow, target = rng.sample(range(PLACES), 5)
    yield from (load(good, mild(rng, 2)), load(other, mild(rng, 3)), load(third, mild(rng, 1)))
    for count, wrong in product((3, 5, 6), (BEYOND, hollow, other)):
        for k in range(count):
            steps = [(wrong if k == i else good, rng.choice(WAYS)) for i in range(count)]
            line = recipe_line(target, steps)
            yield line if count == MOST_STEPS else forecast_of(line)
    for text in UNLIKE:
        lines = [*told(recipe_line(target, [((good, other, third)[int(x)], rng.choice(WAYS)) for x in text]))]
        yield from lines if text in RUN_UNLIKE else lines[:1]
    for k in range(3):
        yield recipe_line(other, [(other if k == i else good, "plain") for i in range(3)])
    yield from cleared(stream)


def every_place_joined(stream):
    """Six places in six steps, in both directions, and one in all six; a full shelf; steps that leave place 0 out, which is empty or has another size."""
    rng = stream.rng
    yield from cleared(stream)
    for place in range(1, 7):
        yield load(place, mild(rng, 2))
    six = [(place, rng.choice(WAYS)) for place in range(1, 7)]
    yield from told(recipe_line(7, six))
    yield from ("drop 7", *told(recipe_line(7, taken([5] * 6, "inverse"))), "drop 7")
    yield recipe_line(7, six[3:5])
    yield load(0, mild(rng, 3))
    yield from (*told(recipe_line(0, six[:2])), "drop 7")
    for count in (2, 3, 5):
        yield from undone(stream, recipe_line(7, six[6 - count:]), 7)
    yield from cleared(stream)


def every_zero_joined(stream):
    """Zeros on one side, with sets R that leave rows out, each way twice and beside the plain one; a diagonal beside each way, which then stands alone."""
    rng = stream.rng
    yield from cleared(stream)
    upper = banded(rng, 4, lambda rng, n: ([0, 0, 0], [3, 0, 1]), mild)
    yield from (load(0, upper), load(1, Matrix(4, tuple(ONE if k % 5 == 0 else ZERO for k in range(16)))))
    for steps in (*(taken((0, 0), way) for way in WAYS), taken((0, 0), "transpose") + taken((0,)),
                  *([(0, way), (1, "plain")] for way in WAYS[1:]), [(1, "inverse"), (0, "transpose"), (1, "converse")]):
        yield from undone(stream, recipe_line(2, steps), 2)
    yield from cleared(stream)


def every_edge_joined(stream):
    """One row with exponents at the ends, where the whole is stored and what comes of some steps is not; larger ones about the edge."""
    yield from cleared(stream)
    for place, e in enumerate((EDGE, -31, -30, -32)):
        yield load(place, Matrix(1, ((LOW, e),)))
    for text in ("0,plain 1,plain", "0,converse 2,transpose", "0,transpose 2,inverse", "0,inverse 1,plain", "0,transpose 2,plain 3,plain",
                 "0,plain 0,plain 0,inverse", "0,inverse 0,converse 0,plain", "0,inverse 0,inverse 0,inverse 0,plain 0,plain 0,plain"):
        yield from undone(stream, f"recipe 4 {text}", 4)
    yield from cleared(stream)
    for n, count in ((2, 3), (3, 2)):
        ways, sources = aimed_steps(stream.rng, n, count)
        yield from (load(place, source) for place, source in enumerate(sources))
        yield from undone(stream, recipe_line(7, list(enumerate(ways))), 7)
        yield from cleared(stream)


def every_limit_joined(stream):
    """Places above the shelf, as a step and as the target, and lines that are no requests, with places full that they name."""
    yield from cleared(stream)
    yield from (load(0, mild(stream.rng, 2)), load(1, mild(stream.rng, 2)))
    for k, place in enumerate(UNKNOWN[::2]):
        yield recipe_line(place, taken((0, 1))) if k % 3 == 2 else forecast_of(recipe_line(2, [(0, "plain"), (place, "transpose")][::1 - 2 * (k % 2)]))
    yield from ODD_RECIPES
    yield from cleared(stream)


def every_recipe(stream):
    """All of these, the ones that take longest last."""
    for part in (every_count, every_order_joined, every_step_wrong, every_place_joined, every_zero_joined, every_edge_joined, every_limit_joined,
                 every_size_joined):
        yield from part(stream)
