"""Checks of whole recipes, document 02, (f): results found by hand, words against matrices, the product of the steps' matrices in fractions, errors within the
bound, two plain steps against the product, each way alone, steps, the order of tests, the lines drawn, the console's lines."""
import random
from collections import Counter
from fractions import Fraction
from functools import reduce
from itertools import product

from banded import banded
from banded_sweeps import mild
from check_banded import fractions_matrix, held
from check_forecasts import steps_afresh
from checks import check, refused, same
from comparison import batch
from console_model import BAD_REQUEST, Console, doubtful, parse
from encoding import Refusal, encode
from exact import entries_of, exact_run, identity, in_fractions, inverse, largest_units, letter_matrix, matrix_product, requested
from model import ORDER, Shelf
from number import LOW, ONE, ZERO, round_fraction
from recipe_cases import unjoined
from recipe_lines import COUNTS, ODD_RECIPES, RECIPES, WAYS, anywhere, edge, joined, misread, unequal, unread
from recipe_sweeps import every_recipe
from requests import Stream
from sources import KINDS
from words import WAYS as WORDS, Matrix, bound, foretold, interval, operate, operate_counted, rows_of, transpose, word

# Rows 1 1, 1 2, and rows 1 2, 3 7, both of determinant one. Of the second the re-signed inverse has the rows 7 2, 3 1, the converse 7 3, 2 1.
EVEN, UNEVEN = fractions_matrix("1 1  1 1"), fractions_matrix("1 2  3 1")
# Found by hand: sources and ways, the product's rows, and its factors: a, b over a, c over a, and the determinant over a.
BY_HAND = (
    ([EVEN] * 2, "plain plain", "2 3  3 5", "2 3/2  3/2 1/2"), ([EVEN] * 3, "plain plain plain", "5 8  8 13", "5 8/5  8/5 1/5"),
    ([EVEN] * 2, "plain inverse", "3 2  4 3", "3 2/3  4/3 1/3"), ([UNEVEN] * 2, "plain transpose", "5 17  17 58", "5 17/5  17/5 1/5"),
    ([UNEVEN] * 2, "transpose plain", "10 23  23 53", "10 23/10  23/10 1/10"), ([UNEVEN] * 2, "plain inverse", "13 4  42 13", "13 4/13  42/13 1/13"),
    ([UNEVEN] * 2, "plain converse", "11 5  35 16", "11 5/11  35/11 1/11"), ([UNEVEN] * 2, "converse plain", "16 35  5 11", "16 35/16  5/16 1/16"),
    ([UNEVEN, EVEN], "transpose plain", "4 7  9 16", "4 7/4  9/4 1/4"), ([EVEN, UNEVEN], "plain transpose", "3 10  5 17", "3 10/3  5/3 1/3"),
    # The numbers of Fibonacci: six times, and each factor is rounded once.
    ([EVEN] * 6, "plain plain plain plain plain plain", "89 144  144 233", "89 144/89  144/89 1/89"),
    ([Matrix(1, (ONE,))] * 6, "plain inverse converse transpose plain inverse", "1", "1"),
)


@check
def recipes_by_hand(rng, rounds):
    """The rows, by ordinary arithmetic, by the exact run, and by the rounded rule, which rounds nothing here but the last quotient."""
    for sources, text, rows, factors in BY_HAND:
        ways, wanted = tuple(text.split()), [Fraction(x) for x in factors.split()]
        same((text, sum(requested(ways, sources), [])), (text, [Fraction(x) for x in rows.split()]))
        same((text, list(exact_run(ways, sources))), (text, wanted))
        same((text, list(operate(ways, sources).factors)), (text, list(map(round_fraction, wanted))))
        shelf = Shelf()
        for place, source in enumerate(sources):
            shelf.load(place, encode(source))
        same(shelf.recipe(7, list(enumerate(ways))), (bound(ways, shelf.places[7].n), operate_counted(ways, sources)[1]))
        same((text, list(shelf.places[7].factors)), (text, list(map(round_fraction, wanted))))


def by_entries(way, source):
    """What a step's matrix is, from the source's entries alone."""
    entries, n = entries_of(source), source.n
    if way == "inverse":
        entries = inverse(entries)
        same(matrix_product(entries, entries_of(source)), identity(n))
    pick = {"plain": lambda i, j: entries[i][j], "inverse": lambda i, j: (-1) ** (i + j) * entries[i][j],
            "converse": lambda i, j: entries[n - 1 - i][n - 1 - j], "transpose": lambda i, j: entries[j][i]}[way]
    return [[pick(i, j) for j in range(n)] for i in range(n)]


@check
def words_of_ways(rng, rounds):
    """Each way's letters multiply out to the step's matrix, and so do joined ones; a transposed word is the plain one of the exchanged factors."""
    for _ in range(rounds // 8):
        n, count = rng.randint(1, 5), rng.randint(1, 4)
        sources = [rng.choice((banded, mild))(rng, n) for _ in range(count)]
        ways = [rng.choice(WAYS) for _ in sources]
        letters = in_fractions(sum((WORDS[way](source) for way, source in zip(ways, sources)), []))
        wanted = reduce(matrix_product, map(by_entries, ways, sources))
        same((ways, reduce(matrix_product, (letter_matrix(letter, n) for letter in letters))), (ways, wanted))
        same((ways, requested(tuple(ways), sources)), (ways, wanted))
    for n in range(1, 9):
        for source in (banded(rng, n), mild(rng, n)):
            same(WORDS["transpose"](source), word(transpose(source)))
        assert n == 1 or WORDS["transpose"](source) != word(source)


@check
def recipes_exact(rng, rounds):
    """The exact run multiplies out to the product of the steps' matrices and elimination finds no other; zeros, pattern and bound of the rounded result."""
    for _ in range(rounds // 10):
        count = rng.choice(COUNTS)
        n = rng.choice((1, 2, 3, 3, 4, 4) if count > 4 else (1, 2, 3, 4, 5))
        places = [rng.choice((banded, mild, rng.choice(KINDS)))(rng, n) for _ in range(rng.randint(1, count))]
        held(tuple(rng.choice(WAYS) for _ in range(count)), [rng.choice(places) for _ in range(count)])


@check
def recipes_within(rng, rounds):
    """Every size and number of steps lies within the bound, wide exponents among them, and errors are seen at all."""
    seen = Counter()
    for n, count in product(range(1, 9), COUNTS):
        for _ in range(max(1, rounds // (100 if n < 6 else 400))):
            ways = tuple(rng.choice(WAYS) for _ in range(count))
            sources = [rng.choice((banded, mild, rng.choice(KINDS)) if n < 7 else (banded, mild))(rng, n) for _ in ways]
            error = largest_units(ways, sources, operate(ways, sources))
            assert error <= bound(ways, n), (ways, sources, error)
            seen[count] += error > 1
    assert all(seen[count] for count in COUNTS), seen


def answered(call, *words):
    try:
        return call(*words)
    except Refusal as fault:
        return fault.number


@check
def two_plain_steps(rng, rounds):
    """The product call's bits, bound and steps, and its refusal where that is refused."""
    seen = Counter()
    for _ in range(rounds // 4):
        n, shelf = rng.choices(range(1, 9), (2, 4, 6, 6, 4, 2, 1, 1))[0], Shelf()
        for place in (0, 1):
            shelf.load(place, encode(rng.choice((banded, rng.choice(KINDS)))(rng, n)))
        left, right = rng.choices((0, 1), k=2)
        one, other = answered(shelf.product, left, right, 2), answered(shelf.recipe, 3, [(left, "plain"), (right, "plain")])
        same((shelf.places[:2], left, right, one, shelf.places[2]), (shelf.places[:2], left, right, other, shelf.places[3]))
        seen[one == 14] += 1
    assert seen[True] and seen[False], seen


@check
def ways_alone(rng, rounds):
    """Beside a diagonal of ones, whose letters add nothing and whose D keeps every number, a step gives the bits of its own operation."""
    for _ in range(rounds // 4):
        n = rng.choices(range(1, 9), (2, 4, 6, 6, 4, 2, 1, 1))[0]
        source, every = rng.choice((banded, rng.choice(KINDS)))(rng, n), interval(1, n)
        diagonal = Matrix(n, tuple(ONE if k % (n + 1) == 0 else ZERO for k in range(n * n)))
        alone = {"plain": operate("submatrix", [source], every, every), "inverse": operate("inverse", [source]),
                 "converse": operate("converse", [source]), "transpose": operate("submatrix", [transpose(source)], every, every)}
        for way, other in product(WAYS, WAYS):
            same((source, way, operate((other, way, other), [diagonal, source, diagonal])), (source, way, alone[way]))


@check
def recipe_efforts(rng, rounds):
    """Steps and bounds: half as many times the product's as there are steps, whatever the ways; counted again with nothing remembered."""
    for n, count in product(range(1, 9), COUNTS):
        same((n, count, foretold(("plain",) * count, n, n)), (n, count, count * n * (n - 1) * (2 * n - 1) * 2 ** (n - 1)))
        same(2 * foretold(("plain",) * count, n, n), count * foretold("product", n, n))
        # Four minors, each with two roundings for a letter of E or Et and n for D, then two products and a quotient.
        same(bound(("plain",) * count, n), 4 * count * sum(2 if kind != "D" else n for kind, _, _ in word(Matrix(n, (ONE,) * n * n))) + 3)
    same([bound(("plain",) * 6, 8), bound(("plain",) * 2, 8), foretold(("plain",) * 3, 2, 2)], [2883, 963, 36])
    for _ in range(rounds // 8):
        n, ways = rng.randint(1, 4), tuple(rng.choice(WAYS) for _ in range(rng.choice(COUNTS)))
        sources = [rng.choice((banded, mild))(rng, n) for _ in ways]
        made = operate_counted(ways, sources)[1]
        same((ways, sources, made), (ways, sources, foretold(("plain",) * len(ways), n, n)))
        if n * len(ways) < 13:
            same((ways, sources, made), (ways, sources, steps_afresh(ways, sources, *[rows_of(interval(1, n))] * 2)))


@check
def recipes_refused(rng, rounds):
    """18 first of all, then 1, 11, 12, 13, 14; a forecast without 12 and 14; a refused recipe leaves the shelf."""
    same([ORDER[call] for call in ("recipe", "forecast recipe")], [(18, 1, 11, 12, 13, 14), (18, 1, 11, 13)])
    shelf = Shelf()
    for place, source in ((0, EVEN), (1, Matrix(3, (ONE,) * 9)), (2, Matrix(2, ((LOW, 1000),) * 4))):
        shelf.load(place, encode(source))
    before = list(shelf.places)
    for target, places, wanted, told in (
            (9, [9] * 7, 18, 18), (0, [], 18, 18), (0, [7], 18, 18), (7, [0], 18, 18), (7, [0] * 7, 18, 18), (7, [0, 1] * 8, 18, 18), (9, [7, 7], 1, 11),
            (0, [7, 8], 1, 1), (7, [0, 1, 8], 1, 1), (9, [0, 1], 1, 13), (9, [2, 2], 1, 24), (0, [0, 7], 11, 11), (0, [7, 0], 11, 11), (7, [0, 1, 7], 11, 11),
            (7, [7, 0, 1], 11, 11), (0, [0, 1], 12, 13), (1, [2, 2], 12, 24), (2, [0, 0], 12, 24), (7, [0, 1], 13, 13), (7, [0, 0, 1], 13, 13),
            (7, [1, 0, 0], 13, 13), (7, [0, 1, 0], 13, 13), (7, [0, 0, 1, 1], 13, 13), (7, [0, 0, 0, 0, 1, 0], 13, 13), (7, [2, 2], 14, 24)):
        steps = [(place, "plain") for place in places]
        same((target, places, refused(shelf.recipe, target, steps)), (target, places, (wanted, 0)))
        found = refused(shelf.forecast, "recipe", steps)
        same((target, places, found or (shelf.forecast("recipe", steps), 0)), (target, places, (told, 0)))
    same(shelf.places, before)


@check
def recipes_drawn(rng, rounds):
    """Lines that are no requests are none, and are not left open; the swept ones show every case; the scenarios reach every refusal, way and count."""
    assert not any(map(doubtful, ODD_RECIPES)) and len(set(ODD_RECIPES)) == len(ODD_RECIPES)
    same([line for line in ODD_RECIPES if parse(line) is not None], [])
    assert all(parse(line) for line in RECIPES)
    for _ in range(5 * rounds):
        line = unread(rng)
        assert parse(line) is None and not doubtful(line), line
    asked, _ = batch(lambda shelf: (), 0, lambda shelf: every_recipe(Stream(random.Random(rng.random()), shelf)))
    same(unjoined(asked), [])

    def scenarios(shelf):
        maker = Stream(random.Random(rng.random()), shelf)
        while True:
            yield from rng.choice((joined, joined, unequal, edge, anywhere, anywhere, misread))(maker)

    asked, wanted = batch(scenarios, 1000 + 5 * rounds)
    assert not any(map(doubtful, asked))
    met = Counter()
    for request, answer in ((parse(line), answer.split(" ")) for line, answer in zip(asked, wanted)):
        if request and request[0] == "recipe":
            met.update([answer[1] if answer[0] == "refused" else 0, f"{len(request[1][1])} steps"])
            met.update(f"{way} taken" for _, way in request[1][1] if answer[0] == "bound")
    wanted = (0, "1", "11", "12", "13", "14", "18", *(f"{way} taken" for way in WAYS), *(f"{count} steps" for count in range(17)))
    same([case for case in wanted if not met[case]], [])


@check
def console_recipes(rng, rounds):
    """Lines and answers."""
    session, one = Console(), "ca0700"
    # The three steps have the rows 7 5, 11 8, so the factors 7, 5/7, 11/7, 1/7.
    talk = [("load 0 02" + one * 4, "loaded"), ("load 1 02" + one * 4, "loaded"), ("forecast recipe 0,plain 1,transpose 0,inverse", "steps 36"),
            ("recipe 2 0,plain 1,plain", "bound 51 steps 24"), ("show 2", "matrix 2 2147483648 -30 3221225472 -31 3221225472 -31 2147483648 -32"),
            ("recipe 3 0,plain 1,transpose 0,inverse", "bound 75 steps 36"), ("show 3", "matrix 2 3758096384 -29 3067833783 -32 3374617161 -31 2454267026 -34"),
            ("recipe 4", "refused 18 at 0"), ("recipe 9 9,plain", "refused 18 at 0"), ("forecast recipe", "refused 18 at 0"),
            ("recipe 4" + " 7,plain" * 16, "refused 18 at 0"), ("recipe 4" + " 7,plain" * 17, BAD_REQUEST), ("recipe 0 0,plain 0,plain", "refused 12 at 0"),
            ("forecast recipe" + " 0,converse" * 6, "steps 72"), ("recipe 4" + " 0,converse" * 6, "bound 147 steps 72"), ("build 5 1 3 7", "bound 11"),
            ("recipe 6 0,plain 5,plain", "refused 13 at 0"), ("forecast recipe 0,plain 0,plain 5,plain", "refused 13 at 0"),
            ("recipe 6 0,plain 4294967295,plain", "refused 1 at 0"), ("recipe 4294967295 0,plain 0,plain", "refused 1 at 0"),
            ("recipe 6 0,plain 7,plain", "refused 11 at 0"), ("recipe 6 5,transpose 5,converse", "bound 123 steps 240"), ("show 7", "empty"),
            ("recipe 7 0,plain 1,Plain", BAD_REQUEST), ("recipe 7 0,plain 4294967296,plain", BAD_REQUEST), ("forecast recipe 7 0,plain 1,plain", BAD_REQUEST)]
    for line, wanted in talk:
        same((line, session.answer(line)), (line, wanted))
    same([doubtful(x) for x in ("recipe 07 0,plain 1,plain", "recipe 7 00,plain 1,plain", "forecast recipe 0,plain 01,plain")], [True] * 3)
