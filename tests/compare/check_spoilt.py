"""Wrong readings of document 02, (k), each put into the model for a while: the swept requests have to show a different answer, and the first of them is of the
kind that the reading is wrong about."""
import random
from contextlib import contextmanager

import console_model
import model
import words
from checks import check, same
from comparison import batch
from console_model import FORMS, Console, divided
from encoding import Refusal, encode
from forecast_sweeps import every_forecast
from model import FORECASTS, OPERATIONS, Shelf
from number import ZERO
from requests import Stream
from words import Matrix, Walker, count, sets, updates

RIGHT_SIDE, RIGHT_FORETOLD, RIGHT_FORECAST, RIGHT_SUBMATRIX = words.side_factor, words.foretold, Shelf.forecast, Shelf.submatrix


class Letters(Walker):
    """Letters counted, not the sets that they update."""

    def walk(self, columns):
        numbers = super().walk(columns)
        self.efforts[columns] = sum(kind != "D" for kind, _, _ in self.letters)
        return numbers


class WithD(Walker):
    """Sets counted that D multiplies or divides."""

    def walk(self, columns):
        numbers = super().walk(columns)
        self.efforts[columns] += sum(len(sets(self.n, count(columns))) for kind, _, _ in self.letters if kind == "D")
        return numbers


class Changed(Walker):
    """Sets counted only where something other than zero is added."""

    def walk(self, columns):
        numbers, there, steps = super().walk(columns), {columns}, 0
        for kind, j, w in self.letters:
            if kind != "D" and w != ZERO:
                moved = [s for s, t in updates(self.n, count(columns), kind, j) if t in there]
                steps, there = steps + len(moved), there.union(moved)
        self.efforts[columns] = steps
        return numbers


class Nonzero(Walker):
    """Letters of a zero factor passed over."""

    def walk(self, columns):
        numbers = super().walk(columns)
        self.efforts[columns] = sum(len(updates(self.n, count(columns), kind, j)) for kind, j, w in self.letters if kind != "D" and w != ZERO)
        return numbers


class Empty(Walker):
    """A step for each empty minor."""

    def worked(self, rows, columns):
        self.steps += columns == 0
        return super().worked(rows, columns)


class Remembered(Walker):
    """A minor that was worked for one factor not counted for another."""

    def worked(self, rows, columns):
        before = self.steps
        number = super().worked(rows, columns)
        known = self.__dict__.setdefault("known", set())
        self.steps = before if (rows, columns) in known else self.steps
        known.add((rows, columns))
        return number


class Shared(Walker):
    """A walk that gives many minors counted once."""

    def worked(self, rows, columns):
        number = super().worked(rows, columns)
        self.steps = sum(self.efforts.values())
        return number


class Searched(Walker):
    """Minors counted too that only find the sets R."""

    def minor(self, rows, columns):
        number = super().minor(rows, columns)
        self.steps += self.efforts[columns]
        return number

    worked = minor


def equal_once(minor, worked, arithmetic, i, j):
    """Two minors of one quotient that are the same worked once."""
    known = {}

    def once(*pair):
        if pair not in known:
            known[pair] = worked(*pair)
        return known[pair]

    return RIGHT_SIDE(minor, once, arithmetic, i, j)


def zero_free(minor, worked, arithmetic, i, j):
    """No steps for a factor that is zero."""
    return arithmetic.zero if RIGHT_SIDE(minor, minor, arithmetic, i, j) == arithmetic.zero else RIGHT_SIDE(minor, worked, arithmetic, i, j)


def zero_first(minor, worked, arithmetic, i, j):
    """One minor for a factor that is zero: the one that says so."""
    above = words.quotient(i, j, words.latest(minor, arithmetic.zero, i, j), 0)[0]
    return zero_free(minor, worked, arithmetic, i, j) if minor(*above[0]) != arithmetic.zero else worked(*above[0])


def whole_source(kind, n, size):
    """A submatrix foretold by its source's rows alone."""
    return RIGHT_FORETOLD(kind, n, n)


def small_source(kind, n, size):
    """A submatrix foretold as if its source had only the chosen rows."""
    return RIGHT_FORETOLD(kind, size, size)


def with_target(shelf, kind, *given):
    """A forecast that wants a place for the result."""
    if None not in shelf.places:
        raise Refusal(12)
    return RIGHT_FORECAST(shelf, kind, *given)


def run_first(shelf, kind, *given):
    """A forecast that runs the operation on a copy of the shelf, with all its tests."""
    steps, copy = RIGHT_FORECAST(shelf, kind, *given), Shelf()
    copy.places = shelf.places + [None]
    # A ninth place for the result.
    copy.known = lambda *places: None
    if kind in model.ONE_SOURCE:
        copy.one_source(kind, *given, model.PLACES)
    else:
        getattr(copy, kind)(*given, model.PLACES)
    return steps


def sets_first(shelf, kind, *given):
    """Sets of unequal count refused before the place is looked at."""
    if kind == "submatrix" and count(given[1]) != count(given[2]):
        raise Refusal(8)
    return RIGHT_FORECAST(shelf, kind, *given)


def empty_first(shelf, kind, *given):
    """An empty place refused before one above 7."""
    if kind == "product" and any(place < model.PLACES and shelf.places[place] is None for place in given):
        raise Refusal(11)
    return RIGHT_FORECAST(shelf, kind, *given)


def sizes_untested(shelf, kind, *given):
    """A product foretold by its left source, where both are full."""
    both = kind == "product" and all(place < model.PLACES and shelf.places[place] for place in given)
    return RIGHT_FORECAST(shelf, kind, *(given[:1] * 2 if both else given))


def singular_worked(shelf, place, rows, columns, target):
    """The minor that 17 is found by counted with the others."""
    k, steps = RIGHT_SUBMATRIX(shelf, place, rows, columns, target)
    walker = Walker(words.word(shelf.places[place]), shelf.places[place].n)
    walker.worked(rows, columns)
    return k, steps + walker.steps


def zeros_as_numbers(shelf, place):
    """A zero factor taken for as long as the shortest number, two bytes."""
    shelf.known(place)
    source = shelf.source(place)
    return len(encode(source)) + source.factors.count(ZERO)


def longest(shelf, place):
    """The most that a matrix of that size can take."""
    shelf.known(place)
    return len(encode(Matrix(shelf.source(place).n, ((2 ** 32 - 1, 1000),) * len(shelf.source(place).factors))))


def target_taken(line):
    """A target behind a forecast passed over."""
    call, texts, form = divided(line)
    return call, texts[:len(form)] if call in FORECASTS else texts, form


# What is put in the place of what, and the first words of requests that may be the first to differ.
TOLD, MADE = ("forecast",), OPERATIONS
WRONG = (
    *((words, "Walker", version, MADE + TOLD) for version in (Letters, WithD, Changed, Empty, Remembered, Shared, Searched)),
    *((words, "Walker", version, MADE) for version in (Nonzero,)),
    *((words, "side_factor", version, MADE) for version in (equal_once, zero_free, zero_first)),
    *((model, "foretold", version, TOLD) for version in (whole_source, small_source)),
    *((Shelf, "forecast", version, TOLD) for version in (with_target, run_first, sets_first, empty_first, sizes_untested)),
    (Shelf, "submatrix", singular_worked, MADE), (Shelf, "length", zeros_as_numbers, ("length",)), (Shelf, "length", longest, ("length",)),
    (Console, "build", lambda console, place, stamps: f"bound {console.shelf.build(place, stamps)} steps 0", ("build",)),
    (Console, "product", lambda console, *places: f"bound {console.shelf.product(*places)[0]}", ("product",)),
    (console_model, "FORMS", FORMS | {call: FORMS[kind] for call, kind in FORECASTS.items()}, TOLD),
    (console_model, "divided", target_taken, TOLD), (console_model, "MOST_PLACE", 2 ** 64 - 1, TOLD),
)


@contextmanager
def spoilt(holder, name, version):
    """A wrong version in the place of the right one; what was foretold by either is forgotten."""
    right = vars(holder)[name]
    RIGHT_FORETOLD.cache_clear()
    setattr(holder, name, version)
    try:
        yield
    finally:
        setattr(holder, name, right)
        RIGHT_FORETOLD.cache_clear()


def first_to_differ(asked, wanted):
    console = Console()
    return next((line for line, answer in zip(asked, wanted) if console.answer(line) != answer), None)


@check
def wrong_efforts(rng, rounds):
    """Each of these is noticed, and by a request that it is wrong about; the right model by none."""
    asked, wanted = batch(lambda shelf: (), 0, lambda shelf: every_forecast(Stream(random.Random(rng.random()), shelf)))
    for holder, name, version, first in WRONG:
        with spoilt(holder, name, version):
            line = first_to_differ(asked, wanted)
        assert line is not None and line.split(" ")[0] in first, (name, version, line)
    same(first_to_differ(asked, wanted), None)
