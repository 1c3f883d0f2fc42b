"""Wrong readings of document 02, (f), each put into the model for a while: the swept requests have to show a different answer, and the first of them is about
recipes."""
import random

import console_model
import words
from check_spoilt import first_to_differ, spoilt
from checks import check, same
from comparison import batch
from conditions import conditions, wanted_pairs
from console_model import FORMS, Console, whole
from encoding import Refusal
from model import MOST_STEPS, PLACES, Shelf, in_range
from recipe_cases import call_by_call
from recipe_sweeps import every_recipe
from requests import Stream
from words import WAYS, bound, operate, operate_counted, word

RIGHT_WORD, RIGHT_RECIPE, RIGHT_FORECAST = words.operation_word, Shelf.recipe, Shelf.forecast_recipe


def joined_backwards(kind, sources):
    return RIGHT_WORD(kind[::-1], sources[::-1]) if isinstance(kind, tuple) else RIGHT_WORD(kind, sources)


def exchanged(letters):
    return [x if x[0] == "D" else ("Et" if x[0] == "E" else "E", *x[1:]) for x in letters]


# Words that are not those of the ways, each under the way that it is put for.
WRONG_WORDS = (
    ("transpose", lambda source: exchanged(word(source))), ("transpose", lambda source: word(source)[::-1]), ("transpose", word),
    ("transpose", WAYS["converse"]), ("transpose", WAYS["inverse"]), ("converse", lambda source: WAYS["converse"](source)[::-1]),
    ("converse", WAYS["transpose"]), ("inverse", lambda source: word(source)[::-1]), ("inverse", lambda source: exchanged(WAYS["inverse"](source))),
    ("inverse", WAYS["transpose"]), ("plain", WAYS["transpose"]),
)


def placed(shelf, target, steps, work):
    """A recipe that is tested as the right one is and worked in another way."""
    sources = shelf.step_sources(steps, target)
    shelf.free(target)
    if len({source.n for source in sources}) > 1:
        raise Refusal(13)
    kind = tuple(way for _, way in steps)
    result, returned = work(kind, sources, steps)
    return shelf.keep(target, result, returned)


def worked_by(work):
    return lambda shelf, target, steps: placed(shelf, target, steps, work)


def answered(kind, sources, result=None):
    found, made = operate_counted(kind, sources)
    return found if result is None else result, (bound(kind, found.n), made)


def one_by_one(kind, sources, steps):
    """Call by call from the left, 14 tested each time."""
    whole_result, stored = call_by_call(kind, sources)
    if not stored:
        raise Refusal(14)
    return answered(kind, sources, whole_result)


def from_the_right(kind, sources, steps):
    """Call by call from the right, 14 tested at the end alone."""
    alone = [call_by_call((way,), [source])[0] for way, source in zip(kind, sources)]
    result = alone.pop()
    while alone:
        result = operate("product", [alone.pop(), result])
    return answered(kind, sources, result)


def one_way_a_place(kind, sources, steps):
    """Each place taken the way it is named last."""
    return answered(tuple(dict(steps)[place] for place, _ in steps), sources)


def each_once(kind, sources, steps):
    """A step that is there already passed over."""
    kept = list(dict.fromkeys(steps))
    if len(kept) == 1:
        return answered(kind, sources)
    return answered(tuple(way for _, way in kept), [sources[steps.index(step)] for step in kept])


def returning(bound_of, steps_of):
    """Another bound, or other steps, with the right factors."""
    def work(kind, sources, steps):
        result, (k, made) = answered(kind, sources)
        return result, (bound_of(k, kind, result.n), steps_of(made, kind))
    return worked_by(work)


def swapped(first, second, right, call):
    """Where both conditions hold, the later one answered."""
    def version(shelf, *given):
        try:
            return right(shelf, *given)
        except Refusal as fault:
            if fault.number == first and second in conditions(shelf, call, list(given)):
                raise Refusal(second) from None
            raise
    return version


def judged_alike(alike, right):
    """Sizes that differ taken where they are alike to a narrower look."""
    def version(shelf, *given):
        try:
            return right(shelf, *given)
        except Refusal as fault:
            if fault.number == 13 and alike([shelf.places[place].n for place, _ in given[-1]]):
                return (1, 1) if len(given) == 2 else 1
            raise
    return version


LOOKS = (lambda n: n[0] == n[1], lambda n: n[0] == n[-1], lambda n: n[-1] == n[-2], lambda n: all(x == y for x, y in zip(n[::2], n[1::2])),
         lambda n: n[1:] == n[:-1] or n[0] == n[1] == n[2 % len(n)], lambda n: sum(n) % len(n) == 0, lambda n: n[0] >= max(n), lambda n: n[0] <= min(n))


def counted(fewest, most, right):
    """Other counts refused, or taken as if steps were left out or there twice."""
    def version(shelf, *given):
        *target, steps = given
        if not fewest <= len(steps) <= most:
            raise Refusal(18)
        return right(shelf, *target, (steps * 2)[:max(2, min(len(steps), MOST_STEPS))] if len(steps) not in range(2, MOST_STEPS + 1) else steps)
    return version


def slots_read(right):
    """Six slots judged however many steps there are, the others holding place 0."""
    def version(shelf, *given):
        places, first = [place for place, _ in given[-1]], shelf.places[0]
        if 2 <= len(places) < MOST_STEPS and all(place < PLACES and shelf.places[place] for place in places):
            if first is None or first.n not in {shelf.places[place].n for place in places}:
                raise Refusal(11 if first is None else 13)
        return right(shelf, *given)
    return version


def forecast_run(shelf, steps):
    """A forecast that works the recipe, and tests 14."""
    steps_told = RIGHT_FORECAST(shelf, steps)
    if not in_range(operate(tuple(way for _, way in steps), [shelf.places[place] for place, _ in steps])):
        raise Refusal(14)
    return steps_told


def forecast_into(shelf, steps):
    """A forecast that wants a place for the result."""
    if None not in shelf.places:
        raise Refusal(12)
    return RIGHT_FORECAST(shelf, steps)


def reading(change):
    """Steps read after a change of their text."""
    return console_model.LISTS | {"R": lambda text: console_model.step(change(text))}


CALLS = {"recipe": ("recipe", RIGHT_RECIPE), "forecast recipe": ("forecast_recipe", RIGHT_FORECAST)}
WRONG = (
    (words, "operation_word", joined_backwards), *((words, "WAYS", WAYS | {way: letters}) for way, letters in WRONG_WORDS),
    *((Shelf, "recipe", worked_by(work)) for work in (one_by_one, from_the_right, one_way_a_place, each_once)),
    *((Shelf, "recipe", returning(k, lambda made, kind: made)) for k in (
        lambda k, kind, n: bound("product", n), lambda k, kind, n: (len(kind) - 1) * bound("product", n), lambda k, kind, n: k - 3,
        lambda k, kind, n: bound(tuple(way for way in kind if way != "transpose"), n), lambda k, kind, n: bound("product", n) * len(kind) // 2)),
    *((Shelf, "recipe", returning(lambda k, kind, n: k, steps)) for steps in (
        lambda made, kind: made // len(kind) * 2, lambda made, kind: made // len(kind) * (len(kind) - kind.count("transpose")),
        lambda made, kind: made // len(kind) * 2 * (len(kind) - 1))),
    *((Shelf, CALLS[call][0], swapped(first, second, CALLS[call][1], call)) for call, first, second in wanted_pairs() if call in CALLS),
    *((Shelf, name, judged_alike(look, right)) for name, right in CALLS.values() for look in LOOKS),
    *((Shelf, name, counted(*ends, right)) for name, right in CALLS.values() for ends in ((1, 6), (0, 6), (3, 6), (2, 5), (2, 7), (2, 8), (2, 16))),
    *((Shelf, name, slots_read(right)) for name, right in CALLS.values()),
    *((Shelf, "forecast_recipe", version) for version in (forecast_run, forecast_into, lambda shelf, steps: RIGHT_FORECAST(shelf, (steps * 2)[:2]))),
    (Shelf, "forecast_recipe", lambda shelf, steps: RIGHT_FORECAST(shelf, steps) * (len(steps) - [x for _, x in steps].count("transpose")) // len(steps)),
    (Console, "recipe", lambda console, target, steps: "bound %d" % console.shelf.recipe(target, steps)[0]),
    *((console_model, "MOST_LISTED", most) for most in (6, 7, 8, 15, 17)), (console_model, "MOST_PLACE", 2 ** 64 - 1), (console_model, "MOST_PLACE", 7),
    (console_model, "FORMS", FORMS | {"forecast recipe": "PR"}), (console_model, "FORMS", FORMS | {"recipe": "R"}),
    *((console_model, "LISTS", reading(change)) for change in (
        str.lower, lambda text: text.rstrip(","), lambda text: text.replace(",,", ","), lambda text: text.replace(";", ","), lambda text: text.lstrip(","),
        lambda text: ",".join(text.split(",")[:2]), lambda text: text + ",plain" * text.isdigit(), str.strip, lambda text: text.lstrip("+-"))),
    (console_model, "LISTS", console_model.LISTS | {"R": lambda text: (whole(text.partition(",")[0], 2 ** 32 - 1), "plain")}),
)


@check
def wrong_recipes(rng, rounds):
    """Each of these is noticed, and by a request about recipes or by what one left in a place; the right model by none."""
    asked, wanted = batch(lambda shelf: (), 0, lambda shelf: every_recipe(Stream(random.Random(rng.random()), shelf)))
    for number, (holder, name, version) in enumerate(WRONG):
        with spoilt(holder, name, version):
            line = first_to_differ(asked, wanted)
        assert line is not None and {"recipe", "show"} & {*line.split(" ")[:2]}, (number, name, version, line)
    same(first_to_differ(asked, wanted), None)
