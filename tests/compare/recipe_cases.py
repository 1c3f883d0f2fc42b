"""What requests show of recipes, document 02, (f). Watch: of one request after the other; unjoined: what a list of requests ought to show and doesn't. A recipe
that makes other steps than were foretold, or two plain steps with other bits than the product, are errors."""
from banded_cases import SIDES, leaps
from console_model import MOST_LISTED, Console, parse
from model import MOST_STEPS, PLACES, in_range
from number import ZERO
from recipe_lines import COUNTS
from recipe_sweeps import REFUSED_COUNTS, RUN, RUN_COUNTS
from words import WAYS, operate, transpose



def call_by_call(ways, sources):
    """The same by one call for each way and one product for each further step, rounded each time, and whether all of it was in range."""
    whole, stored = None, True
    for way, source in zip(ways, sources):
        # A plain place is as it was loaded, and the call for a transpose works nothing.
        step = transpose(source) if way == "transpose" else source if way == "plain" else operate(way, [source])
        whole = step if whole is None else operate("product", [whole, step])
        stored = stored and in_range(whole) and in_range(step)
    return whole, stored


class Watch:
    def __init__(self):
        self.console, self.told = Console(), {}

    def cases(self, line):
        """What a request shows."""
        request, before = parse(line), list(self.console.shelf.places)
        answer = self.console.answer(line).split(" ")
        if request is None:
            return self.cases_of_unread(line.split(" "))
        call, words = request
        if call not in ("recipe", "forecast recipe"):
            self.forget(before)
            return []
        steps = words[-1]
        found = [*self.cases_of_refusal(call, steps, before, answer)]
        if answer[0] == "steps":
            self.told[tuple(steps)] = answer[1]
            found += [f"forecast, {len(steps)} steps, {before[steps[0][0]].n} rows"] + ["forecast, shelf full"] * (None not in before)
        if call == "recipe":
            found += self.cases_of_recipe(words[0], steps, before, answer)
            self.forget(before)
        return found

    def forget(self, before):
        """What was foretold holds until the shelf changes."""
        if any(x is not y for x, y in zip(before, self.console.shelf.places)):
            self.told.clear()

    @staticmethod
    def cases_of_unread(words):
        if "recipe" in words[:2]:
            count = len([word for word in words if "," in word])
            yield f"bad request, {count} steps" if count > MOST_LISTED else "bad request"

    @staticmethod
    def cases_of_refusal(call, steps, before, answer):
        """Counts that are refused, and a fault that only one of the steps has."""
        if answer[0] != "refused":
            return
        if answer[1] == "18":
            yield f"{call}, {len(steps)} steps refused"
            return
        held = ["above" if place >= PLACES else before[place].n if before[place] else "empty" for place, _ in steps]
        for k, one in enumerate(held):
            if len(held) > 2 and held.count(one) == 1 and len(set(held)) == 2:
                yield f"{call}, {answer[1]} at step {k + 1} of {len(steps)}"
        if answer[1] == "13":
            yield f"{call}, " + "ends alike" * (held[0] == held[-1]) + "first two alike" * (held[0] == held[1] and held[0] != held[-1])

    def cases_of_recipe(self, target, steps, before, answer):
        places, ways = [place for place, _ in steps], tuple(way for _, way in steps)
        if answer[:2] == ["refused", "12"]:
            yield f"12, target at step {places.index(target) + 1}" if target in places else "12, target not among the steps"
        if answer[0] == "bound":
            sources = [before[place] for place in places]
            n, told = sources[0].n, self.told.get(tuple(steps))
            assert told in (None, answer[3]), (steps, told, answer)
            yield from [f"run, {len(steps)} steps, {n} rows"] if told else []
            yield from self.cases_of_result(steps, before, sources, self.console.shelf.places[target])
            if n > 1:
                yield from (f"{way} at step {k + 1}" for k, way in enumerate(ways))
                yield from (f"{first} before {second}" for first, second in zip(ways, ways[1:]))
        if answer[:2] == ["refused", "14"]:
            yield from (f"14, {way}" for way in ways)

    @staticmethod
    def cases_of_result(steps, before, sources, result):
        places, ways = [place for place, _ in steps], tuple(way for _, way in steps)
        if len(steps) == MOST_STEPS:
            yield {1: "one place six times", MOST_STEPS: "six places"}.get(len(set(places)), "")
        if len(steps) < MOST_STEPS and 0 not in places:
            yield "place 0 left out, " + ("empty" if before[0] is None else "another size" if before[0].n != result.n else "alike")
        assert ways != ("plain", "plain") or result == operate("product", sources), steps
        other, stored = call_by_call(ways, sources)
        yield from ["call by call out of range"] * (not stored) + ["call by call other bits"] * (stored and other != result)
        banded = [way for way, source in zip(ways, sources) if ZERO in source.factors]
        yield from (f"banded place, {way}" for way in banded)
        if banded:
            yield "zero new factor" if ZERO in result.factors else "banded places, full"
            yield from (f"a set R that leaps, {side}" for side in leaps(ways, sources, (None, None)))


def every_recipe_case():
    yield from (f"forecast, {count} steps, {n} rows" for count in COUNTS for n in range(1, 9))
    yield from (f"run, {count} steps, {n} rows" for n, counts in enumerate(RUN, 1) for count in counts)
    yield from (f"{call}, {count} steps refused" for call, counts in (("recipe", RUN_COUNTS), ("forecast recipe", REFUSED_COUNTS)) for count in counts)
    yield from (f"recipe, {number} at step {k} of 6" for number in (1, 11, 13) for k in range(1, 7))
    yield from (f"forecast recipe, {number} at step {k} of {count}" for number in (1, 11, 13) for count in (3, 5) for k in range(1, count + 1))
    yield from (f"{call}, {how} alike" for call in ("recipe", "forecast recipe") for how in ("ends", "first two"))
    yield from (*(f"12, target at step {k}" for k in (1, 2, 3)), "12, target not among the steps")
    yield from (f"{way} at step {k}" for way in WAYS for k in range(1, 7))
    yield from (f"{first} before {second}" for first in WAYS for second in WAYS)
    yield from (f"14, {way}" for way in WAYS)
    yield from (f"banded place, {way}" for way in WAYS)
    yield from (f"a set R that leaps, {side}" for side in SIDES)
    yield from ("one place six times", "six places", "place 0 left out, empty", "place 0 left out, another size", "forecast, shelf full", "zero new factor",
                "banded places, full", "call by call out of range", "call by call other bits", "bad request", "bad request, 17 steps")


def unjoined(asked):
    """The cases that no request shows."""
    watch = Watch()
    met = {case for line in asked for case in watch.cases(line)}
    return [case for case in every_recipe_case() if case not in met]
