"""What requests show of forecasts and lengths, document 02, (k). Watch: of one request after the other; unforetold: what a list of requests ought to show and
doesn't. An operation that makes other steps than were foretold, or a place written in another length, is an error."""
from console_model import Console, parse
from exact import singular
from model import FORECASTS, OPERATIONS
from number import ZERO

FILLING = ("load", "build", "recipe", *OPERATIONS)
# Calls that name the place they fill first.
PLACE_FIRST = FILLING[:3]
# The operations that the forecasts' own requests go through; what is shown of a Schur complement stands with the requests for it.
DIRECT = tuple(kind for kind in OPERATIONS if kind != "schur")


def rows_named(kind, source, words):
    """The sizes that the steps depend on."""
    if kind == "schur":
        return f"{source.n} rows, {words[1]} clamped"
    return f"{source.n} rows" + (f", {words[1].bit_count()} chosen" if kind == "submatrix" else "")


class Watch:
    def __init__(self):
        self.console = Console()
        # What was foretold and not run since the shelf changed, and how each full place was filled.
        self.told, self.filled = {}, {}

    def cases(self, line):
        """What a request shows."""
        request, before = parse(line), list(self.console.shelf.places)
        answer = self.console.answer(line)
        if request is None:
            return [f"bad request, {line.split(' ')[0]}"]
        call, words = request
        found = list(self.cases_of(call, words, before, answer.split(" ")))
        if any(x is not y for x, y in zip(before, self.console.shelf.places)):
            self.told.clear()
        return found

    def cases_of(self, call, words, before, answer):
        if FORECASTS.get(call) in OPERATIONS and answer[0] == "steps":
            self.told[FORECASTS[call], *words] = int(answer[1])
            yield from self.cases_of_forecast(FORECASTS[call], words, before)
        if call in OPERATIONS and (call, *words[:-1]) in self.told:
            yield self.case_of_operation(call, words, before, answer)
        if call in FILLING and answer[0] != "refused":
            self.filled[words[0 if call in PLACE_FIRST else -1]] = call
        if call == "length" and answer[0] == "length":
            self.told[call, *words] = int(answer[1])
            yield from (f"length after {self.filled[words[0]]}", f"length of {before[words[0]].n} rows", f"length {answer[1]}")
            yield from ["length of a banded place"] if ZERO in before[words[0]].factors else []
        if call == "write" and ("length", words[0]) in self.told:
            yield from self.cases_of_write(words, answer)

    @staticmethod
    def cases_of_forecast(kind, words, before):
        source = before[words[0]]
        yield f"forecast of {kind}, {rows_named(kind, source, words)}"
        if None not in before:
            yield f"forecast of {kind}, shelf full"
        if ZERO in source.factors:
            yield f"forecast of {kind}, banded"
            if kind == "submatrix" and singular(source, *words[1:]):
                yield "forecast of a singular submatrix"

    def case_of_operation(self, call, words, before, answer):
        if answer[0] == "refused":
            return f"{call} foretold, refused {answer[1]}"
        steps = self.told[call, *words[:-1]]
        assert answer[2:] == ["steps", str(steps)], f"{call} {words}: {steps} steps foretold, answered {' '.join(answer)}"
        return f"{call} as foretold, {rows_named(call, before[words[0]], words)}"

    def cases_of_write(self, words, answer):
        """A place is written where the length told is lent, and is not where it is one less."""
        length, lent = self.told["length", words[0]], words[1]
        assert answer[:2] == (["wrote", str(length)] if lent >= length else ["refused", "10"]), f"write {words}: length {length} told, {answer[:2]}"
        if lent in (length, length - 1):
            yield "written in the length told" if lent == length else "not written in one byte less"


def sizes_of(kind):
    """All sizes that the steps of an operation depend on."""
    if kind == "submatrix":
        return [f"{n} rows, {k} chosen" for n in range(1, 9) for k in range(1, n + 1)]
    return [f"{n} rows, {k} clamped" for n in range(2, 9) for k in range(1, n)] if kind == "schur" else [f"{n} rows" for n in range(1, 9)]


def cases_of_kind(kind):
    """What forecasts of an operation have to show; its lengths too."""
    yield from (f"{how}, {size}" for how in (f"forecast of {kind}", f"{kind} as foretold") for size in sizes_of(kind))
    yield from (f"forecast of {kind}, {how}" for how in ("shelf full", "banded"))
    yield from (f"{kind} foretold, refused {number}" for number in (1, 12) + (() if kind == "transpose" else (14,)))
    yield f"length after {kind}"


def every_forecast_case():
    for kind in DIRECT:
        yield from cases_of_kind(kind)
    yield from ("submatrix foretold, refused 17", "forecast of a singular submatrix", "bad request, forecast", "bad request, length")
    yield from (f"length after {call}" for call in ("load", "build"))
    yield from (f"length of {n} rows" for n in range(1, 9))
    yield from ("length of a banded place", "length 3", "length 449", "written in the length told", "not written in one byte less")


def unforetold(asked):
    """The cases that no request shows."""
    watch = Watch()
    met = {case for line in asked for case in watch.cases(line)}
    return [case for case in every_forecast_case() if case not in met]
