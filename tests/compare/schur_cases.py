"""What requests show of Schur complements, document 02, (l). ClampWatch: of one request after the other; unclamped:
what a list of requests ought to show and doesn't. More of it is told by forecast_cases and banded_cases."""
from forecast_cases import FILLING, Watch, cases_of_kind
from model import OPERATIONS, PLACES, in_range
from number import LOW, divide, stored
from schur_lines import HUGE
from schur_sweeps import RUN_NONE
from words import ROUNDED, Walker, chosen_rows, factors_by, interval, operate, word

CALLS = ("schur", "forecast schur")
# What takes the result of a Schur complement on.
TAKING = (*OPERATIONS, "minor", "carry", "write", "recipe")


def divided_first(source, k):
    """The factors where each joined minor is divided by M(1..k) before it is used, the divisor not cancelled."""
    walker, lead = Walker(word(source), source.n), interval(1, k)
    by = walker.minor(lead, lead)
    return factors_by(lambda r, c: divide(walker.minor(r, c), by), ROUNDED, *chosen_rows("schur", source.n, k))


def out_of_range(result):
    """How far new factors lie outside, and on which side of the diagonal."""
    for place, (m, e) in enumerate(result.factors):
        i, j = divmod(place, result.n)
        if m and abs(e) > 1000:
            side = "below" if i > j else "above" if i < j else "on"
            yield f"14, too {'large' if e > 0 else 'small'} {side} the diagonal"


class ClampWatch(Watch):
    def cases_of(self, call, words, before, answer):
        filled = dict(self.filled)
        yield from super().cases_of(call, words, before, answer)
        if call in CALLS:
            yield from self.cases_of_clamp(call, words, before, answer)
        if call == "schur" and answer[0] == "bound":
            yield from self.cases_of_result(words, before[words[0]], self.console.shelf.places[words[2]], filled)
        if call in TAKING and answer[0] != "refused":
            places = [words[0]] if call != "recipe" else [place for place, _ in words[1]]
            yield from (f"taken on by {call}" for place in places if filled.get(place) == "schur")

    @staticmethod
    def cases_of_clamp(call, words, before, answer):
        place, k = words[:2]
        source = before[place] if place < PLACES else None
        if answer[:2] == ["refused", "8"]:
            yield f"{call}, {k} of {source.n} points refused"
            yield from ["8 where another number is 14"] * any(
                not in_range(operate("schur", [source], good)) for good in range(1, source.n))
        if answer[:2] == ["refused", "14"]:
            yield from out_of_range(operate("schur", [source], k))
        if answer[0] == "refused" and not 1 <= k < 8:
            yield f"{call}, {answer[1]} before 8"
        if call == "schur" and words[0] == words[2] and answer[:2] == ["refused", "12"]:
            yield "12, the source is the target"

    @staticmethod
    def cases_of_result(words, source, result, filled):
        yield f"source from {filled[words[0]]}"
        n, k = source.n, words[1]
        if any(result.factors[i * (n - k + 1)] != source.factors[(k + i) * (n + 1)] for i in range(n - k)):
            yield "diagonal with other bits than the source's"
        if divided_first(source, k) != result.factors:
            yield "other bits than with each minor divided"
        by = Walker(word(source), n).minor(interval(1, k), interval(1, k))
        yield "M(1..k) is a power of two" if by[0] == LOW else "M(1..k) is none"
        yield from ["M(1..k) out of range"] * (not stored(by))


def every_schur_case():
    yield from cases_of_kind("schur")
    yield from (f"{call}, {n} of {n} points refused" for call in CALLS for n in range(1, 9))
    yield from (f"forecast schur, 0 of {n} points refused" for n in range(1, 9))
    yield from (f"schur, 0 of {n} points refused" for n in RUN_NONE)
    yield from (f"forecast schur, {k} of 3 points refused" for k in HUGE)
    yield from (f"schur, {k} of 3 points refused" for k in HUGE[::2])
    yield from (f"schur, {number} before 8" for number in (1, 11, 12))
    yield from (f"forecast schur, {number} before 8" for number in (1, 11))
    yield from (f"14, too {how} the diagonal" for how in ("large below", "large above", "small below", "small above"))
    yield from (f"source from {call}" for call in FILLING)
    yield from (f"taken on by {call}" for call in TAKING)
    yield from ("8 where another number is 14", "12, the source is the target", "bad request, schur")
    yield from ("diagonal with other bits than the source's", "other bits than with each minor divided")
    yield from ("M(1..k) is a power of two", "M(1..k) is none", "M(1..k) out of range")


def unclamped(asked):
    """The cases that no request shows."""
    watch = ClampWatch()
    met = {case for line in asked for case in watch.cases(line)}
    return [case for case in every_schur_case() if case not in met]
