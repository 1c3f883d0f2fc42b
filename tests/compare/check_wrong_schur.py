"""Wrong readings of document 02, (l), each put into the model for a while: the swept requests have to show a different
answer, and the first of them is about Schur complements."""
import random

import console_model
import model
import words
from check_spoilt import first_to_differ, spoilt
from check_wrong_recipes import swapped
from checks import check, same
from comparison import batch
from conditions import wanted_pairs
from console_model import FORMS, READERS, Console, whole
from encoding import Refusal
from model import GOOD, PLACES, Shelf, in_range
from number import ONE, ZERO, divide
from requests import Stream
from schur_sweeps import every_schur
from words import Matrix, bit, bound, factor, interval, latest, operate, quotient, rows_of

RIGHT_ROWS, RIGHT_FACTORS, RIGHT_SIDE = words.chosen_rows, words.factors_by, words.side_factor
RIGHT_SCHUR, RIGHT_FORECAST, RIGHT_FORETOLD = Shelf.schur, Shelf.forecast, words.foretold


def rule(change):
    """The rule where something is joined, its minors changed: change(work, joined, minor), whose `minor` counts no
    steps."""
    def factors(minor, arithmetic, rows, columns, joined=0, worked=None):
        if not joined:
            return RIGHT_FACTORS(minor, arithmetic, rows, columns, joined, worked)
        search, work = change(minor, joined, minor), change(worked or minor, joined, minor)
        return undivided(lambda: RIGHT_FACTORS(search, arithmetic, rows, columns, joined, work), len(rows))
    return factors


def undivided(work, size):
    """Zeros where a reading leads to nothing that can be divided by, or finds no set."""
    try:
        return work()
    except (ZeroDivisionError, KeyError, RuntimeError):
        return (ZERO,) * (size * size)


def one_for_empty(work, joined, minor):
    return lambda r, c: ONE if c == joined else work(r, c)


def one_but_walked(work, joined, minor):
    """1 for M(1..k), whose steps are counted all the same."""
    return lambda r, c: (work(r, c), ONE)[1] if c == joined else work(r, c)


def only_rows(work, joined, minor):
    return lambda r, c: work(r, c & ~joined)


def only_columns(work, joined, minor):
    return lambda r, c: work(r & ~joined, c)


def divided_first(work, joined, minor):
    """Each minor over M(1..k), that one too."""
    return lambda r, c: divide(work(r, c), minor(joined, joined))


def search_first(minor, arithmetic, rows, columns, joined=0, worked=None):
    """The sets R sought by minors without the joined rows and with the first columns of all. Sought without the joined
    ones alone they are the same: check_schur, sets_alike."""
    first = (lambda r, c: minor(r & ~joined, (c & ~joined) >> joined.bit_count())) if joined else minor
    return undivided(lambda: RIGHT_FACTORS(first, arithmetic, rows, columns, joined, worked), len(rows))


def lead_uncounted(minor, arithmetic, rows, columns, joined=0, worked=None):
    """M(1..k) taken for an empty minor, without steps."""
    work = (lambda r, c: (minor if c == joined else worked)(r, c)) if joined and worked else worked
    return RIGHT_FACTORS(minor, arithmetic, rows, columns, joined, work)


def cancelled(counted):
    """The side factors of the first column without M(1..k) above and below, whether or not its steps are counted."""
    def side(minor, worked, arithmetic, i, j):
        if j > 1:
            return RIGHT_SIDE(minor, worked, arithmetic, i, j)
        above, below = ([worked(*sets) if sets[0] or counted else ONE for sets in line] for line in
                        quotient(i, j, 0, 0))
        return arithmetic.zero if above[0] == arithmetic.zero else arithmetic.divide(above[0], below[1])
    return side


def intervals(minor, worked, arithmetic, i, j):
    """Document 01's sets in the place of R."""
    above, below = quotient(i, j, interval(i - j + 1, i - 1), interval(i - j, i - 2))
    above, below = [worked(*sets) for sets in above], [worked(*sets) for sets in below]
    if above[0] == arithmetic.zero or arithmetic.zero in below:
        return arithmetic.zero
    return arithmetic.divide(arithmetic.multiply(*above), arithmetic.multiply(*below))


def searched_last(minor, worked, arithmetic, i, j):
    """The set R of row i - 1 taken for both rows."""
    before = latest(minor, arithmetic.zero, i - 1, j)
    numbers = [[worked(*sets) for sets in line] for line in quotient(i, j, before, before)]
    if numbers[0][0] == arithmetic.zero or arithmetic.zero in numbers[1]:
        return arithmetic.zero
    return arithmetic.divide(*(arithmetic.multiply(*line) for line in numbers))


def rows_by(choose):
    """Other rows that remain, and others joined: choose(n, k) gives both as masks."""
    def version(kind, n, *given):
        if kind != "schur":
            return RIGHT_ROWS(kind, n, *given)
        left, joined = choose(n, *given)
        return rows_of(left), rows_of(left), joined
    return version


OTHER_ROWS = (
    # The upper left block less what the last k points take away; that block and the lower right one as they are.
    lambda n, k: (interval(1, n - k), interval(n - k + 1, n)), lambda n, k: (interval(1, n - k), 0),
    lambda n, k: (interval(k + 1, n), 0),
    # The first n - k clamped, or the first k kept; one more or one less joined.
    lambda n, k: (interval(n - k + 1, n), interval(1, n - k)), lambda n, k: (interval(1, k), interval(k + 1, n)),
    lambda n, k: (interval(k + 1, n), interval(2, k)), lambda n, k: (interval(k + 1, n), bit(k)),
)


def returning(change):
    """Another result, bound or steps: change(source, k, result, bound, steps) gives the three."""
    def version(shelf, place, k, target):
        k_bound, steps = RIGHT_SCHUR(shelf, place, k, target)
        result, *told = change(shelf.places[place], k, shelf.places[target], k_bound, steps)
        shelf.places[target] = result
        return tuple(told)
    return version


def trailing(source, k):
    """The source's own factors of the rows that remain."""
    left = range(k + 1, source.n + 1)
    return Matrix(source.n - k, tuple(factor(source, i, j) for i in left for j in left))


def own_diagonal(source, k, result):
    """The diagonal copied, which the exact one equals."""
    factors, n = list(result.factors), result.n
    factors[::n + 1] = trailing(source, k).factors[::n + 1]
    return Matrix(n, tuple(factors))


def by_inverses(source, k):
    """The inverse of the inverse's lower right block."""
    left = interval(k + 1, source.n)
    return operate("inverse", [operate("submatrix", [operate("inverse", [source])], left, left)])


RETURNED = (
    lambda source, k, result, most, steps: (result, bound("schur", source.n - k), steps),
    lambda source, k, result, most, steps: (result, bound("product", source.n), steps),
    lambda source, k, result, most, steps: (result, 0, steps),
    lambda source, k, result, most, steps: (trailing(source, k), most, steps),
    lambda source, k, result, most, steps: (own_diagonal(source, k, result), most, steps),
    lambda source, k, result, most, steps: (words.transpose(result), most, steps),
    lambda source, k, result, most, steps: (by_inverses(source, k), most, steps),
    lambda source, k, result, most, steps: (result, most, RIGHT_FORETOLD("inverse", result.n, result.n)),
    lambda source, k, result, most, steps: (result, most, RIGHT_FORETOLD("submatrix", source.n, result.n)),
)


def of_forecast(version):
    """A wrong forecast of this operation alone."""
    return lambda shelf, kind, *given: (version if kind == "schur" else lambda *words: RIGHT_FORECAST(
        words[0], kind, *words[1:]))(shelf, *given)


def right_forecast(shelf, place, k):
    return RIGHT_FORECAST(shelf, "schur", place, k)


def cut_short(right, bits):
    """Only the last bits of k looked at."""
    return lambda shelf, place, k, *target: right(shelf, place, k & (1 << bits) - 1, *target)


def forecast_run(shelf, place, k):
    """A forecast that tests 14."""
    steps = right_forecast(shelf, place, k)
    if not in_range(operate("schur", [shelf.places[place]], k)):
        raise Refusal(14)
    return steps


def forecast_into(shelf, place, k):
    """A forecast that wants a place for the result."""
    if None not in shelf.places:
        raise Refusal(12)
    return right_forecast(shelf, place, k)


def unranged(shelf, place, k, target):
    """14 not tested."""
    try:
        return RIGHT_SCHUR(shelf, place, k, target)
    except Refusal as fault:
        if fault.number != 14:
            raise
        n = shelf.places[place].n
        return bound("schur", n), RIGHT_FORETOLD("schur", n, k)


def foretold_as(other):
    """Forecasts of this operation by another count."""
    return lambda kind, n, size: other(n, size) if kind == "schur" else RIGHT_FORETOLD(kind, n, size)


def number(text):
    return whole(text, 2 ** 32 - 1)


SWAPPED = {"schur": lambda *pair: (Shelf, "schur", swapped(*pair, RIGHT_SCHUR, "schur")),
           "forecast schur": lambda *pair: (Shelf, "forecast", of_forecast(
               swapped(*pair, right_forecast, "forecast schur")))}
WRONG = (
    *((words, "factors_by", rule(change)) for change in (
        one_for_empty, one_but_walked, only_rows, only_columns, divided_first)),
    *((words, "factors_by", version) for version in (search_first, lead_uncounted)),
    *((words, "side_factor", version) for version in (cancelled(False), cancelled(True), intervals, searched_last)),
    *((words, "chosen_rows", rows_by(choose)) for choose in OTHER_ROWS),
    *((Shelf, "schur", returning(change)) for change in RETURNED), (Shelf, "schur", unranged),
    *(SWAPPED[call](first, second) for call, first, second in wanted_pairs() if call in SWAPPED),
    *((model, "GOOD", GOOD | {"schur": good}) for good in (
        lambda n, k: 1 <= k <= n, lambda n, k: 0 <= k < n, lambda n, k: 1 <= k < PLACES, lambda n, k: 1 <= k < n - 1,
        lambda n, k: 2 <= k < n, lambda n, k: 1 <= k < max(n, 2), lambda n, k: n == 1 or 1 <= k < n)),
    *((Shelf, "schur", cut_short(RIGHT_SCHUR, bits)) for bits in (3, 8, 16, 24, 31)),
    *((Shelf, "forecast", of_forecast(cut_short(right_forecast, bits))) for bits in (3, 8, 16, 24, 31)),
    *((Shelf, "forecast", of_forecast(version)) for version in (forecast_run, forecast_into)),
    *((model, "foretold", foretold_as(other)) for other in (
        lambda n, k: RIGHT_FORETOLD("inverse", n - k, n - k), lambda n, k: RIGHT_FORETOLD("submatrix", n, n - k),
        lambda n, k: RIGHT_FORETOLD("schur", n, n - k), lambda n, k: RIGHT_FORETOLD("inverse", n, n))),
    (Console, "schur", lambda console, *given: "bound %d" % console.shelf.schur(*given)[0]),
    (Console, "schur", lambda console, place, k, target: "bound %d steps %d" % console.shelf.schur(target, k, place)),
    (console_model, "FORMS", FORMS | {"schur": "PK"}), (console_model, "FORMS", FORMS | {"forecast schur": "PKP"}),
    *((console_model, "MOST_CLAMPED", most) for most in (
        7, 8, 255, 65535, 2 ** 31 - 1, 2 ** 32 - 2, 2 ** 32, 2 ** 64 - 1)),
    *((console_model, "READERS", READERS | {"K": reader}) for reader in (
        lambda text: number(text.lstrip("+")), lambda text: number(text.lstrip("-")),
        lambda text: number(text.rstrip(",.")),
        lambda text: number(text) if text == "0" or text[:1] != "0" else None,
        lambda text: number(text) if len(text) < 11 else None, lambda text: number(text) if len(text) < 4086 else None,
        lambda text: number(str(whole(text, 2 ** 70) % 2 ** 32)) if whole(text, 2 ** 70) else number(text))),
)


@check
def wrong_schurs(rng, rounds):
    """Each of these is noticed, and by a request about Schur complements or by what one left in a place; the right
    model by none."""
    asked, wanted = batch(lambda shelf: (), 0, lambda shelf: every_schur(Stream(random.Random(rng.random()), shelf)))
    for number, (holder, name, version) in enumerate(WRONG):
        with spoilt(holder, name, version):
            line = first_to_differ(asked, wanted)
        assert line is not None and {"schur", "show"} & {*line.split(" ")[:2]}, (number, name, version, line)
    same(first_to_differ(asked, wanted), None)
