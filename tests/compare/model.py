"""Document 01, with what document 02 adds to it, as a program: the shelf and its calls, over number.py, words.py, stamps.py, encoding.py and sentences.py.

Shelf: places 0 to 7. Each call returns its answer or raises Refusal with the number and the offset, in document 01's
order of tests, and then the shelf is as before. An operation or recipe returns its bound and the steps it made. ORDER: the tests of
each call, in order; the call of a forecast is "forecast" and the operation's word.
shown: what the program of "Shown in full" prints.
"""
from encoding import Refusal, encode, read_single, rest
from exact import singular
from number import HIGH, ITEM_ZERO, LOW, stored, worked
from sentences import answered
from stamps import BUILT_BOUND, built, stamps_good
from words import bound, carry, count, foretold, interval, minor, operate_counted, reversals, transpose

PLACES = 8
ONE_SOURCE = ("inverse", "converse", "transpose")
OPERATIONS = ("product", "submatrix") + ONE_SOURCE + ("schur",)
WORKED = ("add", "multiply", "divide")
# The tests of each call, in order. A load reads its bytes (2 to 7 and 16) from the left, last.
ORDER = {
    "load": (1, 12, 2, 3, 4, 5, 6, 16, 7), "build": (1, 12, 15), "write": (1, 11, 10), "drop": (1, 11),
    "product": (1, 11, 12, 13, 14), "inverse": (1, 11, 12, 14), "converse": (1, 11, 12, 14), "transpose": (1, 11, 12),
    "submatrix": (1, 11, 12, 8, 17, 14), "minor": (1, 11, 8, 14), "carry": (1, 11, 9, 14, 10), "reversals": (9,), "rest": (),
    "add": (9,), "multiply": (9,), "divide": (9,), "sentence": (9, 10), "length": (1, 11), "recipe": (18, 1, 11, 12, 13, 14),
    "schur": (1, 11, 12, 8, 14),
}
FEWEST_STEPS, MOST_STEPS = 2, 6
# A forecast tests as the operation does, without these.
UNTESTED = (12, 14, 17, 20)
FORECASTS = {f"forecast {kind}": kind for kind in (*OPERATIONS, "recipe")}
ORDER |= {call: tuple(k for k in ORDER[kind] if k not in UNTESTED) for call, kind in FORECASTS.items()}


def sets_good(n, rows, columns):
    every = interval(1, n)
    return rows != 0 and count(rows) == count(columns) and (rows | columns) & ~every == 0


def clamp_good(n, k):
    """Whether the first k of n points can be clamped: some are, and some remain."""
    return 1 <= k < n


# What an operation's further words have to keep, by the source's size; else 8.
GOOD = {"submatrix": sets_good, "schur": clamp_good}


def item_good(item):
    sign, m, e = item
    if sign == 0:
        return item == ITEM_ZERO
    return sign in (-1, 1) and LOW <= m < HIGH and stored((m, e))


def pair_good(items):
    """Whether numbers are worked from these items: two, both positive."""
    return len(items) == 2 and all(item_good(item) and item[0] == 1 for item in items)


def in_range(matrix):
    return all(stored(number) for number in matrix.factors)


class Shelf:
    def __init__(self):
        self.places = [None] * PLACES

    def source(self, place):
        if self.places[place] is None:
            raise Refusal(11)
        return self.places[place]

    @staticmethod
    def known(*places):
        if any(place >= PLACES for place in places):
            raise Refusal(1)

    def free(self, place):
        if self.places[place] is not None:
            raise Refusal(12)

    def keep(self, place, matrix, returned):
        if not in_range(matrix):
            raise Refusal(14)
        self.places[place] = matrix
        return returned

    def load(self, place, data):
        self.known(place)
        self.free(place)
        self.places[place] = read_single(data)

    def build(self, place, stamps):
        self.known(place)
        self.free(place)
        if not stamps_good(stamps):
            raise Refusal(15)
        return self.keep(place, built(stamps), BUILT_BOUND)

    def write(self, place, length):
        self.known(place)
        data = encode(self.source(place))
        if length < len(data):
            raise Refusal(10)
        return data

    def drop(self, place):
        self.known(place)
        self.source(place)
        self.places[place] = None

    def product(self, left, right, target):
        self.known(left, right, target)
        sources = [self.source(left), self.source(right)]
        self.free(target)
        if sources[0].n != sources[1].n:
            raise Refusal(13)
        result, steps = operate_counted("product", sources)
        return self.keep(target, result, (bound("product", sources[0].n), steps))

    def one_source(self, kind, place, target, *given):
        self.known(place, target)
        source = self.source(place)
        self.free(target)
        if kind in GOOD and not GOOD[kind](source.n, *given):
            raise Refusal(8)
        # A Schur complement is never singular: its determinant is that of the source over M(1..k).
        if kind == "submatrix" and singular(source, *given):
            raise Refusal(17)
        result, steps = (transpose(source), 0) if kind == "transpose" else operate_counted(kind, [source], *given)
        return self.keep(target, result, (bound(kind, source.n), steps))

    def submatrix(self, place, rows, columns, target):
        return self.one_source("submatrix", place, target, rows, columns)

    def schur(self, place, k, target):
        """What remains after the first k points are clamped."""
        return self.one_source("schur", place, target, k)

    def step_sources(self, steps, *target):
        """What the steps of a recipe hold: 18, then 1 of all that is named, then 11."""
        if not FEWEST_STEPS <= len(steps) <= MOST_STEPS:
            raise Refusal(18)
        places = [place for place, _ in steps]
        self.known(*places, *target)
        return [self.source(place) for place in places]

    def recipe(self, target, steps):
        """The steps, each a place and its way, joined in their order: one word, one run of the rule."""
        sources = self.step_sources(steps, target)
        self.free(target)
        if len({source.n for source in sources}) > 1:
            raise Refusal(13)
        kind = tuple(way for _, way in steps)
        result, made = operate_counted(kind, sources)
        return self.keep(target, result, (bound(kind, result.n), made))

    def forecast_recipe(self, steps):
        """The steps that a recipe takes: by their count and the rows, as a way keeps the number of letters."""
        sizes = {source.n for source in self.step_sources(steps)}
        if len(sizes) > 1:
            raise Refusal(13)
        n = sizes.pop()
        return foretold(("plain",) * len(steps), n, n)

    def forecast(self, kind, *words):
        """The steps that an operation takes. The words are its own without the target, and none of its work is done."""
        if kind == "recipe":
            return self.forecast_recipe(*words)
        places = words[:2] if kind == "product" else words[:1]
        self.known(*places)
        sizes = [self.source(place).n for place in places]
        if len(set(sizes)) > 1:
            raise Refusal(13)
        if kind in GOOD and not GOOD[kind](*sizes, *words[1:]):
            raise Refusal(8)
        return foretold(kind, sizes[0], {"submatrix": count, "schur": int}[kind](words[1]) if kind in GOOD else sizes[0])

    def length(self, place):
        """How many bytes writing the place takes."""
        self.known(place)
        return len(encode(self.source(place)))

    def minor(self, place, rows, columns):
        self.known(place)
        source = self.source(place)
        if not sets_good(source.n, rows, columns):
            raise Refusal(8)
        number = minor(source, rows, columns)
        if not stored(number):
            raise Refusal(14)
        return number

    def carry(self, place, items, length):
        """The n carried items; `length` is that of the lent list."""
        self.known(place)
        source = self.source(place)
        if len(items) != source.n or not all(map(item_good, items)):
            raise Refusal(9)
        carried = carry(source, items)
        if not all(item == ITEM_ZERO or stored(item[1:]) for item in carried):
            raise Refusal(14)
        if length < source.n:
            raise Refusal(10)
        return carried

    @staticmethod
    def reversals(items):
        if not 1 <= len(items) <= 8 or not all(map(item_good, items)):
            raise Refusal(9)
        return reversals(items)

    @staticmethod
    def work(kind, items):
        """The result of add, multiply or divide, and the rest. The result is a working number: 14 is not tested."""
        if not pair_good(items):
            raise Refusal(9)
        return worked(kind, *(item[1:] for item in items))

    @staticmethod
    def rest(data):
        return rest(data)

    @staticmethod
    def sentence(lent, number, offset, places):
        """The length written and the lent bytes afterwards. It reads nothing of the shelf."""
        return answered(lent, number, offset, places)


def shown(left, right):
    """What the program of "Shown in full" prints for the bytes of its two files."""
    shelf = Shelf()
    try:
        shelf.load(0, left)
        shelf.load(1, right)
        shelf.product(0, 1, 2)
    except Refusal as fault:
        return f"refused {fault.number} at {fault.offset}\n"
    n, factors = shelf.places[2]
    lines = [f"{1 + k // n} {1 + k % n} {m} {e}" for k, (m, e) in enumerate(factors)]
    return "\n".join([str(n)] + lines) + "\n"
