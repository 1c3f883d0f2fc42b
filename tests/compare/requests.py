"""Request lines from a seed.

stream(seed, shelf): lines for ever. The shelf is the model's, looked at to choose places that hold a matrix or are free; the
line given out must be answered by the model before the next is asked for. Each scenario in SCENARIOS gives a few lines; those of
DIRECT know nothing of forecasts, lengths, recipes and Schur complements.
"""
import random

import banded_sweeps
import byte_lines
import forecast_lines
import forecast_sweeps
import list_lines
import recipe_lines
import recipe_sweeps
import schur_lines
import schur_sweeps
import sweeps
from banded import any_matrix, any_sets
from banded_lines import operations, readings
from console_model import text_of_bytes, text_of_items
from encoding import encode
from forecast_lines import foretold
from garbage import garbled
from model import ONE_SOURCE, PLACES
from sentence_lines import sentences
from sources import aimed, good_masks, listed, masks
from stamp_lists import build_line, rising, spoiled as spoiled_stamps, unread as unread_stamps

SIZE_WEIGHTS = (12, 20, 20, 16, 11, 8, 6, 6)
# How readily a matrix of each size is taken for an operation: large ones cost the model a twentieth of a second.
COST_WEIGHTS = (1, 1, 1, 1, 1, 0.8, 0.4, 0.25)
BEYOND_PLACES = (8, 9, 15, 16, 255, 256, 65536, 2 ** 31, 2 ** 32 - 1)


class Stream:
    def __init__(self, rng, shelf):
        self.rng, self.shelf = rng, shelf

    def size(self):
        return self.rng.choices(range(1, 9), SIZE_WEIGHTS)[0]

    def full(self):
        return [p for p in range(PLACES) if self.shelf.places[p] is not None]

    def free(self):
        return [p for p in range(PLACES) if self.shelf.places[p] is None]

    def n(self, place):
        return self.shelf.places[place].n

    def source(self, most=8):
        """A place that holds a matrix, small ones rather; None if there is none."""
        found = [p for p in self.full() if self.n(p) <= most]
        return self.rng.choices(found, [COST_WEIGHTS[self.n(p) - 1] for p in found])[0] if found else None

    def any_place(self):
        return self.rng.choice(BEYOND_PLACES) if self.rng.random() < 0.12 else self.rng.randrange(PLACES)

    def make_room(self, places=1, kept=None):
        """Sees to it that some places are free; once it drops one it may drop most, so that the shelf is full and empty by turns."""
        if len(self.free()) < places:
            droppable = [p for p in self.full() if p != kept]
            for place in self.rng.sample(droppable, self.rng.randint(places - len(self.free()), len(droppable))):
                yield f"drop {place}"

    def put(self, source):
        """Loads a matrix to a free place; its number stands in self.last afterwards."""
        yield from self.make_room()
        self.last = self.rng.choice(self.free())
        yield f"load {self.last} {text_of_bytes(encode(source))}"

    def fill(self):
        yield from self.put(any_matrix(self.rng, self.size()))

    def filled_source(self):
        """Sees to it that some place holds a matrix."""
        if not self.full():
            yield from self.fill()

    def operate(self):
        yield from self.make_room()
        yield from self.filled_source()
        place, target = self.source(), self.rng.choice(self.free())
        kind = self.rng.choice(("product", "product", "product", "submatrix", "submatrix") + ONE_SOURCE)
        yield self.operation(kind, place, target)

    def operation(self, kind, place, target):
        """An operation, its further arguments chosen to suit the source."""
        if kind == "product":
            fits = [p for p in self.full() if self.n(p) == self.n(place)]
            pair = [place, self.rng.choice(fits)]
            self.rng.shuffle(pair)
            return f"product {pair[0]} {pair[1]} {target}"
        if kind == "submatrix":
            rows, columns = any_sets(self.rng, self.shelf.places[place])
            return f"submatrix {place} {rows} {columns} {target}"
        return f"{kind} {place} {target}"

    def chain(self):
        """Results taken as sources again and again, until one is turned down."""
        yield from self.put(any_matrix(self.rng, self.rng.choices((1, 2, 3, 4, 5), (1, 4, 4, 2, 1))[0]))
        place, kinds = self.last, ("product", "product", "submatrix") + ONE_SOURCE
        only = self.rng.choice((None, None, "product", "inverse", "converse", "transpose"))
        for _ in range(self.rng.randint(2, 6)):
            yield from self.make_room(kept=place)
            target = self.rng.choice(self.free())
            kind = only or self.rng.choice(kinds)
            yield f"product {place} {place} {target}" if only == "product" else self.operation(kind, place, target)
            if self.shelf.places[target] is None:
                return
            if self.rng.random() < 0.7:
                yield f"drop {place}"
            place = target

    def edge(self):
        """A result just inside or just outside the stored exponents."""
        kind = self.rng.choice(("product", "product", "inverse", "converse", "submatrix", "submatrix"))
        n = self.rng.choice((1, 1, 2, 2, 2, 3, 3, 4))
        sets = good_masks(self.rng, n) if kind == "submatrix" else []
        yield from self.make_room(3)
        held = []
        for source in aimed(self.rng, kind, n, *sets):
            yield from self.put(source)
            held.append(self.last)
        target = self.rng.choice(self.free() if self.rng.random() < 0.9 else self.full())
        yield " ".join(map(str, [kind, *held, *sets, target]))
        yield f"minor {held[0]} " + " ".join(map(str, good_masks(self.rng, n)))
        if self.rng.random() < 0.7:
            for place in held:
                yield f"drop {place}"

    def faults(self):
        """An operation with places and sets of any kind: often two faults at once."""
        rng = self.rng
        kind = rng.choice(("product", "product", "submatrix", "submatrix", "minor", "write", "drop") + ONE_SOURCE)
        a, b, c = self.any_place(), self.any_place(), self.any_place()
        if kind in ("product", "submatrix", "minor") and rng.random() < 0.6 and self.full():
            a, b = rng.choice(self.full()), rng.choice(self.full())
            c = rng.choice(self.free()) if self.free() and rng.random() < 0.6 else c
        held = self.shelf.places[a] if a < PLACES else None
        rows, columns = masks(rng, held.n if held else self.size())
        yield {"product": f"product {a} {b} {c}", "submatrix": f"submatrix {a} {rows} {columns} {c}",
               "minor": f"minor {a} {rows} {columns}", "write": f"write {a} {rng.randrange(60)}", "drop": f"drop {a}",
               }.get(kind, f"{kind} {a} {b}")

    def drop(self):
        yield f"drop {self.any_place()}"

    def minor(self):
        yield from self.filled_source()
        place = self.source()
        for _ in range(self.rng.randint(1, 4)):
            yield f"minor {place} " + " ".join(map(str, masks(self.rng, self.n(place))))

    def lent(self, needed, most):
        """The length of a lent buffer: about what is needed, or any."""
        return self.rng.choice((needed, needed, needed - 1, needed + 1, 0, most, self.rng.randint(0, needed),
                                self.rng.randint(needed, most)))

    def write(self):
        yield from self.filled_source()
        place = self.rng.choice(self.full())
        yield f"write {place} {self.lent(len(encode(self.shelf.places[place])), 512)}"

    def build(self):
        """A matrix from stamps, put to use."""
        yield from self.make_room(2)
        place = self.rng.choice(self.free())
        yield build_line(place, rising(self.rng))
        for _ in range(self.rng.choice((0, 0, 1, 1, 2, 3))):
            yield from self.make_room(kept=place)
            yield self.use(place)

    def use(self, place):
        """A request about a place, an operation the rarer the larger the matrix is."""
        rng, source = self.rng, self.shelf.places[place]
        if rng.random() < 0.6 * COST_WEIGHTS[source.n - 1]:
            return self.operation(rng.choice(("product", "submatrix") + ONE_SOURCE), place, rng.choice(self.free()))
        rows, columns = good_masks(rng, source.n)
        return rng.choice((f"minor {place} {rows} {columns}", f"write {place} {self.lent(len(encode(source)), 512)}",
                           f"carry {place} {source.n} {text_of_items(listed(rng, source))}", f"transpose {place} {rng.choice(self.free())}"))

    def wrong_stamps(self):
        """Builds to an empty place, so that only the stamps are wrong, or the way they are written."""
        yield from self.make_room()
        for _ in range(self.rng.randint(1, 4)):
            yield build_line(self.rng.choice(self.free()), (spoiled_stamps if self.rng.random() < 0.75 else unread_stamps)(self.rng))

    def build_anywhere(self):
        """Builds that may meet a place above 7 or one that is full before a fault in the stamps."""
        yield build_line(self.any_place(), spoiled_stamps(self.rng) if self.rng.random() < 0.6 else rising(self.rng))

    def bytes_judged(self, data):
        """A load, undone if it is accepted, and the same bytes as a bundle."""
        target = self.rng.choice(self.free())
        yield f"load {target} {text_of_bytes(data)}"
        if self.shelf.places[target] is not None:
            yield f"drop {target}"
        yield f"rest {text_of_bytes(data)}"

    def garbage(self):
        yield garbled(self.rng)


# Each scenario with how often it is taken.
DIRECT = (
    (Stream.fill, 30), (Stream.operate, 80), (Stream.chain, 14), (Stream.edge, 24), (Stream.faults, 60), (Stream.drop, 14),
    (Stream.minor, 14), (sweeps.every_minor, 0.1), (Stream.write, 12), (sweeps.every_length, 0.5), (list_lines.carry, 25),
    (list_lines.counted_carry, 8), (list_lines.no_items, 1), (list_lines.reversals, 4), (list_lines.standstills, 4), (list_lines.work, 40),
    (byte_lines.byte_faults, 14), (byte_lines.load_anywhere, 12), (byte_lines.random_bytes, 4), (byte_lines.bundle, 4), (Stream.garbage, 12),
    (operations, 40), (readings, 24), (banded_sweeps.every_break, 0.1), (banded_sweeps.every_precedence, 0.1),
    (banded_sweeps.every_order_of_singular, 0.1), (banded_sweeps.some_patterns, 0.3),
    (Stream.build, 28), (Stream.wrong_stamps, 12), (Stream.build_anywhere, 8), (sweeps.every_wrong_stamp, 0.1), (sweeps.every_kind_of_stamps, 0.1),
    (sweeps.every_cut, 0.3), (sweeps.every_flip, 0.1), (sweeps.every_order, 0.1), (sweeps.every_gap, 0.1), (sweeps.every_distance, 0.1),
    (sweeps.every_pair, 0.1), (sentences, 36), (sweeps.every_sentence, 0.1), (sweeps.every_lent, 0.1), (sweeps.every_fault_of_sentences, 0.1),
)
SCENARIOS = DIRECT + (
    (foretold(Stream.operate), 30), (foretold(Stream.chain), 6), (foretold(Stream.edge), 10), (foretold(Stream.faults), 24), (foretold(Stream.build), 8),
    (foretold(operations), 14), (foretold(readings), 10), (forecast_lines.anywhere, 36), (forecast_lines.lengths, 16), (forecast_lines.misread, 24),
    (forecast_sweeps.every_zero_foretold, 0.1), (forecast_sweeps.every_refusal_foretold, 0.1), (forecast_sweeps.every_order_of_forecasts, 0.2),
    (forecast_sweeps.every_place_foretold, 0.1), (forecast_sweeps.every_length_foretold, 0.1),
    (foretold(recipe_lines.joined), 30), (recipe_lines.joined, 10), (foretold(recipe_lines.unequal), 10), (recipe_lines.edge, 12),
    (foretold(recipe_lines.anywhere), 24), (recipe_lines.misread, 24), (recipe_sweeps.every_count, 0.1), (recipe_sweeps.every_order_joined, 0.2),
    (recipe_sweeps.every_step_wrong, 0.1), (recipe_sweeps.every_place_joined, 0.1), (recipe_sweeps.every_zero_joined, 0.2),
    (recipe_sweeps.every_edge_joined, 0.2),
    (foretold(schur_lines.clamped), 30), (schur_lines.clamped, 16), (foretold(schur_lines.edge), 12), (schur_lines.edge, 6),
    (foretold(schur_lines.anywhere), 24), (schur_lines.misread, 20), (schur_sweeps.every_wrong_clamp, 0.1),
    (schur_sweeps.every_order_clamped, 0.2), (schur_sweeps.every_edge_clamped, 0.1), (schur_sweeps.every_zero_clamped, 0.2),
    (schur_sweeps.every_use_clamped, 0.2), (schur_sweeps.some_patterns_clamped, 0.2),
)


def stream(seed, shelf, chosen=SCENARIOS):
    """Request lines for ever, chosen by the seed and by what the shelf holds."""
    maker = Stream(random.Random(seed), shelf)
    scenarios, weights = zip(*chosen)
    while True:
        yield from maker.rng.choices(scenarios, weights)[0](maker)
