"""How far rounded factors lie from the exact run: the largest distance seen, by operation and size, in unit roundings.

Measure: sources, their operations as request lines, and the worst seen. Every operation and size gets equally many accepted cases.
Half of the tries change a number or two of the worst source so far. read_table, write_table: the figures beside the bounds, as
comma-separated values. merged: the largest of earlier runs and this one.
"""
import csv
import os
import random
from collections import Counter, namedtuple
from itertools import product

from console_model import text_of_bytes
from encoding import encode
from exact import largest_units
from number import HIGH, LOW
from sources import good_masks, mantissa, matrix
from words import Matrix, bound

Row = namedtuple("Row", "operation n bound largest cases")
OPERATIONS = ("product", "inverse", "converse", "submatrix")


class Measure:
    def __init__(self, seed, cases):
        self.rng = random.Random(f"measure {seed}")
        self.worst, self.cases = {}, Counter()
        self.turns, self.done = self.all_turns(cases), False

    def all_turns(self, cases):
        """Round by round each operation and size once; one that is refused is tried again with other sources."""
        for made in range(cases):
            for kind, n in product(OPERATIONS, range(1, 9)):
                while self.cases[kind, n] == made:
                    yield kind, n
        self.done = True

    def changed(self, source):
        factors = list(source.factors)
        for _ in range(self.rng.choice((1, 1, 2, 4))):
            place = self.rng.randrange(len(factors))
            m, e = factors[place]
            near = min(HIGH - 1, max(LOW, m + self.rng.randint(-3, 3)))
            factors[place] = self.rng.choice(((mantissa(self.rng), e), (near, e), (m, max(-900, min(900, e + self.rng.randint(-2, 2))))))
        return Matrix(source.n, tuple(factors))

    def sources(self, kind, n):
        known = self.worst.get((kind, n))
        if known and self.rng.random() < 0.5:
            return [self.changed(source) for source in known[1]], known[2]
        sets = good_masks(self.rng, n) if kind == "submatrix" else []
        return [matrix(self.rng, n) for _ in range(2 if kind == "product" else 1)], sets

    def requests(self, shelf):
        """Lines that load sources, operate and show; each accepted result is measured."""
        for kind, n in self.turns:
            sources, sets = self.sources(kind, n)
            places = list(range(len(sources)))
            for place, source in zip(places, sources):
                yield f"load {place} {text_of_bytes(encode(source))}"
            yield " ".join(map(str, [kind, *places, *sets, 7]))
            result = shelf.places[7]
            if result is not None:
                yield "drop 7"
                self.note(kind, sources, sets, result)
            for place in places:
                yield f"drop {place}"

    def note(self, kind, sources, sets, result):
        n = sources[0].n
        error = largest_units(kind, sources, result, *sets)
        self.cases[kind, n] += 1
        if (kind, n) not in self.worst or error > self.worst[kind, n][0]:
            self.worst[kind, n] = (error, sources, sets)

    def within_bounds(self):
        return all(error <= bound(*key) for key, (error, _, _) in self.worst.items())

    def rows(self):
        """For each operation and size a Row."""
        for kind in OPERATIONS:
            for n in range(1, 9):
                if (kind, n) in self.worst:
                    yield Row(kind, n, bound(kind, n), round(self.worst[kind, n][0], 3), self.cases[kind, n])


def merged(earlier, rows):
    """The larger error of each operation and size, with the cases of both."""
    known = {row[:2]: row for row in earlier}
    for row in rows:
        old = known.get(row[:2])
        known[row[:2]] = row if old is None else row._replace(largest=max(row.largest, old.largest), cases=row.cases + old.cases)
    return sorted(known.values(), key=lambda row: (OPERATIONS.index(row.operation), row.n))


def read_table(path):
    if not os.path.exists(path):
        return []
    with open(path, encoding="ascii") as table:
        return [Row(kind, int(n), int(k), float(largest), int(cases)) for kind, n, k, largest, cases in list(csv.reader(table))[1:]]


def write_table(path, rows):
    with open(path, "w", encoding="ascii", newline="\n") as table:
        table.write(",".join(Row._fields) + "\n")
        for row in rows:
            table.write(f"{row.operation},{row.n},{row.bound},{row.largest:.3f},{row.cases}\n")
