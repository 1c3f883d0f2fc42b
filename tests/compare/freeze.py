#!/usr/bin/env python3
"""Writes a transcript of the console with the model's answers: stdin and stdout of crates/tnb_console, which the gate runs.

freeze.py [--seed S] [--count N] [--check]: about N requests, the same for the same seed. It covers every call, each refusal of
each call, every pair of refusals that a call can meet at once, each operation in all sizes, every number of stamps and every
fault of them that can stand alone, every way that a sum, a product and a quotient can be rounded, the sentence of every number in
lent bytes that just suffice and in one less, and banded places in every call and every place that breaks their pattern, or it
fails. Behind these N come forecasts and lengths, each operation in all sizes foretold and run, behind those the recipes, each
number of steps in all sizes, and last the Schur complements, each number of clamped points in all sizes. A line that is too long
lies across the end of a program's first read, and the last line lacks its end. With --check nothing is written: the files are
held to what would be.
"""
import argparse
import os
import random
import sys
from itertools import product

import sweeps
from banded_cases import unbanded
from banded_sweeps import banded_tour, every_break, every_order_of_singular, every_precedence, some_patterns
from comparison import Tally, batch
from conditions import together, wanted_pairs
from console_model import LARGEST, LEAST, LONGEST_LINE, MOST_LISTED, MOST_PLACE, MOST_STAMP, doubtful, parse, text_of_bytes, text_of_items
from encoding import encode
from forecast_cases import unforetold
from forecast_sweeps import every_forecast
from garbage import ODD_LINES
from list_lines import counted_carry
from model import OPERATIONS, ORDER, WORKED, pair_good
from number import HIGH, LOW, ONE
from pairs import cases, every_case, pair
from recipe_cases import unjoined
from recipe_sweeps import every_recipe
from requests import DIRECT, Stream, stream
from schur_cases import unclamped
from schur_sweeps import every_schur
from sentence_lines import every_sentence_case, sentence_cases, sentences
from sources import far_apart, good_masks, spread_number, unit_items
from stamp_lists import build_line, lone_faults, rising
from stamps import MOST_STAMPS, stamp_faults
from words import Matrix

HERE = os.path.dirname(os.path.abspath(__file__))
FOLDER = os.path.join(os.path.dirname(os.path.dirname(HERE)), "crates", "tnb_console")
COUNT = 7700
TWO, THREE = (LOW, -30), (LOW + (1 << 30), -30)
READ = 65536


def load(place, n, factors):
    return f"load {place} {text_of_bytes(encode(Matrix(n, tuple(factors))))}"


def marked():
    """P1 to P12, the arithmetic of P1 to P4 as a carry through all ones and as a product of one row."""
    for place, n in ((0, 2), (1, 3), (2, 1)):
        yield load(place, n, [ONE] * n * n)
    for first, second in ((ONE, (LOW, -63)), ((LOW + 1, -31), (LOW, -63)), ((HIGH - 1, 0), (LOW, -32))):
        yield f"carry 0 2 {text_of_items([(1,) + first, (1,) + second])}"
    yield load(3, 1, [(HIGH - 1, 0)])
    yield from ("product 3 3 4", "drop 3", "drop 4", "product 0 0 3", "drop 3", "inverse 0 3", "drop 3", "converse 0 3", "drop 3")
    yield from ("submatrix 1 6 3 3", "drop 3", "minor 1 5 5")
    yield load(3, 1, [THREE])
    yield from ("inverse 3 4", "drop 4", "drop 3")
    yield load(3, 1, [(LOW, 1000)])
    yield load(4, 1, [TWO])
    yield from ("product 3 2 5", "product 3 4 6", "inverse 3 6", f"carry 0 2 {text_of_items([(1,) + ONE, (-1,) + ONE])}")
    yield from (f"drop {place}" for place in range(6))


def tour(maker):
    """Each size through every call, with loaded sources and with built ones."""
    rng = maker.rng
    for n, stamped in product(range(1, 9), (False, True)):
        for place in (0, 1):
            yield build_line(place, rising(rng, n)) if stamped else load(place, n, [spread_number(rng, 2) for _ in range(n * n)])
        yield from ("product 0 1 2", "inverse 0 3", "converse 1 4", "transpose 0 5")
        rows, columns = good_masks(rng, n)
        yield from (f"submatrix 0 {rows} {columns} 6", f"submatrix 1 {2 ** n - 1} {2 ** n - 1} 7")
        for place in (0, 2):
            yield f"minor {place} " + " ".join(map(str, good_masks(rng, n)))
        items = [(rng.choice((-1, 1)),) + spread_number(rng, 2) for _ in range(n)]
        yield from (f"carry 2 {n} {text_of_items(items)}", f"reversals {text_of_items(items)}", "write 2 512")
        yield from (f"drop {place}" for place in range(8))


def limits(maker):
    """Where the working numbers go farthest and the result is still stored: the largest factors below the diagonal and on it."""
    for n in range(1, 9):
        exponents = [1000 if i >= j else -1000 for i in range(n) for j in range(n)]
        yield load(0, n, [(maker.rng.randrange(LOW, HIGH - 1000), e) for e in exponents])
        yield from (f"submatrix 0 {2 ** n - 1} {2 ** n - 1} 1", "transpose 0 2", f"submatrix 2 {2 ** n - 1} {2 ** n - 1} 3")
        yield from (f"drop {place}" for place in range(4))


def sums(maker):
    """Terms about 32 places apart in small operations, so that the smaller just decides the rounding or just doesn't."""
    for _ in range(20):
        for place in (0, 1):
            yield load(place, 2, [far_apart(maker.rng) for _ in range(4)])
        yield from ("product 0 1 2", "converse 0 3", "inverse 1 4")
        yield from (f"drop {place}" for place in range(5))


def standstills(maker):
    """Every list of up to four signs counted, the longest lists with one pair, and lists carried between two counts."""
    for length in range(1, 5):
        for signs in product((-1, 0, 1), repeat=length):
            yield f"reversals {text_of_items(unit_items(signs))}"
    for signs in ((0, 1, 0, 0, -1, 0, 1), (1, 0, 0, 0, 0, 0, 0, -1), (-1, 0, 1, 0, 0, -1, 0, 1), (0,) * 8):
        yield f"reversals {text_of_items(unit_items(signs))}"
    for n in range(1, 9):
        yield load(0, n, [spread_number(maker.rng, 2) for _ in range(n * n)])
        yield from (line for _ in range(4) for line in counted_carry(maker))
        yield "drop 0"


def rests(maker):
    """P1 to P4 and P10 worked with their rests, every distance and the ends of ranges, and pairs for the cases that are left."""
    made = [f"add {text_of_items([(1,) + first, (1, LOW, e)])}" for first, e in ((ONE, -63), ((LOW + 1, -31), -63), ((HIGH - 1, 0), -32))]
    made += [f"multiply {text_of_items([(1, HIGH - 1, 0)] * 2)}", f"divide {text_of_items([(1,) + ONE, (1,) + THREE])}"]
    made += [*sweeps.every_distance(maker), *sweeps.every_pair(maker)]
    yield from made
    for kind, case in uncovered(made):
        items = pair(maker.rng, kind)
        while case not in cases(kind, items):
            items = pair(maker.rng, kind)
        yield f"{kind} {text_of_items(items)}"


def builds(maker):
    """Stamps from 1 on and stamps up to 2^32 - 1, as many as the console takes and one more; single ones; each way to draw them, each fault."""
    counts = (*range(10), MOST_LISTED, MOST_LISTED + 1)
    lists = [range(first, first + count) for count in counts for first in (1, HIGH - count)]
    lists += [[stamp] for stamp in (0, LOW, HIGH, MOST_STAMP // 2, MOST_STAMP // 2 + 1, MOST_STAMP, MOST_STAMP + 1)]
    for stamps in lists:
        yield build_line(0, stamps)
        if maker.shelf.places[0] is not None:
            yield "drop 0"
    yield from sweeps.every_kind_of_stamps(maker)
    yield from sweeps.every_wrong_stamp(maker)


def worded(maker):
    """Sentences of every number, in lent bytes of every length, with every fault, and some for the cases that are left."""
    made = [*sweeps.every_sentence(maker), *sweeps.every_lent(maker), *sweeps.every_fault_of_sentences(maker)]
    while left := unsaid(made):
        made += [line for line in sentences(maker) if {*left} - {*unsaid([line])}]
    yield from made


def borders():
    """Places above 7, lists about the longest and about the most that a call takes, numbers of an item at the ends and one beyond."""
    yield from (f"show {place}" for place in (7, 8, MOST_PLACE))
    yield load(0, 2, [ONE] * 4)
    one = (1,) + ONE
    lists = [[one] * count for count in (8, 9, MOST_LISTED, MOST_LISTED + 1)]
    for place, number in product(range(3), (LEAST - 1, LEAST, -LOW, -1, LARGEST, LARGEST + 1)):
        lists.append([one, one[:place] + (number,) + one[place + 1:]])
    for listed in lists:
        yield f"reversals {text_of_items(listed)}"
        yield f"carry 0 2 {text_of_items(listed)}"
        yield f"multiply {text_of_items(listed)}"
    yield "drop 0"


def banded(maker):
    """Banded places, and what is none."""
    for part in (banded_tour, some_patterns, every_order_of_singular, every_precedence):
        yield from part(maker)
    yield from every_break(maker, 8)


def lines(seed, shelf):
    maker = Stream(random.Random(f"frozen {seed}"), shelf)
    yield from marked()
    for part in (tour, limits, sums, standstills, rests, builds):
        yield from part(maker)
    yield from borders()
    yield from sweeps.every_order(maker)
    yield from (line for line in ODD_LINES if not doubtful(line))
    for sweep in (sweeps.every_minor, sweeps.every_length, sweeps.every_cut, sweeps.every_flip, sweeps.every_gap):
        yield from sweep(maker)
    yield from worded(maker)
    yield from banded(maker)
    yield from stream(f"frozen {seed}", shelf, DIRECT)


def covering(seed, count):
    """Requests and the model's answers: about `count` of `lines`, then forecasts and lengths, then recipes, then Schur complements, in parts of their own that
    leave those before them alone."""
    def later(shelf):
        yield from every_forecast(Stream(random.Random(f"foretold {seed}"), shelf))
        yield from every_recipe(Stream(random.Random(f"joined {seed}"), shelf))
        yield from every_schur(Stream(random.Random(f"clamped {seed}"), shelf))

    return batch(lambda shelf: lines(seed, shelf), count, later)


def uncovered(asked):
    """For add, multiply and divide, the cases that no request met, as pairs of call and case."""
    met = {kind: set() for kind in WORKED}
    for call, items in filter(None, map(parse, asked)):
        if call in WORKED and pair_good(items):
            met[call] |= cases(call, items)
    return [(kind, case) for kind in WORKED for case in sorted(every_case(kind) - met[kind])]


def stamp_case(stamps, answer):
    """What a build shows: so many stamps taken, or a fault that is refused by itself."""
    faults = stamp_faults(stamps)
    if answer.startswith("bound"):
        return f"{len(stamps)} taken"
    return faults[0] if answer.startswith("refused 15") and len(faults) == 1 else None


def unbuilt(asked, wanted):
    """The numbers of stamps that no build was accepted with, and the faults that none was refused for alone."""
    requests = zip(map(parse, asked), wanted)
    met = {stamp_case(request[1][1], answer) for request, answer in requests if request and request[0] == "build"}
    return [case for case in (*(f"{count} taken" for count in range(1, MOST_STAMPS + 1)), *lone_faults()) if case not in met]


def unsaid(asked):
    """The cases of sentences that no request shows."""
    met = {case for call, words in filter(None, map(parse, asked)) if call == "sentence" for case in sentence_cases(*words)}
    return [case for case in every_sentence_case() if case not in met]


def missing(asked, wanted, tally):
    """What the transcript ought to cover and doesn't."""
    for call, order in ORDER.items():
        yield from (f"{call} {number}" for number in (0, *order) if not tally.outcomes[call, number])
    sizes = {(line.split(" ")[0], *answer.split(" ")[:2]) for line, answer in zip(asked, wanted)}
    for call in OPERATIONS:
        # A transpose has one bound for all, and of one row no points can be clamped.
        if sum(size[:2] == (call, "bound") for size in sizes) < {"transpose": 1, "schur": 7}.get(call, 8):
            yield f"{call} in all sizes"
    yield from (f"{call}, {case}" for call, case in uncovered(asked))
    yield from (f"build, {case}" for case in unbuilt(asked, wanted))
    yield from (f"sentence, {case}" for case in unsaid(asked))
    yield from unbanded(asked)
    yield from unforetold(asked)
    yield from unjoined(asked)
    yield from unclamped(asked)
    pairs = together(asked)
    yield from (f"{call} {first} with {second}" for call, first, second in wanted_pairs() if not pairs[call, first, second])


def across_a_read(asked, wanted):
    """The same with a line that is too long across byte READ, where its tail would be a request."""
    begin = 0
    for k, line in enumerate(asked):
        if READ - begin < 2 * LONGEST_LINE:
            return asked[:k] + ["y" * (READ - begin) + "show 0"] + asked[k:], wanted[:k] + ["bad request"] + wanted[k:]
        begin += len(line) + 1
    return asked, wanted


def main():
    parser = argparse.ArgumentParser(description=__doc__.splitlines()[0])
    parser.add_argument("--seed", default="1")
    parser.add_argument("--count", type=int, default=COUNT)
    parser.add_argument("--check", action="store_true", help="hold the files to what would be written")
    chosen = parser.parse_args()
    asked, wanted = across_a_read(*covering(chosen.seed, chosen.count))
    tally = Tally()
    for line, answer in zip(asked, wanted):
        tally.count(line, answer)
    print("\n".join(tally.lines()))
    faults = [f"not covered: {case}" for case in missing(asked, wanted, tally)]
    for name, content in (("stdin", "\n".join(asked)), ("stdout", "".join(line + "\n" for line in wanted))):
        path, text = os.path.join(FOLDER, name), content.encode("latin-1")
        if not chosen.check:
            with open(path, "wb") as file:
                file.write(text)
        elif not os.path.exists(path) or open(path, "rb").read() != text:
            faults.append(f"{name} differs")
    print(f"{len(asked)} requests", *faults, sep="\n")
    return 1 if faults else 0


if __name__ == "__main__":
    sys.exit(main())
