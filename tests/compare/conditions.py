"""Which conditions of the tables hold for a call, all at once.

conditions: every one that does, so that the first in model.ORDER is the answer. together: the pairs that requests met at once; wanted_pairs: those that a
call can meet.
"""
from collections import Counter
from itertools import combinations

from console_model import Console, call_words, parse
from encoding import Refusal, encode, read_single
from model import FEWEST_STEPS, FORECASTS, MOST_STEPS, ORDER, PLACES, WORKED, in_range, item_good, pair_good, sets_good
from number import ITEM_ZERO, stored
from patterns import reached
from sentences import sentence_faults
from stamps import stamp_faults
from words import carry, minor, operate, word

MOST_ROWS = 8


def places_named(call, words):
    """The sources and the target (or None) that a call names."""
    if call in ("load", "build"):
        return [], words[0]
    if call in ("recipe", "forecast recipe"):
        return [place for place, _ in words[-1]], words[0] if call == "recipe" else None
    if call in FORECASTS:
        return list(words[:1] if FORECASTS[call] != "product" else words[:2]), None
    if call in ("write", "drop", "minor", "carry", "length"):
        return [words[0]], None
    if call in ("reversals", "rest", "sentence") + WORKED:
        return [], None
    return list(words[:1] if call != "product" else words[:2]), words[-1]


def conditions(shelf, call, words):
    """Every condition of the tables that holds, each judged where it has a meaning. The words are the call's arguments."""
    sources, target = places_named(call, words)
    found = set()
    named = sources + ([] if target is None else [target])
    if any(place >= PLACES for place in named):
        found.add(1)
    held = [shelf.places[place] for place in sources if place < PLACES]
    if None in held:
        found.add(11)
    if target is not None and target < PLACES and shelf.places[target] is not None:
        found.add(12)
    if call == "load":
        try:
            read_single(words[1])
        except Refusal as fault:
            found.add(fault.number)
    elif call == "build":
        if stamp_faults(words[1]):
            found.add(15)
    elif call == "sentence":
        found |= sentence_faults(*words)
    elif call == "reversals":
        if not 1 <= len(words[0]) <= 8 or not all(map(item_good, words[0])):
            found.add(9)
    elif call in WORKED:
        if not pair_good(words[0]):
            found.add(9)
    elif call in ("recipe", "forecast recipe"):
        found |= recipe_conditions(call, held, words[-1])
    elif call in ("schur", "forecast schur"):
        found |= schur_conditions(call, held, words[1])
    elif len(held) == len(sources) and None not in held and held:
        found |= conditions_of_work(call, held, words)
    return found


def recipe_conditions(call, held, steps):
    """18; 13 where two that are held differ, whatever the other steps are; 14 where there is a result."""
    counted = FEWEST_STEPS <= len(steps) <= MOST_STEPS
    found = set() if counted else {18}
    if len({source.n for source in held if source}) > 1:
        return found | {13}
    whole = call == "recipe" and counted and len(held) == len(steps) and None not in held
    return found | {14} if whole and not in_range(operate(tuple(way for _, way in steps), held)) else found


def schur_conditions(call, held, k):
    """8, of a k that no size allows whether or not a source is held; 14 where there is a result."""
    if k not in range(1, held[0].n if held and held[0] else MOST_ROWS):
        return {8}
    whole = call == "schur" and held and held[0]
    return {14} if whole and not in_range(operate(call, held, k)) else set()


def forecast_conditions(held, words):
    """13 where there are two sources, 8 where there are sets."""
    if len(held) == 2 and held[0].n != held[1].n:
        return {13}
    return {8} if len(words) == 3 and not sets_good(held[0].n, *words[1:]) else set()


def conditions_of_work(call, held, words):
    """Those that concern what the sources hold: 8, 9, 10, 13, 14, 17."""
    n = held[0].n
    if call in FORECASTS:
        return forecast_conditions(held, words)
    if call == "product":
        if held[0].n != held[1].n:
            return {13}
        return set() if in_range(operate(call, held)) else {14}
    if call in ("inverse", "converse"):
        return set() if in_range(operate(call, held)) else {14}
    if call in ("submatrix", "minor"):
        if not sets_good(n, words[1], words[2]):
            return {8}
        if call == "submatrix" and words[1] not in reached(word(held[0]), n, words[2]):
            return {17}
        good = in_range(operate(call, held, *words[1:3])) if call == "submatrix" else stored(minor(held[0], *words[1:]))
        return set() if good else {14}
    if call == "write":
        return {10} if words[1] < len(encode(held[0])) else set()
    found = set()
    if call == "carry":
        items = words[1]
        if words[2] < n:
            found.add(10)
        if len(items) != n or not all(map(item_good, items)):
            found.add(9)
        elif not all(item == ITEM_ZERO or stored(item[1:]) for item in carry(held[0], items)):
            found.add(14)
    return found


def together(asked):
    """For each call, the pairs of conditions that held at once."""
    console, pairs = Console(), Counter()
    for line in asked:
        request = parse(line)
        if request and request[0] in ORDER:
            found = sorted(conditions(console.shelf, request[0], call_words(*request)), key=ORDER[request[0]].index)
            pairs.update((request[0],) + pair for pair in combinations(found, 2))
        console.answer(line)
    return pairs


def wanted_pairs():
    """The pairs of conditions that a call can meet at once. Faults in bytes come one at a time; 13, 8, 17 and 18 leave nothing to work."""
    alone = [{2, 3, 4, 5, 6, 7, 16}, {13, 14}, {8, 14, 17}, {9, 14}, {14, 18}]
    for call, order in ORDER.items():
        for pair in combinations(order, 2):
            # A place above 7 holds nothing, and an empty source leaves nothing to be judged but the target, which a forecast has not. Of a recipe's other
            # steps two may still differ, and a k of none or of eight is out of range of any source.
            kind = FORECASTS.get(call, call)
            single = call in ("write", "drop", "minor", "carry", "length", *FORECASTS) and kind != "recipe" and (call, *pair) != ("forecast product", 1, 11)
            lone = single and pair[0] in (1, 11) and (kind, pair[1]) != ("schur", 8)
            unjudged = {8, 9, 10, 13, 14, 17} - {"recipe": {13}, "schur": {8}}.get(kind, set())
            hidden = pair[0] == 11 and set(pair[1:]) & unjudged or call in ("load", "build") and pair == (1, 12)
            if not lone and not hidden and not any(set(pair) <= group for group in alone):
                yield (call,) + pair
