#!/usr/bin/env python3
"""The console's model: for each request line its answer line, over one shelf. Run by itself it is such a console.

Console.answer: the answer to a line, without its end. parse: the call and its arguments, or None for a bad request; the call of a forecast is two words.
doubtful: whether the description leaves open if a line is taken; the generator keeps clear of those.
"""
import re
import sys

from encoding import Refusal
from model import FORECASTS, ONE_SOURCE, PLACES, WORKED, Shelf
from words import WAYS

LONGEST_LINE = 4096
MOST_PLACE, MOST_MASK, MOST_LENT, MOST_STAMP, MOST_LISTED = 2 ** 32 - 1, 255, 512, 2 ** 64 - 1, 16
# Number, offset and places of a sentence.
MOST_SAID = 2 ** 32 - 1
MOST_CLAMPED = 2 ** 32 - 1
LENT_BYTE, LENT_ITEM = "a5", (1, 2 ** 31, 0)
# Where the length to lend stands among the arguments of a call that writes bytes.
LENT_BYTES_AT = {"write": 1, "sentence": 0}
BAD_REQUEST = "bad request"
# The calls take an item as three whole numbers of 64 bits with a sign, so these are passed on.
LEAST, LARGEST = -2 ** 63, 2 ** 63 - 1
# A place that no machine type holds.
BEYOND = 10 ** 25

WHOLE = re.compile(r"[0-9]+\Z")
SIGNED = re.compile(r"-?[0-9]+\Z")
HEX = re.compile(r"(?:[0-9a-f]{2})+\Z")

# What follows each word of the console: P a place, M a mask, C a length to lend, B bytes, N one item, W a number of a sentence, K a number of clamped points;
# at the end any number of items, I, of stamps, S, of a sentence's places, L, or of a recipe's steps, R.
FORMS = {
    "load": "PB", "write": "PC", "drop": "P", "product": "PPP", "inverse": "PP", "converse": "PP", "transpose": "PP",
    "submatrix": "PMMP", "minor": "PMM", "carry": "PCI", "reversals": "I", "rest": "B", "show": "P",
    "add": "NN", "multiply": "NN", "divide": "NN", "build": "PS", "sentence": "CWWL", "length": "P", "recipe": "PR",
    "schur": "PKP",
}
# A forecast has the operation's words without its target, the last word, or the first of a recipe.
FORMS |= {call: FORMS[kind][1:] if kind == "recipe" else FORMS[kind][:-1] for call, kind in FORECASTS.items()}
# The later description limits places to 2^32 - 1, so of these calls a larger one is no place and the line a bad request.
LIMITED = ("length", "recipe", "schur", *FORECASTS)


def whole(text, most):
    """The whole number that the text stands for, None if it is none or above `most`."""
    if not WHOLE.match(text):
        return None
    number = int(text)
    return number if number <= most else None


def data(text):
    if text == "-":
        return b""
    return bytes.fromhex(text) if HEX.match(text) else None


def item(text):
    parts = text.split(",")
    if len(parts) != 3 or not all(map(SIGNED.match, parts)):
        return None
    numbers = tuple(map(int, parts))
    return numbers if all(LEAST <= number <= LARGEST for number in numbers) else None


def step(text):
    """A place and the way it is taken, one comma between them."""
    place, _, way = text.partition(",")
    number = whole(place, MOST_PLACE)
    return (number, way) if number is not None and way in WAYS else None


READERS = {
    "P": lambda text: whole(text, MOST_PLACE), "M": lambda text: whole(text, MOST_MASK),
    "C": lambda text: whole(text, MOST_LENT), "B": data, "N": item, "W": lambda text: whole(text, MOST_SAID),
    "K": lambda text: whole(text, MOST_CLAMPED),
}
# What reads each member of a list.
LISTS = {"I": item, "S": lambda text: whole(text, MOST_STAMP), "L": lambda text: whole(text, MOST_SAID), "R": step}
# Kinds that have no sign, so that any sign is a bad request.
UNSIGNED = "SWLR"


def members(kind, texts):
    found = [LISTS[kind](text) for text in texts]
    return None if None in found or len(found) > MOST_LISTED else found


def divided(line):
    """The call, the words behind it, and what they are; nothing is known to follow a word that is no call."""
    call, *texts = line.split(" ")
    if call == "forecast" and texts:
        call, texts = f"forecast {texts[0]}", texts[1:]
    return call, texts, FORMS.get(call)


def parse(line):
    """The call and its arguments, in the console's order; None for a bad request."""
    if len(line) > LONGEST_LINE:
        return None
    call, texts, form = divided(line)
    if form is None:
        return None
    kinds = form.rstrip("".join(LISTS))
    if len(texts) < len(kinds) or (len(texts) > len(kinds) and form == kinds):
        return None
    arguments = [READERS[kind](text) for kind, text in zip(kinds, texts)]
    if form != kinds:
        arguments.append(members(form[-1], texts[len(kinds):]))
    return None if None in arguments else (call, arguments)


def doubtful(line):
    """Leading zeros, plus signs, minus zero, and places that only some types hold. A stamp has no sign, nor has a number of a sentence or of a step."""
    call, texts, form = divided(line)
    form = form or ""
    for kind, text in zip(form.ljust(len(texts), form[-1:] or "?"), texts):
        # docs/DECISIONS.md has since said how numbers are spelled: clamped points may have zeros in front and no sign.
        if kind in "BK":
            continue
        if kind == "P" and call not in LIMITED and WHOLE.match(text) and MOST_PLACE < int(text) < BEYOND:
            return True
        if any(re.match(r"0[0-9]" if kind in UNSIGNED else r"[-+]?0[0-9]|\+|-0", part) for part in text.split(",")):
            return True
    return False


def text_of_bytes(content):
    return content.hex() or "-"


def text_of_items(listed):
    return " ".join("%d,%d,%d" % one for one in listed) or "-"


def call_words(call, arguments):
    """The arguments as conditions.conditions takes them: a carry's list before the lent length, two items as a list."""
    if call in WORKED:
        return [arguments]
    return [arguments[0], arguments[2], arguments[1]] if call == "carry" else arguments


class Console:
    def __init__(self):
        self.shelf = Shelf()

    def answer(self, line):
        request = parse(line)
        if request is None:
            return BAD_REQUEST
        call, arguments = request
        try:
            if call in ONE_SOURCE:
                return self.one_source(call, *arguments)
            if call in WORKED:
                return self.work(call, arguments)
            if call in FORECASTS:
                return f"steps {self.shelf.forecast(FORECASTS[call], *arguments)}"
            return getattr(self, call)(*arguments)
        except Refusal as fault:
            return f"refused {fault.number} at {fault.offset}" + self.lent(call, arguments)

    @staticmethod
    def lent(call, arguments):
        """What follows a refusal where a buffer was lent: the buffer, left alone."""
        if call in LENT_BYTES_AT:
            return " " + (LENT_BYTE * arguments[LENT_BYTES_AT[call]] or "-")
        if call == "carry":
            return " " + text_of_items([LENT_ITEM] * arguments[1])
        return ""

    def load(self, place, content):
        self.shelf.load(place, content)
        return "loaded"

    def build(self, place, stamps):
        return f"bound {self.shelf.build(place, stamps)}"

    def write(self, place, length):
        content = self.shelf.write(place, length)
        return f"wrote {len(content)} " + content.hex() + LENT_BYTE * (length - len(content))

    def drop(self, place):
        self.shelf.drop(place)
        return "dropped"

    def product(self, left, right, target):
        return "bound %d steps %d" % self.shelf.product(left, right, target)

    def one_source(self, call, place, target):
        return "bound %d steps %d" % self.shelf.one_source(call, place, target)

    def submatrix(self, place, rows, columns, target):
        return "bound %d steps %d" % self.shelf.submatrix(place, rows, columns, target)

    def schur(self, place, k, target):
        return "bound %d steps %d" % self.shelf.schur(place, k, target)

    def recipe(self, target, steps):
        return "bound %d steps %d" % self.shelf.recipe(target, steps)

    def length(self, place):
        return f"length {self.shelf.length(place)}"

    def minor(self, place, rows, columns):
        return "number %d %d" % self.shelf.minor(place, rows, columns)

    def carry(self, place, length, listed):
        carried = self.shelf.carry(place, listed, length)
        return "carried " + text_of_items(carried + [LENT_ITEM] * (length - len(carried)))

    def reversals(self, listed):
        return f"reversals {self.shelf.reversals(listed)}"

    def work(self, call, pair):
        result, rest = self.shelf.work(call, pair)
        return "number %d %d rest %d %d" % (result + rest)

    def rest(self, content):
        return "rest " + text_of_bytes(self.shelf.rest(content))

    def sentence(self, length, number, offset, places):
        written, after = self.shelf.sentence(bytes.fromhex(LENT_BYTE) * length, number, offset, places)
        return f"wrote {written} " + text_of_bytes(after)

    def show(self, place):
        if place >= PLACES:
            raise Refusal(1)
        matrix = self.shelf.places[place]
        if matrix is None:
            return "empty"
        return f"matrix {matrix.n} " + " ".join("%d %d" % number for number in matrix.factors)


def main():
    console = Console()
    for line in sys.stdin.buffer:
        print(console.answer(line.removesuffix(b"\n").decode("latin-1")))


if __name__ == "__main__":
    main()
