"""Refusals in words, document 02, (n): the sentence of a refusal, written and read back.

REASONS: the reason of each number, from the table of docs/REFUSALS.md. sentence: the text. answered: the call, what it leaves of the lent bytes.
sentence_faults: every condition that holds for a call, said again. recovered: number, offset and places out of a text, found without the writer.
"""
import os
import re
from itertools import takewhile

from encoding import Refusal

HERE = os.path.dirname(os.path.abspath(__file__))
PAGE = os.path.join(os.path.dirname(os.path.dirname(HERE)), "docs", "REFUSALS.md")
HEAD = ["| number | condition | reason |", "|---|---|---|"]
LAST_NUMBER, MOST_NAMED = 22, 7


def rows(text):
    """The cells of each row of the page's table; between a cell and its border stands one space."""
    lines = text.split("\n")
    if lines.count(HEAD[0]) != 1 or HEAD[1] not in lines[lines.index(HEAD[0]) + 1:][:1]:
        raise ValueError("refusals: not one table of number, condition and reason")
    for line in takewhile(lambda line: line.startswith("|"), lines[lines.index(HEAD[0]) + 2:]):
        yield line.removeprefix("| ").removesuffix(" |").split(" | ")


def reasons(text):
    """The reasons by number. A table that is not what the paper wants is no table: ValueError."""
    found = {}
    for number, cells in enumerate(rows(text), 1):
        if len(cells) != 3 or cells[0] != str(number):
            raise ValueError(f"refusals: row {number} is {cells}")
        reason = cells[2]
        if not reason or reason != " ".join(reason.split()) or not (reason.isascii() and reason.isprintable()) or re.search("[0-9]", reason):
            raise ValueError(f"refusals: {reason!r} is no reason")
        if reason in found.values():
            raise ValueError(f"refusals: {reason!r} is there twice")
        found[number] = reason
    if len(found) != LAST_NUMBER:
        raise ValueError(f"refusals: {len(found)} numbers, not {LAST_NUMBER}")
    return found


def page():
    with open(PAGE, encoding="utf-8", newline="\n") as file:
        return file.read()


REASONS = reasons(page())


def sentence(number, offset, places):
    """The parts, one space before each but the first."""
    return " ".join(["refused", str(number), "at", str(offset), REASONS[number], *map(str, places)])


def sayable(number, places):
    """Whether there is a sentence: a number from 1 to 22 and up to seven places, whatever they are."""
    return 1 <= number <= LAST_NUMBER and len(places) <= MOST_NAMED


def answered(lent, number, offset, places):
    """The length of the sentence and the lent bytes after the call. A refusal leaves them alone."""
    if not sayable(number, places):
        raise Refusal(9)
    text = sentence(number, offset, places).encode("ascii")
    if len(lent) < len(text):
        raise Refusal(10)
    return len(text), text + lent[len(text):]


def digits(number):
    count = 1
    while number := number // 10:
        count += 1
    return count


def needed(number, offset, places):
    """How many bytes a sentence takes, counted; of a number without a reason, those of the other parts."""
    reason = 1 + len(REASONS[number]) if number in REASONS else 0
    return 8 + digits(number) + 4 + digits(offset) + reason + sum(1 + digits(place) for place in places)


def sentence_faults(length, number, offset, places):
    """What a call with so many lent bytes is refused for."""
    found = {10} if length < needed(number, offset, places) else set()
    return found | {9} if number not in REASONS or len(places) > MOST_NAMED else found


DECIMAL = "(?:0|[1-9][0-9]*)"
SHAPE = re.compile(rf"refused ({DECIMAL}) at ({DECIMAL}) ([^0-9]*[^0-9 ])((?: {DECIMAL})*)")


def recovered(text):
    """Number, offset and places; None if the text is no sentence."""
    found = SHAPE.fullmatch(text)
    if found is None or REASONS.get(int(found[1])) != found[3]:
        return None
    places = [int(word) for word in found[4].split(" ")[1:]]
    return (int(found[1]), int(found[2]), places) if len(places) <= MOST_NAMED else None
