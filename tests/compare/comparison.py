"""Requests put to the console and to its model, and their answers compared.

batch: requests with the model's answers, from an empty shelf, each change of the shelf followed by `show`. answers: what a
console answers to a batch. first_difference, shrunk: where they part, and a short batch that still shows it. Tally: counts.
"""
import subprocess
import time
from collections import Counter
from itertools import count

from console_model import Console, parse
from model import GOOD, OPERATIONS, PLACES

CHANGING = {"load", "build", "drop", "recipe", *OPERATIONS}
SHOW_ALL_EVERY = 100
SECONDS_PER_BATCH = 120
# Of the table's first column.
WIDEST = 18


def touched(line):
    """The places of a request that may change the shelf."""
    request = parse(line)
    if request is None or request[0] not in CHANGING:
        return []
    call, words = request
    if call == "recipe":
        words = [words[0], *(place for place, _ in words[1])]
    named = words[:1] if call in ("load", "build", "drop") else [words[0], words[-1]] if call in GOOD else words
    return sorted({place for place in named if place < PLACES})


def batch(lines_of, length, last=lambda shelf: ()):
    """About `length` requests and the model's answers, and then all of `last`. Both are given the model's shelf and hand out lines."""
    console, made = Console(), count(1)
    asked, wanted = [], []

    def ask(line):
        asked.append(line)
        wanted.append(console.answer(line))

    def put(line):
        ask(line)
        for place in touched(line) if next(made) % SHOW_ALL_EVERY else range(PLACES):
            ask(f"show {place}")

    for line in lines_of(console.shelf):
        put(line)
        if len(asked) >= length:
            break
    for line in last(console.shelf):
        put(line)
    return asked, wanted


def model_answers(lines):
    console = Console()
    return [console.answer(line) for line in lines]


def answers(path, lines):
    """A console's answers, with a last line of its own if it did not end well. Without a path the model answers."""
    if path is None:
        return model_answers(lines)
    text = "".join(line + "\n" for line in lines).encode("latin-1")
    try:
        done = subprocess.run([path], input=text, stdout=subprocess.PIPE, timeout=SECONDS_PER_BATCH)
    except subprocess.TimeoutExpired as late:
        return (late.stdout or b"").decode("latin-1").split("\n")[:-1] + ["(no end)"]
    found = done.stdout.decode("latin-1").split("\n")
    last = found.pop()
    if last:
        found.append(last + " (line without an end)")
    if done.returncode:
        found.append(f"(exit status {done.returncode})")
    return found


def first_difference(wanted, found):
    """The index of the first answer that differs, is missing or is too many; None if there is none."""
    for index, (x, y) in enumerate(zip(wanted, found)):
        if x != y:
            return index
    return None if len(wanted) == len(found) else min(len(wanted), len(found))


def shrunk(path, lines, seconds=60):
    """Fewer requests that still end in a difference."""
    end = time.monotonic() + seconds

    def cut(trial):
        index = first_difference(model_answers(trial), answers(path, trial))
        return None if index is None else trial[:index + 1]

    lines = cut(lines) or lines
    size = max(1, len(lines) // 2)
    while time.monotonic() < end:
        place, smaller = 0, False
        while place < len(lines) and time.monotonic() < end:
            trial = cut(lines[:place] + lines[place + size:])
            if trial is not None and len(trial) < len(lines):
                lines, smaller = trial, True
            else:
                place += size
        if size == 1 and not smaller:
            break
        size = max(1, size // 2)
    return lines


class Tally:
    """How often each call was accepted and refused, by number, and for which sizes operations were accepted."""

    def __init__(self):
        self.outcomes = Counter()

    def count(self, line, answer):
        request = parse(line)
        call = request[0] if request else "(bad request)"
        words = answer.split(" ")
        self.outcomes[call, int(words[1]) if words[0] == "refused" else 0] += 1

    def lines(self):
        """A table: a row for each call, a column for accepted (0) and each refusal number."""
        numbers = sorted({number for _, number in self.outcomes})
        calls = sorted({call for call, _ in self.outcomes})
        yield "call".ljust(WIDEST) + "".join(("accepted" if k == 0 else f"no. {k}").rjust(9) for k in numbers)
        for call in calls:
            yield call.ljust(WIDEST) + "".join(str(self.outcomes[call, k] or "").rjust(9) for k in numbers)
        yield "in all".ljust(WIDEST) + "".join(str(sum(self.outcomes[c, k] for c in calls)).rjust(9) for k in numbers)
