"""Checks of the refusals in words, document 02, (n): the page's table and faulty ones, sentences spelled by hand, the order of the tests, the lent bytes,
sentences read back in every possible way, the longest, the requests drawn, the console's limits."""
import random
import re
from itertools import product

from checks import check, refused, same
from console_model import BAD_REQUEST, MOST_LENT, MOST_LISTED, MOST_SAID, Console, doubtful, parse
from garbage import ODD_LINES, garbled
from requests import Stream
from sentence_lines import DRAWS, NUMBERS, OUTSIDE, TELLING, every_sentence_case, said, sentence_cases, sentence_line, sentences, spoiled, unread
from sentences import REASONS, answered, needed, reasons, recovered, sayable, sentence, sentence_faults

LARGEST_64 = 2 ** 64 - 1

# Spelled by hand, one for each number at least: number, offset, places, sentence.
BY_HAND = (
    (1, 0, [8], "refused 1 at 0 no such place 8"),
    (1, 0, [], "refused 1 at 0 no such place"),
    (2, 13, [3], "refused 2 at 13 bytes end early 3"),
    (3, 448, [], "refused 3 at 448 malformed group number"),
    (4, 0, [0], "refused 4 at 0 size out of range 0"),
    (5, 7, [1], "refused 5 at 7 factor out of range 1"),
    (6, 4294967295, [], "refused 6 at 4294967295 factor must not be zero"),
    (7, 449, [7], "refused 7 at 449 bytes behind the matrix 7"),
    (8, 0, [2, 5], "refused 8 at 0 wrong choice of rows or columns 2 5"),
    (9, 0, [], "refused 9 at 0 wrong list, item or number"),
    (10, 1, [6], "refused 10 at 1 lent output too short 6"),
    (11, 0, [6], "refused 11 at 0 source place empty 6"),
    (11, 10, [6, 6], "refused 11 at 10 source place empty 6 6"),
    (12, 0, [1, 0, 2], "refused 12 at 0 target place holds a matrix 1 0 2"),
    (13, 0, [7, 6], "refused 13 at 0 sizes differ 7 6"),
    (14, 9, [3, 3, 3], "refused 14 at 9 result exponent out of range 3 3 3"),
    (15, 99, [4], "refused 15 at 99 wrong time stamps 4"),
    (16, 100, [], "refused 16 at 100 zero breaks the pattern"),
    (17, 0, [0, 1], "refused 17 at 0 chosen submatrix singular 0 1"),
    (18, 0, [5, 4, 3, 2, 1, 0], "refused 18 at 0 wrong count of steps 5 4 3 2 1 0"),
    (19, 1000, [0, 1, 2, 3], "refused 19 at 1000 low value zero or above its high value 0 1 2 3"),
    (20, 0, [4294967295, 0], "refused 20 at 0 count too large 4294967295 0"),
    (21, 0, [], "refused 21 at 0 nothing pending"),
    (22, 18446744073709551615, [18446744073709551615, 10, 0, 0, 10, 9, 8],
     "refused 22 at 18446744073709551615 tolerance too large 18446744073709551615 10 0 0 10 9 8"),
)


def row(number, reason):
    return f"| {number} | never | {reason} |"


@check
def reasons_listed(rng, rounds):
    """The page's table is taken, with the numbers in order and no two reasons alike; one with any fault is not."""
    same(list(REASONS), list(range(1, 23)))
    good = ["| number | condition | reason |", "|---|---|---|", *(row(k, "reason " + "x" * k) for k in range(1, 23))]
    same(reasons("\n".join(["# Title", "", *good, "", "Text."])), {k: "reason " + "x" * k for k in range(1, 23)})
    faulty = [good[2:], good[:1] + good[2:], good[:2], good[:-1], good[:5] + good[6:], good[:5] + [good[6], good[5]] + good[7:], good + [row(23, "y")],
              good[:2] + [row(0, "y")] + good[2:], good[:9] + [good[8]] + good[9:], good + good, [*good, "", *good],
              good[:9] + [""] + good[9:], [good[0], "|---|---|", *good[2:]], []]
    wrong = ("", " ", " y", "y ", "y 2 z", "2", "y2", "reason x", "caf\xe9", "y\tz", "y | z", "y\xb2", "y\r")
    faulty += [[*good[:i + 1], row(i, reason), *good[i + 2:]] for i in (2, 7, 22) for reason in wrong]
    faulty += [[*good[:4], line, *good[5:]] for line in ("| 3 | y |", "| 3 | y | |", "|3 | y | z |", "| 03 | y | z |", "| three | y | z |", "3 | y | z")]
    for lines in faulty:
        try:
            found = reasons("\n".join(lines))
        except ValueError:
            continue
        assert False, f"taken: {found}"


@check
def sentences_by_hand(rng, rounds):
    """The rows: text, length, what the call leaves of lent bytes, and the way back."""
    same({number for number, *_ in BY_HAND}, set(NUMBERS))
    for number, offset, places, text in BY_HAND:
        same(sentence(number, offset, places), text)
        same(needed(number, offset, places), len(text))
        same(recovered(text), (number, offset, places))
        same(answered(b"\xa5" * (len(text) + 2), number, offset, places), (len(text), text.encode() + b"\xa5\xa5"))


@check
def sentences_in_lent_bytes(rng, rounds):
    """Nothing is written past the length, whatever stood there; too few bytes, none to one less than needed, are refused and say so by themselves."""
    for _ in range(rounds // 4):
        asked = said(rng)
        text = sentence(*asked).encode()
        for length in range(len(text)):
            same(refused(answered, rng.randbytes(length), *asked), (10, 0))
            same(sentence_faults(length, *asked), {10})
        for length in (len(text), len(text) + 1, rng.randint(len(text), MOST_LENT), MOST_LENT):
            lent = rng.randbytes(length)
            written, after = answered(lent, *asked)
            same((written, len(after), after[:written], after[written:]), (len(text), length, text, lent[written:]))
            same(sentence_faults(length, *asked), set())


@check
def sentences_refused(rng, rounds):
    """9 for a number outside 1 to 22 or more than seven places, before 10; any offset, any places."""
    numbers = (*OUTSIDE, 2 ** 32, 2 ** 32 + 11, LARGEST_64)
    for number, offset, count, length in product(numbers, (0, LARGEST_64), (0, 1, 7, 8, 16), (0, 1, 12, 300)):
        same(refused(answered, bytes(length), number, offset, [number] * count), (9, 0))
    for number, count, length in product(NUMBERS, (8, 9, 16), (0, 27, 28, 60, 300)):
        same(refused(answered, bytes(length), number, 0, list(range(count))), (9, 0))
        same(9 in sentence_faults(length, number, 0, list(range(count))), True)
    for number, count in product(NUMBERS, range(8)):
        places = [rng.choice((0, 8, MOST_SAID, LARGEST_64))] * count
        same([refused(answered, bytes(length), number, LARGEST_64, places) for length in (0, 20, 220)], [(10, 0), (10, 0), None])
    same([sorted(sentence_faults(*asked)) for asked in ((0, 0, 0, []), (13, 0, 0, []), (14, 0, 0, []), (28, 13, 0, []), (27, 13, 0, []), (0, 13, 0, [0] * 8))],
         [[9, 10], [9, 10], [9], [], [10], [9, 10]])


def of_64_bits(rng, asked):
    """The same with numbers of 64 bits among offset and places."""
    number, offset, places = asked
    offset, *places = (rng.getrandbits(rng.randint(33, 64)) if rng.random() < 0.3 else word for word in (offset, *places))
    return number, offset, places


@check
def sentences_recovered(rng, rounds):
    """Every sentence gives back what it was made of; a text with a character changed, left out or put in is none, or that of something else."""
    for number in NUMBERS:
        for count in (*range(8), *[None] * (rounds // 10)):
            asked = of_64_bits(rng, said(rng, number, count))
            text = sentence(*asked)
            same(recovered(text), asked)
            for _ in range(4):
                i, other = rng.randrange(len(text) + 1), rng.choice(("", *" 0129axr,-\n"))
                changed = text[:i] + other + text[i + rng.randrange(2):]
                back = recovered(changed)
                assert changed == text or back is None or back != asked and sentence(*back) == changed, (text, changed)
    for text in ("", "refused", "refused 11 at 0", "refused 11 at 0 ", "refused 11 at 0  source place empty", "refused 11 at 0 source place empty ",
                 "refused 11 at 0 source place  empty", "refused 12 at 0 source place empty", "refused 11 at 0 source place empty 06", "refused 11 at 0 6",
                 "refused 11 at 00 source place empty", "refused 011 at 0 source place empty", "refused 0 at 0 no such place", "refused 23 at 0 no such place",
                 "refused 11 at 0 source place empty 1,2", "refused 11 at 0 source place empty" + " 1" * 8, " refused 11 at 0 source place empty",
                 "refused 11 at 0 source place empty\n", "Refused 11 at 0 source place empty", "refused 11 at -1 source place empty"):
        same((text, recovered(text)), (text, None))


def decimals(text):
    """Every number that the text may begin with, and what is left then."""
    for end in range(1, len(text) + 1):
        if text[end - 1] not in "0123456789" or (end > 1 and text[0] == "0"):
            return
        yield int(text[:end]), text[end:]


def lists(text):
    """Every list of places that the whole text may be."""
    if not text:
        yield []
    elif text[0] == " ":
        yield from ([place, *others] for place, left in decimals(text[1:]) for others in lists(left))


def readings(text):
    """Every number, offset, reason's number and places whose parts put together give the text, whichever reason belongs to the number."""
    assert text.startswith("refused ")
    for number, left in decimals(text[8:]):
        for offset, more in decimals(left[4:]) if left.startswith(" at ") else ():
            for k, reason in REASONS.items():
                if more.startswith(" " + reason):
                    yield from ((number, offset, k, places) for places in lists(more[1 + len(reason):]))


@check
def sentences_apart(rng, rounds):
    """Two that differ in anything have different sentences, and a sentence has one reading, wherever it is cut."""
    words = (0, 1, 2, 11, 12, 21, 112)
    asked = [(number, offset, list(places)) for number, offset in product(NUMBERS, (*words, 10, 100, 121, LARGEST_64))
             for length in range(4 if number in (1, 11, 12) else 3) for places in product(words, repeat=length)]
    asked += [of_64_bits(rng, said(rng)) for _ in range(20 * rounds)]
    found = {}
    for one in asked:
        same(found.setdefault(sentence(*one), one), one)
    same(len(found), len({(number, offset, *places) for number, offset, places in asked}))
    for number, offset, places in rng.sample(asked, 5 * rounds):
        same(list(readings(sentence(number, offset, places))), [(number, offset, number, places)])


@check
def sentences_longest(rng, rounds):
    """Number 19 has the longest reason, 38 letters and spaces: 8 + 2 + 4 + 20 + 1 + 38 + 7 * 21 bytes for 64 bits, and for the console's numbers
    8 + 2 + 4 + 10 + 1 + 38 + 7 * 11. The shortest take 8 + 1 + 4 + 1 + 1 + 13, 8 + 2 + 4 + 1 + 1 + 12 and 8 + 1 + 4 + 1 + 1 + 15."""
    same(max((len(reason), number) for number, reason in REASONS.items()), (38, 19))
    for largest, wanted in ((LARGEST_64, 220), (MOST_SAID, 140)):
        same(max((len(sentence(number, largest, [largest] * 7)), number) for number in NUMBERS), (wanted, 19))
    same(sorted((len(sentence(number, 0, [])), number) for number in NUMBERS)[:3], [(28, 1), (28, 13), (30, 2)])
    for _ in range(rounds):
        asked = said(rng)
        assert 28 <= needed(*asked) <= 140 and needed(*of_64_bits(rng, asked)) <= 220, asked
        same(len(sentence(*asked)), needed(*asked))


@check
def sentences_drawn(rng, rounds):
    """Requests are right or wrong as they ought to be, and all cases are met sooner or later."""
    for draw in dict.fromkeys(DRAWS):
        same([len(draw(rng, count)) for count in range(MOST_LISTED + 2)], list(range(MOST_LISTED + 2)))
    for _ in range(2 * rounds):
        number, offset, places = said(rng)
        assert sayable(number, places), (number, places)
        same(parse(sentence_line(MOST_LENT, number, offset, places)), ("sentence", [MOST_LENT, number, offset, places]))
        number, offset, places = spoiled(rng)
        assert not sayable(number, places) and parse(sentence_line(0, number, offset, places)), (number, places)
        line = unread(rng)
        assert parse(line) is None and not doubtful(line), line
    maker, met = Stream(random.Random(rng.random()), Console().shelf), set()
    for _ in range(12000):
        for request in filter(None, map(parse, sentences(maker))):
            met.update(sentence_cases(*request[1]))
    same([case for case in every_sentence_case() if case not in met], [])


SHAPE = re.compile("sentence ([0-9]+) ([0-9]+) ([0-9]+)((?: [0-9]+){0,16})")


def passed_on(line):
    """The numbers of a line within the console's limits, as its description has them; None if it is a bad request."""
    found = SHAPE.fullmatch(line) if len(line) <= 4096 else None
    numbers = [int(word) for word in line.split(" ")[1:]] if found else []
    return numbers if found and numbers[0] <= 512 and max(numbers[1:]) <= 4294967295 else None


@check
def sentence_limits(rng, rounds):
    """Each limit met and passed, alone and together, and garbled lines: passed on or a bad request, and the answer has the lent bytes behind it."""
    ends = (0, 22, MOST_SAID, MOST_SAID + 1, LARGEST_64 + 1)
    lines = [sentence_line(*words, places) for *words, places in product((0, 1, 512, 513, LARGEST_64 + 39), ends, ends, ([], [MOST_SAID], [6, MOST_SAID + 1]))]
    lines += [sentence_line(length, 11, 0, [place] * count) for length, place, count in product((0, 38, 513), (6, MOST_SAID, MOST_SAID + 1), range(19))]
    lines += [sentence_line(rng.choice((0, 60, 512)), 11, rng.choice(TELLING), [*rng.choices(TELLING, k=16), last]) for last in TELLING]
    lines += [unread(rng) for _ in range(2 * rounds)] + [*ODD_LINES] + [garbled(rng) for _ in range(10 * rounds)]
    session = Console()
    for line in (line for line in lines if line.startswith("sentence") and not doubtful(line)):
        numbers, answer = passed_on(line), session.answer(line)
        same((line, answer == BAD_REQUEST), (line, numbers is None))
        if numbers is not None:
            same(parse(line), ("sentence", [*numbers[:3], numbers[3:]]))
            buffer = answer.split(" ")[-1].removeprefix("-")
            same((line, len(buffer)), (line, 2 * numbers[0]))


@check
def console_sentences(rng, rounds):
    """Lines and answers of `sentence` as the console's description gives them; places need not be known, and the shelf stays as it is."""
    session = Console()
    session.answer("build 6 1 3 7")
    before = list(session.shelf.places)
    talk = [("sentence 38 11 0 6", "wrote 36 72656675736564203131206174203020736f7572636520706c61636520656d7074792036a5a5"),
            ("sentence 36 11 0 6", "wrote 36 72656675736564203131206174203020736f7572636520706c61636520656d7074792036"),
            ("sentence 35 11 0 6", "refused 10 at 0 " + "a5" * 35), ("sentence 0 11 0 6", "refused 10 at 0 -"), ("sentence 1 11 0", "refused 10 at 0 a5"),
            ("sentence 28 13 0", "wrote 28 7265667573656420313320617420302073697a657320646966666572"), ("sentence 27 13 0", "refused 10 at 0 " + "a5" * 27),
            ("sentence 38 13 4294967295", "wrote 37 7265667573656420313320617420343239343936373239352073697a657320646966666572a5"),
            ("sentence 42 13 0 7 6 5 4 3 2 1", "wrote 42 7265667573656420313320617420302073697a6573206469666665722037203620352034203320322031"),
            ("sentence 41 13 0 7 6 5 4 3 2 1", "refused 10 at 0 " + "a5" * 41), ("sentence 2 13 0 7 6 5 4 3 2 1 0", "refused 9 at 0 a5a5"),
            ("sentence 512 13 0 7 6 5 4 3 2 1 0", "refused 9 at 0 " + "a5" * 512), ("sentence 4 13 0" + " 0" * 16, "refused 9 at 0 a5a5a5a5"),
            ("sentence 0 0 0", "refused 9 at 0 -"), ("sentence 2 0 0", "refused 9 at 0 a5a5"), ("sentence 2 23 4294967295", "refused 9 at 0 a5a5"),
            ("sentence 3 278 0 1", "refused 9 at 0 a5a5a5"), ("sentence 3 4294967295 0 1", "refused 9 at 0 a5a5a5"),
            ("sentence 4 13 0" + " 0" * 17, BAD_REQUEST), ("sentence", BAD_REQUEST), ("sentence 38 11", BAD_REQUEST), ("sentence 38 11 0 ", BAD_REQUEST),
            ("sentence 513 11 0", BAD_REQUEST), ("sentence 38 4294967296 0", BAD_REQUEST), ("sentence 38 11 4294967296", BAD_REQUEST),
            ("sentence 38 11 0 4294967296", BAD_REQUEST), ("sentence 38 11 0 -1", BAD_REQUEST), ("sentence 38 11 0 x", BAD_REQUEST),
            ("sentence 38 11  0", BAD_REQUEST), ("sentence 38 11 0  6", BAD_REQUEST), ("sentence -1 11 0", BAD_REQUEST)]
    for line, wanted in talk:
        same((line, session.answer(line)), (line, wanted))
    same(session.shelf.places, before)
    same([doubtful("sentence " + x) for x in ("38 11 00", "038 11 0", "38 011 0", "38 11 0 06", "+38 11 0", "-0 11 0")], [True] * 6)
    same([doubtful("sentence " + x) for x in ("38 11 +0", "38 -0 0", "38 11 4294967296", "38 11 0 -1", "513 11 0", "38", "0 0 0 0 10 100")], [False] * 7)
