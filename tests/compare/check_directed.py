"""Checks of the arithmetic told which way to round, document 02, (g): rows worked by hand, random pairs against fractions, and wrong versions caught."""
import operator
from fractions import Fraction

from checks import check, same
from exact import within
from number import DIRECTIONS, FAR, HIGH, LOW, WORK, ZERO, add, neighbours, odd_form, round_fraction, slow_add, slow_divide, slow_multiply, value
from pairs import pair

EXACT = {"add": operator.add, "multiply": operator.mul, "divide": operator.truediv}
SLOW = {"add": slow_add, "multiply": slow_multiply, "divide": slow_divide}

# Found by hand: call, both numbers, and the result to nearest, down and up.
BY_HAND = (
    # 2^31 + 2^31 = 2^31 * 2, and 2^32 - 1 + 2^31 / 2^31 = 2^32 = 2^31 * 2: numbers, and up takes no more.
    ("add", (LOW, 0), (LOW, 0), (LOW, 1), (LOW, 1), (LOW, 1)),
    ("add", (HIGH - 1, 0), (LOW, -31), (LOW, 1), (LOW, 1), (LOW, 1)),
    # P1 and P2: 2^31 + 1/2, a tie, and 2^31 is even; 2^31 + 1 + 1/2, and 2^31 + 1 is odd.
    ("add", (LOW, -31), (LOW, -63), (LOW, -31), (LOW, -31), (LOW + 1, -31)),
    ("add", (LOW + 1, -31), (LOW, -63), (LOW + 2, -31), (LOW + 1, -31), (LOW + 2, -31)),
    # P3: 2^32 - 1 + 1/2, where nearest is 2^32 too. With 2^31 / 2^33 = 1/4, and with 2^31 / 2^71 = 2^-40, only up is.
    ("add", (HIGH - 1, 0), (LOW, -32), (LOW, 1), (HIGH - 1, 0), (LOW, 1)),
    ("add", (HIGH - 1, 0), (LOW, -33), (HIGH - 1, 0), (HIGH - 1, 0), (LOW, 1)),
    ("add", (LOW, -71), (HIGH - 1, 0), (HIGH - 1, 0), (HIGH - 1, 0), (LOW, 1)),
    # (2^31 + 1) + 2^31 = (2^31 + 1/2) * 2. (2^32 - 1) + (2^32 - 2) = 2^33 - 3 = (2^32 - 2 + 1/2) * 2.
    ("add", (LOW + 1, 0), (LOW, 0), (LOW, 1), (LOW, 1), (LOW + 1, 1)),
    ("add", (HIGH - 1, 0), (HIGH - 2, 0), (HIGH - 2, 1), (HIGH - 2, 1), (HIGH - 1, 1)),
    # 31 apart: 2^31 + (2^31 + 1) / 2^31 = 2^31 + 1 + 2^-31. 32: 2^31 + (2^32 - 1) / 2^32 = 2^31 + 1 - 2^-32. 33: 2^31 + 1/2 - 2^-33.
    ("add", (LOW, 0), (LOW + 1, -31), (LOW + 1, 0), (LOW + 1, 0), (LOW + 2, 0)),
    ("add", (LOW, 0), (HIGH - 1, -32), (LOW + 1, 0), (LOW, 0), (LOW + 1, 0)),
    ("add", (HIGH - 1, -33), (LOW, 0), (LOW, 0), (LOW, 0), (LOW + 1, 0)),
    # 2000 apart: something less than any last place. Zero is nothing.
    ("add", (LOW, 1000), (HIGH - 1, -1000), (LOW, 1000), (LOW, 1000), (LOW + 1, 1000)),
    ("add", (LOW, -1000), (HIGH - 1, 1000), (HIGH - 1, 1000), (HIGH - 1, 1000), (LOW, 1001)),
    ("add", ZERO, (HIGH - 1, 7), (HIGH - 1, 7), (HIGH - 1, 7), (HIGH - 1, 7)),
    ("add", (LOW + 1, 7), ZERO, (LOW + 1, 7), (LOW + 1, 7), (LOW + 1, 7)),
    ("add", ZERO, ZERO, ZERO, ZERO, ZERO),
    # 3 * 2^30 * 3 * 2^30 = 9 * 2^60 = 9 * 2^28 * 2^32.
    ("multiply", (3 << 30, 0), (3 << 30, 0), (9 << 28, 32), (9 << 28, 32), (9 << 28, 32)),
    # P4: (2^32 - 1)^2 = 2^64 - 2^33 + 1 = (2^32 - 2) * 2^32 + 1. (2^31 + 1)^2 = 2^62 + 2^32 + 1 = (2^31 + 2) * 2^31 + 1.
    ("multiply", (HIGH - 1, 0), (HIGH - 1, 0), (HIGH - 2, 32), (HIGH - 2, 32), (HIGH - 1, 32)),
    ("multiply", (LOW + 1, 0), (LOW + 1, 0), (LOW + 2, 31), (LOW + 2, 31), (LOW + 3, 31)),
    # (2^31 + 1) * 3 * 2^30 = (3 * 2^30 + 1 + 1/2) * 2^31, a tie at an odd one; 2^31 + 3 gives 3 * 2^30 + 4 + 1/2, at an even one.
    ("multiply", (LOW + 1, 0), (3 << 30, 0), ((3 << 30) + 2, 31), ((3 << 30) + 1, 31), ((3 << 30) + 2, 31)),
    ("multiply", (LOW + 3, 0), (3 << 30, 0), ((3 << 30) + 4, 31), ((3 << 30) + 4, 31), ((3 << 30) + 5, 31)),
    # (2^31 + 1) * (2^32 - 2) = 2^63 - 2 = (2^32 - 2^-30) * 2^31. (2^17 - 1) * 2^15 * (2^17 + 1) * 2^14 = (2^34 - 1) * 2^29 = (2^32 - 1/4) * 2^31.
    ("multiply", (LOW + 1, 0), (HIGH - 2, 0), (LOW, 32), (HIGH - 1, 31), (LOW, 32)),
    ("multiply", (0x1FFFF << 15, 0), (0x20001 << 14, 0), (LOW, 32), (HIGH - 1, 31), (LOW, 32)),
    # (2^31 + 30000) * (2^32 - 60000) = 2^63 - 2 * 30000^2, and 1800000000 is 2^30 + 726258176: more than half of 2^31, less than all of it.
    ("multiply", (LOW + 30000, -5), (HIGH - 60000, 9), (HIGH - 1, 35), (HIGH - 1, 35), (LOW, 36)),
    ("multiply", (LOW + 1, 5), ZERO, ZERO, ZERO, ZERO),
    ("multiply", ZERO, (LOW + 1, 5), ZERO, ZERO, ZERO),
    # P10: 2^63 / (3 * 2^30) = 2^33 / 3 = 2863311530 + 2/3. 5 * 2^61 / (3 * 2^30) = 5 * 2^31 / 3 = 3579139413 + 1/3.
    ("divide", (LOW, -31), (3 << 30, -30), (2863311531, -33), (2863311530, -33), (2863311531, -33)),
    ("divide", (5 << 29, 0), (3 << 30, 0), (3579139413, -32), (3579139413, -32), (3579139414, -32)),
    # Equal mantissas, and the largest over the least: (2^32 - 1) * 2^31 / 2^31. Nothing is left over.
    ("divide", (LOW + 5, 3), (LOW + 5, 1), (LOW, -29), (LOW, -29), (LOW, -29)),
    ("divide", (HIGH - 1, 0), (LOW, 0), (HIGH - 1, -31), (HIGH - 1, -31), (HIGH - 1, -31)),
    # 2^63 = (2^32 - 2) * (2^31 + 1) + 2. 2^63 = 2^31 * (2^32 - 1) + 2^31. 2^32 * (2^32 - 2) = (2^32 - 2) * (2^32 - 1) + 2^32 - 2.
    ("divide", (LOW, 0), (LOW + 1, 0), (HIGH - 2, -32), (HIGH - 2, -32), (HIGH - 1, -32)),
    ("divide", (LOW, 0), (HIGH - 1, 0), (LOW + 1, -32), (LOW, -32), (LOW + 1, -32)),
    ("divide", (HIGH - 2, 0), (HIGH - 1, 0), (HIGH - 1, -32), (HIGH - 2, -32), (HIGH - 1, -32)),
    ("divide", ZERO, (LOW + 1, 5), ZERO, ZERO, ZERO),
)


@check
def directed_by_hand(rng, rounds):
    """The rows, by integers and by fractions; nearest if no direction is given; and a million places apart."""
    for kind, a, b, *wanted in BY_HAND:
        for work in (WORK[kind], SLOW[kind]):
            same([work(a, b, direction) for direction in DIRECTIONS], wanted)
            same(work(a, b), wanted[0])
    for gap in (1000000, 4194176):
        same([add((LOW, gap), (LOW, 0), direction) for direction in DIRECTIONS], [(LOW, gap), (LOW, gap), (LOW + 1, gap)])
        same([add((LOW, 0), (HIGH - 1, gap), direction) for direction in DIRECTIONS], [(HIGH - 1, gap), (HIGH - 1, gap), (LOW, gap + 1)])


def is_number(x):
    """Whether a positive fraction is a number, by its digits."""
    return x.denominator & x.denominator - 1 == 0 and odd_form(x)[0] < HIGH


def faults(x, nearest, down, up):
    """What three roundings of a positive fraction do not keep."""
    before, after = neighbours(up)[0], neighbours(down)[1]
    facts = {
        "numbers": all(LOW <= m < HIGH for m, _ in (nearest, down, up)),
        "side": value(down) <= x <= value(up),
        "none between": value(before) < x < value(after),
        "error": within(nearest, x, 1) and within(down, x, 2) and within(up, x, 2),
        "neighbours": up == (down if is_number(x) else after),
        "nearer, even at a tie": nearest == min((down, up), key=lambda y: (abs(value(y) - x), y[0] % 2)),
    }
    return {name for name, kept in facts.items() if not kept}


@check
def directions(rng, rounds):
    """Integers against fractions in each direction, and what is promised of the three: side, error, neighbours. Each direction differs from nearest."""
    for kind in WORK:
        found = set()
        for _ in range(5 * rounds):
            a, b = (item[1:] for item in pair(rng, kind))
            three = [WORK[kind](a, b, direction) for direction in DIRECTIONS]
            same(three, [SLOW[kind](a, b, direction) for direction in DIRECTIONS])
            same((kind, a, b, faults(EXACT[kind](value(a), value(b)), *three)), (kind, a, b, set()))
            found.add((three[1] == three[0], three[2] == three[0]))
        same(found, {(True, True), (True, False), (False, True)})


@check
def rounded_fractions(rng, rounds):
    """Any fraction, rounded in each direction: the same promises."""
    for _ in range(rounds):
        x = Fraction(rng.getrandbits(80) + 1, rng.getrandbits(rng.choice((1, 20, 60))) + 1)
        same((x, faults(x, *(round_fraction(x, direction) for direction in DIRECTIONS))), (x, set()))
    same([round_fraction(Fraction(0), direction) for direction in DIRECTIONS], [ZERO] * 3)


def plus_one(kind, a, b, direction):
    """Up as down plus one, also where down is exact."""
    return neighbours(WORK[kind](a, b, "down"))[1] if direction == "up" else WORK[kind](a, b, direction)


def cut(kind, a, b, direction):
    """Nearest by cutting digits off."""
    return WORK[kind](a, b, "down" if direction == "nearest" else direction)


def cut_nearest(kind, a, b, direction):
    """Down as one less than nearest, which is cut once more."""
    return neighbours(WORK[kind](a, b))[0] if direction == "down" else WORK[kind](a, b, direction)


def absorbed(kind, a, b, direction):
    """A far sum as its larger operand, upwards too."""
    far = kind == "add" and abs(a[1] - b[1]) > FAR
    return (a if a[1] > b[1] else b) if far else WORK[kind](a, b, direction)


def uncarried(kind, a, b, direction):
    """2^32 left as a mantissa when up reaches it."""
    m, e = WORK[kind](a, b, direction)
    return (HIGH, e - 1) if direction == "up" and m == LOW and WORK[kind](a, b, "down") != (m, e) else (m, e)


# Each wrong version, a call that it is wrong for, and promises that it does not keep.
WRONG = (
    *((plus_one, kind, {"none between", "neighbours"}) for kind in WORK),
    *((cut, kind, {"error", "nearer, even at a tie"}) for kind in WORK),
    *((cut_nearest, kind, {"none between", "neighbours"}) for kind in WORK),
    (absorbed, "add", {"side", "neighbours"}),
    (uncarried, "add", {"numbers", "neighbours"}),
    (uncarried, "multiply", {"numbers", "neighbours"}),
)


@check
def wrong_directions(rng, rounds):
    """Wrong versions are caught, by the rows and by the promises."""
    for version, kind, wanted in WRONG:
        rows = [row for row in BY_HAND if row[0] == kind and ZERO not in row]
        assert any([version(kind, a, b, direction) for direction in DIRECTIONS] != three for _, a, b, *three in rows), (version, kind)
        found = set()
        for _ in range(5 * rounds):
            a, b = (item[1:] for item in pair(rng, kind))
            found |= faults(EXACT[kind](value(a), value(b)), *(version(kind, a, b, direction) for direction in DIRECTIONS))
        assert wanted <= found, (version, kind, found)
