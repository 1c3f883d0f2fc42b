"""Checks of the weights from time stamps, document 02, (a): factors worked by hand, the rounded rule said again with fractions, exact factors against
the matrix of powers, distances, what is refused and in which order, the lists drawn."""
from fractions import Fraction
from itertools import product

from check_random import neville
from checks import check, refused, same
from console_model import MOST_STAMP, Console, doubtful, parse
from exact import multiply_out, within
from model import Shelf
from number import HIGH, LOW, ONE, round_fraction, stored, value
from stamp_lists import DRAWS, build_line, each_fault, lone_faults, rising, spoiled, unread
from stamps import BUILT_BOUND, MOST_STAMPS, built, exact_built, powers, stamp_faults, stamps_good

TWO, THREE = (LOW, -30), (3 << 30, -30)

# Found by hand: stamps, and the factors row by row.
BY_HAND = (
    # An empty product is 1, whatever the stamp.
    ((1,), (ONE,)),
    ((4294967295,), (ONE,)),
    # s(1) above, the difference last: 2^32 - 2, and 1.
    ((1, 4294967295), (ONE, ONE, ONE, (4294967294, 0))),
    ((4294967294, 4294967295), (ONE, (4294967294, 0), ONE, ONE)),
    # b(2,2) = 3 - 1 = 2, b(3,2) = (7 - 3) / (3 - 1) = 2, b(3,3) = (7 - 1) * (7 - 3) = 24 = 3 * 2^30 / 2^27.
    ((1, 3, 7), (ONE, ONE, ONE, ONE, TWO, THREE, ONE, TWO, (3 << 30, -27))),
    # Differences 5; 12, 7; 15, 10, 3. Diagonal 1, 5, 84, 450. b(3,2) = 7/5, 7 * 2^31 / 5 = 3006477107 + 1/5. b(4,2) = 3/7, 3 * 2^33 / 7 = 3681400539 + 3/7.
    # b(4,3) = 10 * 3 / (12 * 7) = 5/14, 5 * 2^33 / 14 = 3067833782 + 6/7.
    ((4294967280, 4294967285, 4294967292, 4294967295),
     (ONE, (4294967280, 0), (4294967280, 0), (4294967280, 0),
      ONE, (5 << 29, -29), (4294967285, 0), (4294967285, 0),
      ONE, (3006477107, -31), (84 << 25, -25), (4294967292, 0),
      ONE, (3681400539, -33), (3067833783, -33), (450 << 23, -23))),
    # b(3,3) = (2^31 - 1) * (2^31 - 2) = (2^32 - 6) * 2^30 + 2. b(4,4): (2^32 - 2) * (2^32 - 3) = (2^32 - 5) * 2^32 + 6, and (2^32 - 5) * (2^31 - 1) =
    # (2^32 - 7) * 2^31 + 5. b(3,2) = 2^31 - 2. b(4,2) = (2^31 - 1) / (2^31 - 2), times 2^31 it is 2^31 + 1 + 2 / (2^31 - 2).
    # b(4,3): (2^32 - 3) * (2^31 - 1) = (2^32 - 5) * 2^31 + 3 over the above (2^32 - 6) * 2^30; times 2^30 it is 2^31 + 1/2 + 3 / (2^32 - 6).
    ((1, 2, 2147483648, 4294967295),
     (ONE, ONE, ONE, ONE, ONE, ONE, TWO, TWO, ONE, (4294967292, -1), (4294967290, 30), (2147483648, 0),
      ONE, (2147483649, -31), (2147483649, -30), (4294967289, 63))),
    # Products halfway: 6700417 * 641 = 2^32 + 1 = (2^31 + 1/2) * 2, and 613566757 * 7 = 2^32 + 3 = (2^31 + 1 + 1/2) * 2.
    # Below, 641 * 2^45 = 3366259186 * 6699776 + 4798976, and 7 * 2^58 = 3288334371 * 613566750 + 134217958.
    ((1, 6699777, 6700418), (ONE, ONE, ONE, ONE, (6699776 << 9, -9), (6699777 << 9, -9), ONE, (3366259187, -45), (2147483648, 1))),
    ((1, 613566751, 613566758), (ONE, ONE, ONE, ONE, (613566750 << 2, -2), (613566751 << 2, -2), ONE, (3288334371, -58), (2147483650, 1))),
    # b(4,4) in ascending order: 6700417 * 641 is rounded to 2^32, then times 3. In descending order it would be 3 * 2^32 + 3 = (3 * 2^30 + 3/4) * 4.
    # b(3,3) = 6700414 * 638 = 4274864132. b(3,2): 638 * 2^45 = 3350504463 * 6699776 + 3574528. b(4,2): 3 * 2^39 = 2585058685 * 638 + 634.
    # b(4,3): 641 * 3 = 1923, and 1923 * 2^53 = 4051788228 * 4274864132 + 529889520.
    ((1, 6699777, 6700415, 6700418),
     (ONE, ONE, ONE, ONE, ONE, (6699776 << 9, -9), (6699777 << 9, -9), (6699777 << 9, -9),
      ONE, (3350504464, -45), (4274864132, 0), (6700415 << 9, -9), ONE, (2585058686, -39), (4051788228, -53), (3 << 30, 2))),
    # Differences 3842690; 10542466, 6699776; 10543104, 6700414, 638; 10543107, 6700417, 641, 3. b(3,3) = 2155522481 * 2^15 + 30208.
    # b(4,4): 10543104 * 6700414 = 2155858204 * 2^15 + 2^14 is halfway, and 2155858204 * 638 = 2686401433 * 2^9 + 456.
    # b(5,5): 10543107 * 6700417 = 2155859783 * 2^15 + 6275, times 641 it is 2699035392 * 2^9 + 199, times 3 it is 4048553088 * 2.
    # b(3,2): 6699776 * 2^31 = 3744163438 * 3842690 + 3694628. b(4,3): 4274864132 * 2^31 = 4258921397 * 2155522482 + 587366182.
    # b(5,4): above the line 3 * 2^32 as before, below it b(4,4), and 3 * 2^30 * 2^31 = 2575016875 * 2686401434 + 2066883106.
    ((1, 3842691, 10542467, 10543105, 10543108),
     (ONE, ONE, ONE, ONE, ONE, ONE, (3842690 << 10, -10), (3842691 << 10, -10), (3842691 << 10, -10), (3842691 << 10, -10),
      ONE, (3744163439, -31), (2155522482, 15), (10542467 << 8, -8), (10542467 << 8, -8),
      ONE, (3350504464, -45), (4258921397, -46), (2686401434, 24), (10543105 << 8, -8),
      ONE, (2585058686, -39), (4051788228, -53), (2575016876, -53), (4048553088, 25))),
    # Equally spaced: ones below, on the diagonal 1, 1, 2, 6, 24.
    ((1, 2, 3, 4, 5),
     (ONE, ONE, ONE, ONE, ONE, ONE, ONE, TWO, TWO, TWO, ONE, ONE, TWO, THREE, THREE, ONE, ONE, ONE, (3 << 30, -29), (LOW, -29),
      ONE, ONE, ONE, ONE, (3 << 30, -27))),
)


def slow_product(wholes):
    """A running product of whole numbers, rounded as fractions are."""
    result = Fraction(1)
    for whole in wholes:
        result = value(round_fraction(result * whole))
    return result


def slow_built(stamps):
    """The rounded rule once more: rows and columns from 0, the stamps of a product as a slice of the list."""
    def factor(i, j):
        if i < j:
            return Fraction(stamps[i])
        if i == j:
            return slow_product(stamps[i] - stamp for stamp in stamps[:i])
        above, below = stamps[i - j:i], stamps[i - j - 1:i - 1]
        return slow_product(stamps[i] - stamp for stamp in above) / slow_product(stamps[i - 1] - stamp for stamp in below)

    return tuple(round_fraction(factor(i, j)) for i, j in product(range(len(stamps)), repeat=2))


def roundings(i, j):
    """How often a factor is rounded: the first product is exact, and so is a quotient by 1. Rows and columns from 1."""
    return max(i - 2, 0) if i == j else max(2 * j - 3, 0) if i > j else 0


def each_draw(rng):
    """Lists of each number of stamps, drawn in each way."""
    yield from (draw(rng, count) for draw in dict.fromkeys(DRAWS) for count in range(1, MOST_STAMPS + 1))


@check
def built_by_hand(rng, rounds):
    """The rows, by both writings; exact factors, powers, and the diagonal of equally spaced stamps."""
    for stamps, wanted in BY_HAND:
        same(built(stamps), (len(stamps), wanted))
        same(slow_built(stamps), wanted)
    same([str(x) for x in exact_built((1, 3, 7))], ["1", "1", "1", "1", "2", "3", "1", "2", "24"])
    same([str(x) for x in exact_built((1, 6, 13, 16))[9:16:2]], ["7/5", "13", "3/7", "450"])
    same(powers((1, 3, 7)), [[1, 1, 1], [1, 3, 9], [1, 7, 49]])
    same([value(x) for x in built(range(1, 9)).factors[::9]], [1, 1, 2, 6, 24, 120, 720, 5040])


@check
def built_factors(rng, rounds):
    """Integers against fractions; every factor is stored, and lies within 11 of the exact one, even within the roundings that it took."""
    same(max(roundings(i, j) for i in range(1, 9) for j in range(1, 9)), BUILT_BOUND)
    for stamps in [*each_draw(rng), *(rising(rng) for _ in range(rounds))]:
        n, factors = built(stamps)
        same((stamps, factors), (stamps, slow_built(stamps)))
        assert all(map(stored, factors)), stamps
        for k, (found, exact) in enumerate(zip(factors, exact_built(stamps))):
            assert within(found, exact, BUILT_BOUND) and within(found, exact, roundings(1 + k // n, 1 + k % n)), (stamps, k)


@check
def built_exponents(rng, rounds):
    """How far exponents go: a product of seven differences is below 2^224; below the diagonal a factor is at least (s(i) - s(i-1)) / (s(i-1) - s(i-j)),
    because s(i) - s(k) exceeds s(i-1) - s(k), and that is above 2^-32."""
    lists = [1, *range(HIGH - 7, HIGH)], [1, 2, 3, 4, 5, 6, 7, HIGH - 1], [1, 2, 3, 4, *range(HIGH - 4, HIGH)]
    exponents = [e for stamps in lists for _, e in built(stamps).factors]
    same((min(exponents), max(exponents)), (-63, 192))


@check
def built_powers(rng, rounds):
    """The exact factors are positive, multiply out to the powers, and elimination finds no others."""
    lists = [stamps for stamps in each_draw(rng) if len(stamps) % 3 != 1] + [rising(rng) for _ in range(rounds // 10)]
    for stamps in lists:
        exact = exact_built(stamps)
        assert all(x > 0 for x in exact), stamps
        same(multiply_out(len(stamps), exact), powers(stamps))
        same(neville(powers(stamps)), exact)


WRONG = (
    (), (0,), (4294967296,), (9223372036854775808,), (18446744073709551615,), (0, 1), (1, 0), (1, 1), (2, 1), (1, 4294967296), (4294967296, 1),
    (1, 4294967299, 7), (4294967297, 4294967299), (1, 2, 2, 3), (1, 3, 2, 4), (1, 2, 3, 4, 5, 6, 7, 7), (1, 2, 3, 4, 5, 6, 8, 7), (2, 1, 3, 4, 5, 6, 7, 8),
    (0, 1, 2, 3, 4, 5, 6, 7), (1, 2, 3, 4, 5, 6, 7, 8, 9), (0,) * 9, tuple(range(1, 17)),
)


@check
def stamps_refused(rng, rounds):
    """15 comes after 12, and 12 after 1; the place stays as it was."""
    shelf = Shelf()
    same(shelf.build(0, [1, 3, 7]), 11)
    before = list(shelf.places)
    for stamps in WRONG:
        same((stamps, [refused(shelf.build, place, list(stamps)) for place in (8, 2 ** 32 - 1, 0, 7)]), (stamps, [(1, 0), (1, 0), (12, 0), (15, 0)]))
    same([refused(shelf.build, place, [1, 3, 7]) for place in (8, 0)], [(1, 0), (12, 0)])
    same(shelf.places, before)
    same([shelf.build(place, stamps) for place, stamps in ((1, [1]), (7, [HIGH - 1]), (2, [HIGH - 2, HIGH - 1]), (3, list(range(1, 9))))], [11] * 4)


@check
def stamps_judged(rng, rounds):
    """Both writings of what is refused agree, for all short lists of telling stamps too; lists drawn are right or wrong as they ought to be."""
    for length in range(4):
        for stamps in product((0, 1, 2, HIGH - 1, HIGH, HIGH + 1, MOST_STAMP), repeat=length):
            same((stamps, stamps_good(stamps)), (stamps, not stamp_faults(stamps)))
    for stamps in each_draw(rng):
        assert stamps_good(stamps) and not stamp_faults(stamps), stamps
    for _ in range(rounds):
        count = rng.randint(9, 16)
        same(stamp_faults(rising(rng, count)), [f"{count} stamps"])
        stamps = spoiled(rng)
        assert not stamps_good(stamps) and stamp_faults(stamps) and parse(build_line(0, stamps)), stamps
        line = build_line(0, unread(rng))
        assert parse(line) is None and not doubtful(line), line
    lists = list(each_fault(rng))
    assert not any(map(stamps_good, lists))
    assert set(lone_faults()) <= {faults[0] for faults in map(stamp_faults, lists) if len(faults) == 1}


@check
def console_builds(rng, rounds):
    """Lines and answers of `build` as the console's description gives them."""
    session = Console()
    talk = [("build 3 1 3 7", "bound 11"), ("show 3", "matrix 3 2147483648 -31 2147483648 -31 2147483648 -31 2147483648 -31 2147483648 -30 3221225472 -30 "
                                                      "2147483648 -31 2147483648 -30 3221225472 -27"),
            ("build 3 1 3 7", "refused 12 at 0"), ("build 3", "refused 12 at 0"), ("build 3 0", "refused 12 at 0"), ("build 8", "refused 1 at 0"),
            ("build 4294967295 1", "refused 1 at 0"), ("build 8 18446744073709551615", "refused 1 at 0"), ("build 0", "refused 15 at 0"),
            ("build 0 18446744073709551615", "refused 15 at 0"), ("build 0 1 3 3", "refused 15 at 0"), ("build 0 1 2 3 4 5 6 7 8 9", "refused 15 at 0"),
            ("build 0 4294967297", "refused 15 at 0"), ("show 0", "empty"), ("build 0 4294967295", "bound 11"), ("show 0", "matrix 1 2147483648 -31"),
            # The determinant 2 * 24, and 1 - x^2 at the stamps.
            ("minor 3 7 7", "number 3221225472 -26"),
            ("carry 3 3 1,2147483648,-31 0,0,0 -1,2147483648,-31", "carried 0,0,0 -1,2147483648,-28 -1,3221225472,-26"),
            ("write 0 4", "wrote 4 01ca0700"), ("build", "bad request"), ("build 1 ", "bad request"), ("build 1 18446744073709551616", "bad request"),
            ("build 1 -1", "bad request"), ("build 1 -0", "bad request"), ("build 1 +1", "bad request"), ("build 1  1", "bad request"),
            ("build x 1", "bad request"), ("build 1 1,3", "bad request"), ("build 1 x", "bad request"), ("build -1 1", "bad request"), ("show 1", "empty")]
    for line, wanted in talk:
        same((line, session.answer(line)), (line, wanted))
    same([parse("build 0" + " 1" * k) is None for k in (0, 16, 17)], [False, False, True])
    same([doubtful("build 1 " + x) for x in ("01", "1 03", "0", "10", "-0", "+1", "-1", "18446744073709551616", "x")], [True, True] + [False] * 7)
    same([doubtful(x) for x in ("build 01 1", "build 4294967296 1", "build +1 1", "build 1")], [True, True, True, False])
