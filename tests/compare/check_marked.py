"""Checks of the model against what the papers print: P1 to P12, the program shown, bounds, byte faults, the console's lines; rests and quotients by hand."""
from fractions import Fraction

import words
from checks import check, refused, same
from console_model import Console, doubtful, parse
from encoding import encode, read_matrix, read_single
from exact import exact_run
from model import WORKED, Shelf, shown
from number import DIRECTIONS, HIGH, ITEM_ZERO, LOW, ONE, add, divide, multiply, round_fraction, rounded_quotient, value, whole_quotient
from sources import unit_items
from words import POSITION, Matrix, Walker, bound, carry, count, minor, operate, reversals


def number(x):
    """The number of a fraction that a number stands for."""
    found = round_fraction(Fraction(x))
    assert value(found) == x
    return found


def ones(n):
    return Matrix(n, (ONE,) * (n * n))


def single(m, e):
    return Matrix(1, ((m, e),))


@check
def marked_numbers(rng, rounds):
    """P1 to P4."""
    same(add(ONE, number(Fraction(1, 2 ** 32))), ONE)
    same(add((LOW + 1, -31), number(Fraction(1, 2 ** 32)))[0], 2147483650)
    same(add((HIGH - 1, 0), number(Fraction(1, 2))), (LOW, 1))
    same(multiply((HIGH - 1, 0), (HIGH - 1, 0)), (4294967294, 32))


@check
def marked_operations(rng, rounds):
    """P5 to P10."""
    same(shown(encode(ones(2)), encode(ones(2))),
         "2\n1 1 2147483648 -30\n1 2 3221225472 -31\n2 1 3221225472 -31\n2 2 2147483648 -32\n")
    half, two = number(Fraction(1, 2)), number(2)
    same(operate("inverse", [ones(2)]), Matrix(2, (two, half, half, half)))
    same(operate("converse", [ones(2)]), Matrix(2, (two, half, half, half)))
    same(operate("submatrix", [ones(3)], 0b110, 0b011), Matrix(2, (ONE, two, ONE, ONE)))
    same(minor(ones(3), 0b101, 0b101), number(5))
    same(operate("inverse", [single(*number(3))]), single(2863311531, -33))
    # The word reversed for the converse would give the source back.
    turned = words.converse_word(ones(2))[::-1]
    same(words.factors_by(Walker(turned, 2).minor, words.ROUNDED, [1, 2], [1, 2]), ones(2).factors)


@check
def marked_calls(rng, rounds):
    """P11, P12 and the answers shown in full."""
    shelf = Shelf()
    shelf.load(0, encode(single(LOW, 1000)))
    shelf.load(1, encode(single(*ONE)))
    shelf.load(2, encode(single(*number(2))))
    same(shelf.product(0, 1, 3), (11, 0))
    shelf.load(5, encode(ones(3)))
    same(shelf.submatrix(5, 0b110, 0b011, 6), (63, 42))
    same(refused(shelf.product, 0, 2, 4), (14, 0))
    same(refused(shelf.one_source, "inverse", 0, 4), (14, 0))
    same(carry(ones(2), [(1,) + ONE, (-1,) + ONE]), [ITEM_ZERO, (-1,) + ONE])
    same([shown(b"", b""), shown(encode(ones(2)), encode(ones(3)))], ["refused 2 at 0\n", "refused 13 at 0\n"])
    same([str(x) for x in exact_run("product", [ones(2), ones(2)])], ["2", "3/2", "3/2", "1/2"])


@check
def standstills(rng, rounds):
    """Document 02, (b): zeros are passed over."""
    cases = [((1, 0, -1), 1), ((1, -1), 1), ((1, 0, 1), 0), ((0, 0), 0), ((0,), 0), ((-1,), 0), ((0, -1), 0), ((-1, 0), 0), ((1, -1, 1), 2),
             ((0, 1, 0, 0, -1, 0, 1), 2), ((-1, 0, 0, 0, 0, 0, 0, 1), 1), ((1, -1, 1, -1, 1, -1, 1, -1), 7)]
    same([reversals(unit_items(signs)) for signs, _ in cases], [wanted for _, wanted in cases])
    same(refused(Shelf.reversals, unit_items((1, -1)) + [(0, 0, 1)]), (9, 0))
    points = [(1,) + number(5), ITEM_ZERO, (-1,) + number(3), (1,) + ONE]
    same(carry(ones(4), points), [(1,) + number(3), ITEM_ZERO, (-1,) + number(3), (-1,) + number(5)])
    same([reversals(points), reversals(carry(ones(4), points))], [2, 1])


# Result and rest, found by hand: call, mantissa and exponent of both items, of the result, and the rest with its exponent.
BY_HAND = (
    # P1 to P4 and P10: a tie down, a tie up, a tie that carries, a product of odd numbers, a third.
    ("add", 2147483648, -31, 2147483648, -63, 2147483648, -31, 1, -32),
    ("add", 2147483649, -31, 2147483648, -63, 2147483650, -31, -1, -32),
    ("add", 4294967295, 0, 2147483648, -32, 2147483648, 1, -1, -1),
    ("multiply", 4294967295, 0, 4294967295, 0, 4294967294, 32, 1, 0),
    ("divide", 2147483648, -31, 3221225472, -30, 2863311531, -33, -1, -33),
    # Sums: exact, exact at 2^32, ties of one digit (down, up), a carry past the tie.
    ("add", 2147483648, 0, 2147483648, 0, 2147483648, 1, 0, 0),
    ("add", 4294967295, 0, 2147483648, -31, 2147483648, 1, 0, 0),
    ("add", 2147483649, 0, 2147483648, 0, 2147483648, 1, 1, 0),
    ("add", 2147483650, 0, 2147483649, 0, 2147483650, 1, -1, 0),
    ("add", 4294967295, 0, 3221225472, -32, 2147483648, 1, -1, -2),
    # 32 apart: above half a last place; 33 apart: below it, whatever the mantissas; far apart, either first.
    ("add", 2147483648, 0, 2147483649, -32, 2147483649, 0, -2147483647, -32),
    ("add", 2147483649, -32, 2147483648, 0, 2147483649, 0, -2147483647, -32),
    ("add", 2147483648, 0, 4294967295, -32, 2147483649, 0, -1, -32),
    ("add", 2147483648, 0, 4294967295, -33, 2147483648, 0, 4294967295, -33),
    ("add", 4294967295, -33, 4294967295, 0, 4294967295, 0, 4294967295, -33),
    ("add", 4294967295, 0, 4294967294, -34, 4294967295, 0, 2147483647, -33),
    ("add", 2147483648, 1000, 3221225472, -1000, 2147483648, 1000, 3, -970),
    ("add", 2147483648, -1000, 2147483648, 1000, 2147483648, 1000, 1, -969),
    ("add", 4294967295, 1000, 4294967294, 1000, 4294967294, 1001, 1, 1000),
    # Products: exact, down, up, ties (up, down, up), a carry, one at a tie, beyond the stored exponents.
    ("multiply", 3221225472, -30, 3221225472, -30, 2415919104, -28, 0, 0),
    ("multiply", 2147483649, 0, 2147483649, 0, 2147483650, 31, 1, 0),
    ("multiply", 3221225473, 0, 2147483649, 0, 3221225475, 31, -1073741823, 0),
    ("multiply", 2147483649, 0, 3221225472, 0, 3221225474, 31, -1, 30),
    ("multiply", 2147483651, 0, 3221225472, 0, 3221225476, 31, 1, 30),
    ("multiply", 2147483653, 0, 3221225472, 0, 3221225480, 31, -1, 30),
    ("multiply", 2147483649, 0, 4294967294, 0, 2147483648, 32, -1, 1),
    ("multiply", 3758096384, 0, 2454267026, 0, 2147483648, 32, -1, 30),
    ("multiply", 2147483648, 1000, 2147483648, 1000, 2147483648, 2031, 0, 0),
    ("multiply", 4294967295, -1000, 4294967295, -1000, 4294967294, -1968, 1, -2000),
    # Quotients: equal mantissas, the largest, a third, the least over the largest, next to one, beyond the stored exponents.
    ("divide", 3221225473, 5, 3221225473, 5, 2147483648, -31, 0, 0),
    ("divide", 4294967295, 0, 2147483648, 0, 4294967295, -31, 0, 0),
    ("divide", 3221225472, -31, 2415919104, -29, 2863311531, -33, -3, -34),
    ("divide", 2147483648, 0, 4294967295, 0, 2147483649, -32, -2147483647, -32),
    ("divide", 4294967294, 0, 4294967295, 0, 4294967295, -32, -1, -32),
    ("divide", 2147483648, -1000, 3221225472, 1000, 2863311531, -2032, -1, -1002),
    ("divide", 4294967295, 1000, 2147483649, -1000, 4294967293, 1969, 3, 969),
)


@check
def rests_by_hand(rng, rounds):
    """Document 02, (c): results and rests, and what is refused."""
    for kind, m, e, n, f, *wanted in BY_HAND:
        same(sum(Shelf.work(kind, [(1, m, e), (1, n, f)]), ()), tuple(wanted))
    one, bad = (1,) + ONE, (ITEM_ZERO, (-1,) + ONE, (2,) + ONE, (0,) + ONE, (1, LOW - 1, 0), (1, HIGH, 0), (1, LOW, 1001), (1, LOW, -1001), (1, 0, 0))
    for kind in WORKED:
        for items in [[], [one], [one] * 3, *([item, one] for item in bad), *([one, item] for item in bad)]:
            same(refused(Shelf.work, kind, items), (9, 0))


# Found by hand: mantissas of dividend and divisor, the shift, the whole quotient and its remainder; rounded to nearest, down and up.
QUOTIENTS_BY_HAND = (
    # Equal mantissas: the least, the largest, another.
    (2147483648, 2147483648, 31, 2147483648, 0, 2147483648, 2147483648, 2147483648),
    (4294967295, 4294967295, 31, 2147483648, 0, 2147483648, 2147483648, 2147483648),
    (3221225473, 3221225473, 31, 2147483648, 0, 2147483648, 2147483648, 2147483648),
    # The largest over the least, with nothing left over: up must not give 2^32. The least over the largest.
    (4294967295, 2147483648, 31, 4294967295, 0, 4294967295, 4294967295, 4294967295),
    (2147483648, 4294967295, 32, 2147483648, 2147483648, 2147483649, 2147483648, 2147483649),
    # One apart at both ends of the range: the least and the largest whole quotients that leave something over, and one that leaves nothing.
    (4294967295, 4294967294, 31, 2147483648, 2147483648, 2147483649, 2147483648, 2147483649),
    (4294967294, 4294967295, 32, 4294967294, 4294967294, 4294967295, 4294967294, 4294967295),
    (2147483648, 2147483649, 32, 4294967294, 2, 4294967294, 4294967294, 4294967295),
    (2147483649, 2147483648, 31, 2147483649, 0, 2147483649, 2147483649, 2147483649),
    # One apart, just above half and just below it.
    (2863311530, 2863311531, 32, 4294967294, 1431655766, 4294967295, 4294967294, 4294967295),
    (2863311529, 2863311530, 32, 4294967294, 1431655764, 4294967294, 4294967294, 4294967295),
    # The largest over the least but one, the least over the largest but one, and the third of P10.
    (4294967295, 2147483649, 31, 4294967293, 3, 4294967293, 4294967293, 4294967294),
    (2147483648, 4294967294, 32, 2147483649, 2, 2147483649, 2147483649, 2147483650),
    (2147483648, 3221225472, 32, 2863311530, 2147483648, 2863311531, 2863311530, 2863311531),
)


@check
def quotients_by_hand(rng, rounds):
    """Document 02, (d): shift, whole quotient and its roundings, all from 2^31 to 2^32 - 1, and the number that `divide` gives."""
    for m, n, shift, whole, left, *rounded in QUOTIENTS_BY_HAND:
        for e, f in ((0, 0), (-31, -30), (-1000, 1000), (1000, -1000)):
            same(whole_quotient((m, e), (n, f)), (whole, left, e - f - shift))
            same([rounded_quotient(whole, left, n, direction) for direction in DIRECTIONS], rounded)
            assert all(LOW <= x < HIGH for x in (whole, *rounded))
            same(divide((m, e), (n, f)), (rounded[0], e - f - shift))
    # No quotient lies halfway, so the rounding alone is given ties, and what lies next to them.
    for q, left, divisor, *rounded in ((7, 1, 2, 8, 7, 8), (8, 1, 2, 8, 8, 9), (7, 2, 5, 7, 7, 8), (8, 3, 5, 9, 8, 9), (7, 0, 5, 7, 7, 7)):
        same([rounded_quotient(q, left, divisor, direction) for direction in DIRECTIONS], rounded)


@check
def tables(rng, rounds):
    """The bounds as printed, the positions of the masks, the byte of one."""
    same([bound("product", n) for n in range(1, 9)], [11, 51, 123, 227, 363, 531, 731, 963])
    same([bound("inverse", n) for n in range(1, 9)], [7, 27, 63, 115, 183, 267, 367, 483])
    for size in range(9):
        masks = [mask for mask in range(256) if count(mask) == size]
        same([POSITION[mask] for mask in masks], list(range(len(masks))))
    same(encode(ones(2)).hex(), "02" + 4 * "ca0700")
    same(len(encode(Matrix(8, ((HIGH - 1, 1000),) * 64))), 449)


def four_minors(i, j):
    """The row and column sets of a new factor of document 01, two of them on the diagonal."""
    if i == j:
        return [(words.interval(1, k), words.interval(1, k)) for k in (i, i - 1)]
    i, j = max(i, j), min(i, j)
    return sum(words.quotient(i, j, words.interval(i - j + 1, i - 1), words.interval(i - j, i - 2)), [])


@check
def updates_counted(rng, rounds):
    """The set updates of a product with minors worked one by one, as the readings count them."""
    for n, wanted in enumerate([0, 24, 240, 1344, 5760, 21120, 69888, 215040], 1):
        total = 0
        for i in range(1, n + 1):
            for j in range(1, n + 1):
                for rows, _ in four_minors(i, j):
                    letters = [(kind, k) for kind in ("E", "Et") for k in range(2, n + 1) for _ in range(k - 1)]
                    total += 2 * sum(len(words.updates(n, count(rows), *letter)) for letter in letters)
        same(total, wanted)


@check
def byte_faults(rng, rounds):
    """The readings of 2 to 7, case by case."""
    cases = [("", 2, 0), ("80", 2, 1), ("80808080", 2, 4), ("8080808080", 3, 0), ("ffffffff1f", 3, 0), ("8000", 3, 0),
             ("ac02", 4, 0), ("00", 4, 0), ("09", 4, 0), ("ffffffff0f", 4, 0), ("01", 2, 1), ("0100", 6, 1), ("01d20f", 5, 1),
             ("01d10f", 2, 3), ("01ca", 2, 2), ("01ca87", 2, 3), ("01ca8700", 3, 1), ("01ca07", 2, 3),
             ("01ca078080808008", 5, 3), ("01ca078080808010", 3, 3), ("01ca07ffffffff07", None, None),
             ("01ca0700", None, None), ("01ca070080", 7, 4), ("01ca0780", 2, 4), ("01ca078000", 3, 3), ("018000", 3, 1)]
    for text, *wanted in cases:
        same(refused(read_single, bytes.fromhex(text)), None if wanted[0] is None else tuple(wanted))
    same(read_matrix(bytes.fromhex("01ca0700ff"))[1], 4)


@check
def console(rng, rounds):
    """Lines and answers of the console as its description gives them."""
    session = Console()
    talk = [("load 0 02ca0700ca0700ca0700ca0700", "loaded"), ("product 0 0 1", "bound 51 steps 24"),
            ("show 1", "matrix 2 2147483648 -30 3221225472 -31 3221225472 -31 2147483648 -32"), ("show 8", "refused 1 at 0"),
            ("show 7", "empty"), ("write 0 15", "wrote 13 02ca0700ca0700ca0700ca0700a5a5"), ("write 0 2", "refused 10 at 0 a5a5"),
            ("write 0 0", "refused 10 at 0 -"), ("carry 0 3 1,2147483648,-31 -1,2147483648,-31",
                                                "carried 0,0,0 -1,2147483648,-31 1,2147483648,0"),
            ("carry 0 0", "refused 9 at 0 -"), ("reversals", "refused 9 at 0"), ("reversals 1,2147483648,0 -1,2147483648,0",
                                                                              "reversals 1"),
            ("rest 01ca0700ff", "rest ff"), ("rest 01ca0700", "rest -"), ("rest -", "rest -"), ("rest 01ca", "rest 01ca"),
            ("minor 0 1 1", "number 2147483648 -31"), ("minor 0 0 0", "refused 8 at 0"), ("drop 4294967295", "refused 1 at 0"),
            ("transpose 0 2", "bound 0 steps 0"), ("drop 2", "dropped"), ("submatrix 0 3 3 2", "bound 27 steps 12"), ("", "bad request"),
            ("load 0", "bad request"), ("load 0 0", "bad request"), ("show  0", "bad request"), ("drop -1", "bad request"),
            ("minor 0 256 1", "bad request"), ("write 0 513", "bad request"), ("reversals 0,0", "bad request"),
            ("reversals 1,-5,0", "refused 9 at 0"), ("reversals -9223372036854775808,9223372036854775807,0", "refused 9 at 0"),
            ("carry 0 1 1,9223372036854775807,0", "refused 9 at 0 1,2147483648,0"), ("reversals 1,9223372036854775808,0", "bad request"),
            ("reversals 1,2147483648,-9223372036854775809", "bad request"),
            ("divide 1,2147483648,-31 1,3221225472,-30", "number 2863311531 -33 rest -1 -33"),
            ("add 1,2147483648,-31 1,2147483648,-31", "number 2147483648 -30 rest 0 0"),
            ("multiply 1,2147483648,1000 1,2147483648,1000", "number 2147483648 2031 rest 0 0"),
            ("multiply 0,0,0 1,2147483648,0", "refused 9 at 0"), ("divide 1,2147483648,0 -1,2147483648,0", "refused 9 at 0"), ("add", "bad request"),
            ("add 1,2147483648,0", "bad request"), ("add 0,0,0 0,0,0 0,0,0", "bad request"), ("divide 1 3", "bad request"),
            ("divide 1,2147483648,0 1,2147483648,9223372036854775808", "bad request")]
    for line, wanted in talk:
        same(session.answer(line), wanted)
    same([parse("rest " + "00" * k) is None for k in (2045, 2046)], [False, True])
    same([parse("reversals" + " 0,0,0" * k) is None for k in (16, 17)], [False, True])
    same([doubtful(x) for x in ("show 00", "show 0", "reversals 1,2147483648,-0", "rest 00", "show 4294967296", "show -1")],
         [True, False, True, False, True, False])
    same([doubtful("add 1,2147483648,0 " + x) for x in ("1,2147483648,-0", "01,2147483648,0", "+1,2147483648,0", "1,2147483648,10", "4294967296,1,0", "x")],
         [True, True, True, False, False, False])
