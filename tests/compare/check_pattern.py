"""Checks of the pattern of zeros, document 02, (e): which factors are accepted, where 16 is answered and in which order with other faults, bytes of zero,
bundles, the order of 17, and the console's lines."""
from itertools import product
from math import factorial

from banded import banded, breakable, broken, sets_of
from banded_cases import place_at
from banded_sweeps import PRECEDENCE, mild, spelled
from checks import check, refused, same
from console_model import Console
from encoding import encode, group, read_matrix, read_single, rest
from model import Shelf
from number import LOW, ONE, ZERO
from patterns import breaks, every_shape, kept, masked, places, shape_of
from words import Matrix, minor, transpose

# Found by hand: a line of PRECEDENCE and its refusal; None where it is taken. n takes a byte, zero one, one three bytes.
JUDGED = {
    "111 011 111": (16, 17), "101 111 111": (16, 5), "111 011 m11": (16, 17), "10M 111 111": (16, 5),
    "111 111 011": None, "110 111 111": None, "100 111 111": None, "111 011 011": None, "100 010 001": None, "100 011 011": None, "110 010 001": None,
    "111 111 101": None, "111 110 111": None, "100 110 111": None,
    "111 011 v": (5, 17), "10v": (5, 5), "111 011 l": (5, 17), "10s": (3, 5), "111 011 s": (3, 17), "10z": (3, 5), "111 011 c": (2, 18), "10c": (2, 6),
    "111 011 .": (2, 17), "10.": (2, 5), "111 011 u": (16, 17), "10u": (16, 5), "111 011 b": (16, 17), "10b": (16, 5), "111 011 h": (16, 17), "10h": (16, 5),
    "111 001 111": (6, 11), "101 101 111": (16, 5), "011 011 111": (6, 1), "101 111 110": (16, 5), "111 011 110": (16, 17), "101 011 111": (16, 5),
    "100 000 000": (6, 7),
    "100 010 001 0": (7, 16), "101 111 111 1": (16, 5), "111 011 0.": (2, 18), "100 01.": (2, 10), "1z": (3, 4), "111 z": (3, 10),
    "1111 0111 0111 1111": (16, 33), "1001 1111 1111 1111": (16, 6), "1111 0111 1111 0111": (16, 23), "1111 1111 1011 1111": (16, 38),
    "1111 1101 1111 1111": (16, 20), "1011 0111 1111 1111": (16, 5),
    "1000 1100 1110 1111": None, "1111 0111 0011 0001": None, "1000 1100 1010 0001": None, "1110 1111 1111 0111": None,
}


@check
def patterns_judged(rng, rounds):
    """The rows, alone and as the first matrix of a bundle: 16 is treated as 2 to 6 there."""
    same(list(JUDGED), list(PRECEDENCE))
    for text, wanted in JUDGED.items():
        data = spelled(text)
        same((text, refused(read_single, data)), (text, wanted))
        if wanted and wanted[0] != 7:
            same((text, rest(data)), (text, data))
        elif wanted is None:
            same((text, [rest(data + more) for more in (b"", b"\x00", data)]), (text, [b"", b"\x00", data]))
    same(rest(spelled("100 010 001 0")), b"\x00")


@check
def patterns_counted(rng, rounds):
    """The patterns are all that is accepted, n! squared of them; transposed and read backwards they are patterns again."""
    for n in (1, 2, 3, 4):
        shapes = every_shape(n)
        same((len(shapes), len(set(shapes))), (factorial(n) ** 2,) * 2)
        for nonzero in shapes:
            source = masked(Matrix(n, (ONE,) * (n * n)), nonzero)
            same([kept(n, source.factors), breaks(n, nonzero), shape_of(source)], [True, [], nonzero])
            assert shape_of(transpose(source)) in shapes
    for n in (1, 2, 3):
        accepted = [flags for flags in product((False, True), repeat=n * n) if kept(n, [ONE if there else ZERO for there in flags])]
        same(set(accepted), set(every_shape(n)))


@check
def patterns_read(rng, rounds):
    """All choices of zeros among nine factors: the first fault in the order of the bytes, 6 on the diagonal, 16 elsewhere, at the factor's first byte."""
    for flags in product((False, True), repeat=9):
        source = masked(mild(rng, 3), flags)
        data, listed = encode(source), list(places(3))
        wrong = sorted([(place, 6) for place, there in zip(listed, flags) if place[0] == place[1] and not there] + [(place, 16) for place in breaks(3, flags)])
        if not wrong:
            same([read_single(data), rest(data + b"\x01")], [source, b"\x01"])
            continue
        place, number = wrong[0]
        before = Matrix(3, source.factors[:listed.index(place)])
        same(refused(read_single, data), (number, len(encode(before))))
        same(rest(data), data)


@check
def breaks_read(rng, rounds):
    """Every place that can break the pattern, of up to eight rows: 16 there, with the bytes cut behind its code too; 5 and 3 in its stead come first."""
    for n in range(3, 9):
        for i, j in breakable(n):
            source = broken(rng, banded(rng, n), i, j)
            data = encode(source)
            number, offset = refused(read_single, data)
            same((number, place_at(data, offset)), (16, (i, j)))
            code = group(source.factors[(i - 1) * n + j - 1][1] + 1001)
            same(data[offset:offset + len(code)], code)
            same(refused(read_single, data[:offset + len(code)]), (16, offset))
            same(refused(read_single, data[:offset]), (2, offset))
            same(refused(read_single, data[:offset] + b"\x81"), (2, offset + 1))
            same(refused(read_single, data[:offset] + group(2002)), (5, offset))
            same(refused(read_single, data[:offset] + b"\x81\x00"), (3, offset))
            same(refused(read_single, data[:offset] + code + b"\x80\x00"), (16, offset))
            same([rest(data), rest(data + data)], [data, data + data])


@check
def zero_bytes(rng, rounds):
    """Zero takes one byte, 00; what is written reads back, and a write needs just so many bytes."""
    same(encode(Matrix(2, (ONE, ZERO, ZERO, ONE))).hex(), "02ca07000000ca0700")
    same(read_single(bytes.fromhex("02ca07000000ca0700")), Matrix(2, (ONE, ZERO, ZERO, ONE)))
    for _ in range(rounds // 4):
        source = banded(rng, rng.randint(1, 8))
        data = encode(source)
        same(read_matrix(data + b"\x00"), (source, len(data)))
        full = encode(Matrix(source.n, tuple(x if x[0] else (LOW, -1000) for x in source.factors)))
        same(len(full) - len(data), source.factors.count(ZERO))
        shelf = Shelf()
        shelf.load(3, data)
        same([shelf.write(3, len(data)), refused(shelf.write, 3, len(data) - 1), shelf.places[3]], [data, (10, 0), source])


@check
def singular_refused(rng, rounds):
    """17 comes after 1, 11, 12 and 8, and a singular choice is never worked; the shelf stays as it was. A zero minor is answered."""
    shelf = Shelf()
    shelf.load(0, encode(Matrix(2, (ONE, ZERO, ZERO, ONE))))
    before = list(shelf.places)
    same([refused(shelf.submatrix, place, 1, 2, target) for place, target in ((0, 1), (0, 0), (0, 8), (8, 1), (5, 1))],
         [(17, 0), (12, 0), (1, 0), (1, 0), (11, 0)])
    same([refused(shelf.submatrix, 0, *sets, 1) for sets in ((2, 1), (1, 3), (0, 0), (4, 1), (5, 2))], [(17, 0), (8, 0), (8, 0), (8, 0), (8, 0)])
    same([shelf.minor(0, 1, 2), shelf.minor(0, 2, 1), shelf.places == before], [ZERO, ZERO, True])
    for _ in range(rounds // 4):
        source = banded(rng, rng.randint(2, 6))
        rows, columns = sets_of(rng, source, True)
        shelf.places[2] = source
        if minor(source, rows, columns) == ZERO:
            same([refused(shelf.submatrix, 2, rows, columns, 3), shelf.minor(2, rows, columns)], [(17, 0), ZERO])


@check
def banded_console(rng, rounds):
    """Lines and answers about banded places."""
    session = Console()
    talk = [("load 0 03ca07000000ca0700ca07000000ca0700ca0700", "loaded"),
            ("show 0", "matrix 3 2147483648 -31 0 0 0 0 2147483648 -31 2147483648 -31 0 0 0 0 2147483648 -31 2147483648 -31"),
            ("write 0 21", "wrote 20 03ca07000000ca0700ca07000000ca0700ca0700a5"), ("write 0 19", "refused 10 at 0 " + "a5" * 19),
            ("minor 0 4 1", "number 0 0"), ("minor 0 1 4", "number 0 0"), ("minor 0 4 2", "number 2147483648 -31"), ("minor 0 7 7", "number 2147483648 -31"),
            ("submatrix 0 4 1 1", "refused 17 at 0"), ("submatrix 0 3 6 0", "refused 12 at 0"), ("submatrix 0 3 1 1", "refused 8 at 0"),
            ("product 0 0 1", "bound 123 steps 240"),
            ("show 1", "matrix 3 2147483648 -31 0 0 0 0 2147483648 -30 2147483648 -31 0 0 2147483648 -32 3221225472 -31 2147483648 -31"),
            ("inverse 0 2", "bound 63 steps 120"),
            ("show 2", "matrix 3 2147483648 -31 0 0 0 0 2147483648 -31 2147483648 -31 0 0 2147483648 -31 0 0 2147483648 -31"),
            ("converse 0 3", "bound 63 steps 120"),
            ("show 3", "matrix 3 2147483648 -31 2147483648 -31 0 0 0 0 2147483648 -31 2147483648 -31 0 0 0 0 2147483648 -31"),
            ("transpose 0 4", "bound 0 steps 0"), ("write 4 20", "wrote 20 03ca0700ca07000000ca0700ca07000000ca0700"),
            ("carry 0 3 1,2147483648,-31 0,0,0 0,0,0", "carried 1,2147483648,-31 1,2147483648,-31 0,0,0"),
            ("carry 4 3 0,0,0 0,0,0 -1,2147483648,-31", "carried 0,0,0 -1,2147483648,-31 -1,2147483648,-31"),
            ("load 5 03ca07000000ca0700ca070000ca0700ca0700", "refused 2 at 19"), ("load 5 0200", "refused 6 at 1"),
            ("load 5 03ca070000ca07", "refused 16 at 5"), ("rest 03ca070000ca0700ff", "rest 03ca070000ca0700ff"), ("rest 02ca07000000ca0700ff", "rest ff"),
            ("load 0 03ca070000ca07", "refused 12 at 0"), ("load 8 03ca070000ca07", "refused 1 at 0"), ("show 5", "empty")]
    for line, wanted in talk:
        same((line, session.answer(line)), (line, wanted))
    text = "refused 16 at 5 zero breaks the pattern 5"
    same(session.answer("sentence 60 16 5 5"), f"wrote {len(text)} " + text.encode().hex() + "a5" * (60 - len(text)))
