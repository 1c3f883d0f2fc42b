"""Random cross-checks of the model: fast against slow arithmetic, rests, quotients, exact run against matrix arithmetic, bounds, bytes, refusals."""
from fractions import Fraction

import words
from banded import banded
from checks import check, refused, same
from conditions import conditions
from console_model import Console, call_words, parse
from encoding import Refusal, encode, group, read_group, read_single, rest
from exact import entries_of, exact_parts, exact_run, inverse, matrix_product, multiply_out, requested, units, within
from model import ORDER, WORKED
from number import (DIRECTIONS, HIGH, ITEM_ZERO, LOW, ONE, ZERO, add, divide, multiply, neighbours, odd_form, round_fraction, round_whole,
                    rounded_quotient, signed_add, slow_add, slow_divide, slow_multiply, slow_signed_add, value, whole_quotient, worked)
from pairs import pair
from requests import stream
from sources import mantissa
from words import Matrix, Walker, bound, carry, minor, operate, operation_word, plain_minor, reversals, rows_of, transpose


def random_number(rng, spread):
    m = rng.choice([rng.randrange(LOW, HIGH), LOW, HIGH - 1, LOW + 1, LOW + rng.randrange(8), HIGH - 1 - rng.randrange(8)])
    return (m, max(-1000, min(1000, rng.randint(-spread, spread) - 31)))


def random_matrix(rng, n, spread):
    return Matrix(n, tuple(random_number(rng, spread) for _ in range(n * n)))


def random_sets(rng, n):
    size = rng.randint(1, n)
    return [sum(1 << k for k in rng.sample(range(n), size)) for _ in range(2)]


def random_item(rng, spread):
    return rng.choice([ITEM_ZERO] + [(s,) + random_number(rng, spread) for s in (-1, 1, -1, 1)])


@check
def rounding(rng, rounds):
    """The fast arithmetic against fractions."""
    for _ in range(20 * rounds):
        a = random_number(rng, 40)
        b = random_number(rng, 40)
        if rng.random() < 0.5:
            b = (b[0], a[1] + rng.randint(-36, 36))
        same(add(a, b), slow_add(a, b))
        same(multiply(a, b), slow_multiply(a, b))
        same(divide(a, b), slow_divide(a, b))
        x, y = (rng.choice((-1, 1)),) + a, (rng.choice((-1, 1)),) + b
        same(signed_add(x, y), slow_signed_add(x, y))
        whole = rng.getrandbits(rng.randint(1, 90)) | 1
        same(round_whole(whole, 0), round_fraction(Fraction(whole)))
    for a in (ZERO, ONE):
        same([add(a, ZERO), add(ZERO, a), multiply(a, ZERO), multiply(ZERO, a), divide(ZERO, ONE)], [a, a, ZERO, ZERO, ZERO])
    quarter, half = (-1, LOW, -33), (-1, LOW, -32)
    same(signed_add((1, LOW, 0), quarter), (1, LOW, 0))
    same(signed_add((1, LOW, 0), half), (1, HIGH - 1, -1))


@check
def nearest(rng, rounds):
    """Rounding as a property: no 32-bit number is nearer, and at a tie the mantissa is even."""
    for _ in range(rounds):
        x = Fraction(rng.getrandbits(80) + 1, rng.getrandbits(rng.choice((1, 20, 60))) + 1)
        m, e = round_fraction(x)
        for other in neighbours((m, e)):
            near, far = abs(value((m, e)) - x), abs(value(other) - x)
            assert near < far or (near == far and m % 2 == 0)


@check
def rests(rng, rounds):
    """Document 02, (c): result and rest balance exactly; the rest is odd or none, below 2^32, and negative exactly when the result was rounded up."""
    slow = {"add": slow_add, "multiply": slow_multiply, "divide": slow_divide}
    for kind in WORKED * (5 * rounds):
        a, b = (item[1:] for item in pair(rng, kind))
        result, (odd, e) = worked(kind, a, b)
        same(result, slow[kind](a, b))
        x, y, r, rest = value(a), value(b), value(result), odd * Fraction(2) ** e
        exact = {"add": x + y, "multiply": x * y, "divide": x / y}[kind]
        same(r * y + rest if kind == "divide" else r + rest, x if kind == "divide" else exact)
        assert abs(odd) % 2 == 1 or (odd, e) == ZERO
        assert abs(odd) < HIGH
        same((odd < 0, odd == 0), (r > exact, r == exact))


def divided_mantissas(rng):
    """Dividend and divisor: any, equal, one apart, near the ends of the range, and with a remainder near none, half the divisor and the whole of it."""
    m, n = mantissa(rng), mantissa(rng)
    low, high = LOW + rng.randrange(4), HIGH - 1 - rng.randrange(4)
    yield from ((m, n), (m, m), (m, max(m - 1, LOW)), (m, min(m + 1, HIGH - 1)))
    yield from ((low, high), (high, low), (low, n), (high, n), (m, low), (m, high))
    n |= 1
    for left in (near + rng.randint(-2, 2) for near in (0, n // 2, n)):
        # The dividend less than the divisor, shifted by 32, and the one that is not, by 31.
        for m in (left * pow(2, -32, n) % n, left * pow(2, -31, n) % n + n):
            if LOW <= m < HIGH:
                yield m, n


@check
def quotients(rng, rounds):
    """Document 02, (d): the whole quotient keeps its range before rounding and after it, whichever way, and is no tie; number and rest stay the same."""
    for m, n in (drawn for _ in range(rounds) for drawn in divided_mantissas(rng)):
        a, b = (m, rng.randint(-1000, 1000)), (n, rng.randint(-1000, 1000))
        q, left, e = whole_quotient(a, b)
        nearest, down, up = (rounded_quotient(q, left, n, direction) for direction in DIRECTIONS)
        assert all(LOW <= x < HIGH for x in (q, nearest, down, up)) and 2 * left != n, (a, b)
        exact = value(a) / value(b)
        assert value((down, e)) <= exact <= value((up, e)), (a, b)
        same(up - down, int(value((down, e)) < exact))
        same((nearest, e), slow_divide(a, b))
        same(odd_form((left - (nearest - q) * n) * Fraction(2) ** (e + b[1])), worked("divide", a, b)[1])


@check
def one_shift(rng, rounds):
    """Document 02, (d): the range allows one shift alone: 31 leaves it when the dividend's mantissa is less, 32 when it is equal or more."""
    for m, n in (drawn for _ in range(rounds) for drawn in divided_mantissas(rng)):
        kept = [shift for shift in range(64) if LOW <= (m << shift) // n < HIGH]
        same(kept, [32 if m < n else 31])
        same(kept, [-whole_quotient((m, 0), (n, 0))[2]])


@check
def odd_forms(rng, rounds):
    """Among all pairs of an odd whole number and an exponent, and 0 with 0, one alone has a given value."""
    forms = [(odd, e) for odd in range(-63, 64, 2) for e in range(-6, 12)] + [ZERO]
    for whole in range(-63, 64):
        for x in (Fraction(whole), Fraction(whole, 8), Fraction(whole * 8)):
            same([form for form in forms if form[0] * Fraction(2) ** form[1] == x], [odd_form(x)])


@check
def walks(rng, rounds):
    """One walk for a column set gives the minors that document 01 works one by one."""
    for _ in range(rounds // 10):
        n = rng.choice([1, 2, 3, 3, 4, 4, 5])
        kind = rng.choice(["product", "inverse", "converse", "submatrix"])
        letters = operation_word(kind, [random_matrix(rng, n, 60) for _ in range(2)])
        rows, columns = random_sets(rng, n)
        same(Walker(letters, n).minor(rows, columns), plain_minor(letters, n, rows, columns))
        slow = words.Arithmetic(ZERO, ONE, slow_add, slow_multiply, slow_divide)
        if n < 4:
            same(plain_minor(letters, n, rows, columns, slow), plain_minor(letters, n, rows, columns))


@check
def exact_runs(rng, rounds):
    """The exact factors multiply out to the requested matrix, and the rounded ones lie within the bound of them."""
    for _ in range(rounds // 10):
        n = rng.choice([1, 2, 2, 3, 3, 4])
        sources = [random_matrix(rng, n, rng.choice([0, 3, 60])) for _ in range(2)]
        for kind in ("product", "inverse", "converse", "submatrix"):
            sets = random_sets(rng, n) if kind == "submatrix" else [None, None]
            rounded = operate(kind, sources, *sets)
            exact = exact_run(kind, sources, *sets)
            same(multiply_out(rounded.n, exact), requested(kind, sources, *sets))
            assert all(x > 0 for x in exact)
            assert all(within(x, y, bound(kind, n)) for x, y in zip(rounded.factors, exact))
            for x, y, parts in zip(rounded.factors, exact, exact_parts(kind, sources, *sets)):
                same(value(parts[0]) / value(parts[1]), y)
                k = abs(units(x, parts))
                assert within(x, y, int(k) + 1) and (k < 1 or not within(x, y, int(k - 1e-6)) or k % 1 < 1e-6)


def determinant(entries):
    """By expansion along the first row."""
    if not entries:
        return Fraction(1)
    return sum((-1) ** j * x * determinant([row[:j] + row[j + 1:] for row in entries[1:]]) for j, x in enumerate(entries[0]))


@check
def minors(rng, rounds):
    """Exact minors are the determinants of the entries, and the inverse is one."""
    for _ in range(rounds // 10):
        n = rng.randint(1, 4)
        source = random_matrix(rng, n, 5)
        entries = entries_of(source)
        rows, columns = random_sets(rng, n)
        chosen = [[entries[i - 1][j - 1] for j in rows_of(columns)] for i in rows_of(rows)]
        exact = determinant(chosen)
        assert within(minor(source, rows, columns), exact, 2 * n * n - n)
        same(matrix_product(entries, inverse(entries)), [[Fraction(i == j) for j in range(n)] for i in range(n)])
        flipped = [[entries[j][i] for j in range(n)] for i in range(n)]
        same(entries_of(transpose(source)), flipped)


@check
def carried(rng, rounds):
    """A carried list against fractions: without cancellation within the roundings made, and the exact carry for powers of two."""
    for _ in range(rounds // 5):
        n = rng.randint(1, 6)
        source = random_matrix(rng, n, 5)
        listed = [(1,) + random_number(rng, 5) for _ in range(n)]
        wanted = matrix_product(entries_of(source), [[value(x[1:])] for x in listed])
        for found, [exact] in zip(carry(source, listed), wanted):
            assert found[0] == 1 and within(found[1:], exact, 2 * n * n - n)
        powers = Matrix(n, tuple((LOW, rng.randint(-33, -29)) for _ in range(n * n)))
        signed = [(rng.choice((-1, 1)), LOW, rng.randint(-32, -30)) for _ in range(n)]
        wanted = matrix_product(entries_of(powers), [[x[0] * value(x[1:])] for x in signed])
        if n < 4:
            same([x[0] * value(x[1:]) for x in carry(powers, signed)], [exact for [exact] in wanted])


@check
def steady(rng, rounds):
    """Document 02, (b): a carried list has no more reversals than before, also where sums cancel or round to zero; the count said again without zeros."""
    for _ in range(2 * rounds):
        n = rng.randint(1, 8)
        source = random_matrix(rng, n, rng.choice((0, 3, 40)))
        spread = rng.choice((0, 3, 40))
        items = [random_item(rng, spread) for _ in range(n)]
        carried = carry(source, items)
        assert reversals(carried) <= reversals(items), (source, items)
        for listed in (items, carried):
            moving = [x[0] for x in listed if x[0]]
            same(reversals(listed), sum(x != y for x, y in zip(moving, moving[1:])))


@check
def bytes_back(rng, rounds):
    """What is written reads back, accepted bytes are the writer's, and every change of a byte is judged alike by both."""
    for _ in range(rounds // 5):
        matrix = rng.choice((random_matrix(rng, rng.randint(1, 4), rng.choice([5, 900])), banded(rng, rng.randint(2, 5))))
        data = encode(matrix)
        same(read_single(data), matrix)
        same(rest(data + b"abc"), b"abc")
        same(refused(read_single, data + b"\xff"), (7, len(data)))
        cut = rng.randrange(len(data))
        same(refused(read_single, data[:cut]), (2, cut))
        same(rest(data[:cut]), data[:cut])
        place = rng.randrange(len(data))
        changed = data[:place] + bytes([data[place] ^ 1 << rng.randrange(8)]) + data[place + 1:]
        try:
            same(encode(read_single(changed)), changed)
        except Refusal as fault:
            assert fault.number in (2, 3, 4, 5, 6, 7, 16)
        x = rng.getrandbits(rng.randint(1, 32))
        same(read_group(group(x), 0), (x, len(group(x))))


@check
def refusals(rng, rounds):
    """A call is refused exactly when a condition of the tables holds, with the first in the order of its tests."""
    session = Console()
    for _, line in zip(range(20 * rounds), stream(rng.random(), session.shelf)):
        request = parse(line)
        found = set()
        if request and request[0] in ORDER:
            call, words_given = request[0], call_words(*request)
            found = conditions(session.shelf, call, words_given)
        before = list(session.shelf.places)
        answer = session.answer(line)
        if answer.startswith("refused") and request[0] in ORDER:
            same(int(answer.split(" ")[1]), next(k for k in ORDER[call] if k in found))
            same(session.shelf.places, before)
        else:
            same(found, set())


@check
def eliminated(rng, rounds):
    """The exact factors are the only ones: elimination of neighbouring rows, then of columns, finds them again."""
    for _ in range(rounds // 10):
        n = rng.randint(1, 5)
        fractions = [Fraction(rng.randint(1, 30), rng.randint(1, 30)) for _ in range(n * n)]
        same(neville(multiply_out(n, fractions)), fractions)


def neville(entries):
    """Factors of a matrix by Neville's elimination, in fractions: rows from below, column by column, and the same for columns. What is zero already has the
    factor zero."""
    n = len(entries)
    factors = [[Fraction(0)] * n for _ in range(n)]
    for lower in (True, False):
        rows = [list(row) for row in entries] if lower else [list(row) for row in zip(*entries)]
        for j in range(n - 1):
            for i in range(n - 1, j, -1):
                quotient = rows[i][j] / rows[i - 1][j] if rows[i][j] else Fraction(0)
                rows[i] = [x - quotient * y for x, y in zip(rows[i], rows[i - 1])]
                factors[i if lower else j][j if lower else i] = quotient
        for i in range(n):
            factors[i][i] = rows[i][i]
    return sum(factors, [])
