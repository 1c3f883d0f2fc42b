"""Random matter for requests: numbers, matrices, lists of items, encodings with faults, row sets.

matrix: one of the kinds in KINDS. aimed: sources whose result lies at the edge of the stored exponents. listed: items for a
carry, with zeros and cancellation. odd_item: an item that is refused. faulty: bytes of a matrix with one fault or two. masks:
good and bad sets.
"""
from fractions import Fraction

from encoding import encode, group
from number import HIGH, ITEM_ZERO, LOW, ONE, divide, round_fraction, signed_add, signed_multiply, stored
from words import Matrix, interval, operate, rows_of, word

EDGE = 1000
TOO_LARGE = 2 ** 63
NEVER_SHORTEST = ("80808080808080", "ffffffffff", "8080808080", "ffffffff1f", "8080808010", "ffffffff7f", "8080808000", "81808000")


def clamp(e):
    return max(-EDGE, min(EDGE, e))


def mantissa(rng):
    return rng.choice((rng.randrange(LOW, HIGH), rng.randrange(LOW, HIGH), LOW, LOW + rng.randrange(1, 9),
                       HIGH - rng.randrange(1, 9), LOW + (1 << rng.randrange(31))))


def spread_number(rng, spread):
    return (mantissa(rng), clamp(-31 + rng.randint(-spread, spread)))


def whole_number(rng, most):
    return round_fraction(Fraction(rng.randint(1, most)))


def near_edge(rng):
    return (mantissa(rng), rng.choice((-EDGE, EDGE, -EDGE + rng.randrange(40), EDGE - rng.randrange(40), -31)))


def filled(number):
    """A kind of matrix whose factors are drawn one by one."""
    return lambda rng, n: Matrix(n, tuple(number(rng) for _ in range(n * n)))


def graded(rng, n):
    """An ill-conditioned source: the diagonal falls or rises steeply, the sides stay near one."""
    step, start = rng.choice((-40, -12, -3, 5, 60)), rng.randint(-200, 200)
    return Matrix(n, tuple((mantissa(rng), clamp(start + step * i - 31) if i == j else rng.randint(-33, -30))
                           for i in range(n) for j in range(n)))


def steep(rng, n):
    """Factors large below the diagonal and as small above it, or the reverse: working exponents run far, results stay stored."""
    most = EDGE + 31
    side, middle = rng.choice((rng.randint(-EDGE, EDGE), -most, most)), rng.choice((0, 0, rng.randint(-EDGE, EDGE), most))

    def factor(i, j):
        return (mantissa(rng), clamp(-31 + (middle if i == j else side if i > j else -side) + rng.randint(-1, 1)))

    return Matrix(n, tuple(factor(i, j) for i in range(n) for j in range(n)))


def nearly_singular(rng, n):
    """One tiny factor among ordinary ones."""
    factors = [spread_number(rng, 1) for _ in range(n * n)]
    factors[rng.randrange(n * n)] = (mantissa(rng), -31 - rng.randint(30, 400))
    return Matrix(n, tuple(factors))


def far_apart(rng):
    """Exponents whose differences make one term of a sum reach just to the last bit of the other, or not quite."""
    return (mantissa(rng), -31 + rng.choice((0, 0, 16, -16, 31, 32, 33, -31, -32, -33)))


KINDS = (
    filled(lambda rng: (LOW, -31)), filled(lambda rng: (LOW, rng.randint(-34, -28))), filled(lambda rng: whole_number(rng, 9)),
    filled(lambda rng: whole_number(rng, 2 ** 40)), filled(lambda rng: spread_number(rng, 2)),
    filled(lambda rng: spread_number(rng, 2)), filled(lambda rng: (LOW + rng.randrange(4), rng.randint(-33, -30))),
    filled(lambda rng: spread_number(rng, 40)), filled(lambda rng: spread_number(rng, 400)), filled(near_edge),
    filled(lambda rng: spread_number(rng, EDGE)), filled(far_apart), graded, steep, nearly_singular,
)


def matrix(rng, n):
    return rng.choice(KINDS)(rng, n)


def shifted(source, diagonal, side):
    """The diagonal times 2^diagonal, the factors below it times 2^side and above it over 2^side; None if one is not stored."""
    n = source.n
    factors = []
    for k, (m, e) in enumerate(source.factors):
        i, j = divmod(k, n)
        factors.append((m, e + (diagonal if i == j else side if i > j else -side)))
    return Matrix(n, tuple(factors)) if all(map(stored, factors)) else None


def aimed(rng, kind, n, *given):
    """Sources of a small operation moved so that one new factor's exponent is about 1000 or -1000, on either side."""
    sources = [filled(lambda rng: spread_number(rng, 3))(rng, n) for _ in range(2 if kind == "product" else 1)]
    result = operate(kind, sources, *given)
    place = rng.randrange(len(result.factors))
    i, j = divmod(place, result.n)
    wanted = rng.choice((-EDGE - 1, -EDGE, EDGE, EDGE + 1)) - result.factors[place][1]
    if i == j:
        part = wanted if kind != "product" else wanted // 2
        moves = [(part if kind != "inverse" else -part, 0), (wanted - part, 0)]
    else:
        # A side factor of a submatrix moves by the distance between its two rows or columns.
        if kind == "submatrix":
            members = rows_of(given[i < j])
            wanted //= members[max(i, j)] - members[max(i, j) - 1]
        side = wanted if (i > j) != (kind == "converse") else -wanted
        moves = [(0, side), (0, side)]
    moved = [shifted(source, *move) for source, move in zip(sources, moves)]
    return sources if None in moved else moved


def listed(rng, source):
    """Items for a carry through a matrix."""
    n = source.n
    style = rng.choice((0, 1, 2, 3, 4, 4, 5, 6))
    if style == 0:
        return [(rng.choice((-1, 1)),) + whole_number(rng, 4) if rng.random() < 0.8 else ITEM_ZERO for _ in range(n)]
    if style == 1:
        return [(rng.choice((-1, 1)),) + spread_number(rng, rng.choice((2, 36, 300))) for _ in range(n)]
    if style == 2:
        return [rng.choice((ITEM_ZERO, (rng.choice((-1, 1)),) + near_edge(rng))) for _ in range(n)]
    if style == 3:
        return uncarried(rng, source)
    if style == 4:
        return far_neighbours(rng, source)
    if style == 5:
        signs = rng.choice(((1,), (-1,), (1, -1)))
        return [(signs[k % len(signs)],) + spread_number(rng, 3) for k in range(n)]
    return [ITEM_ZERO] * n if rng.random() < 0.2 else [random_item(rng) for _ in range(n)]


def negative(item):
    return (-item[0],) + item[1:]


def stored_or_zero(items):
    return [item if item[0] and stored(item[1:]) else ITEM_ZERO for item in items]


def uncarried(rng, source):
    """A list that the matrix carries nearly to zero but for a few items: the letters undone, left to right."""
    n = source.n
    items = [ITEM_ZERO] + [random_item(rng) if rng.random() < 0.5 else ITEM_ZERO for _ in range(n)]
    for kind, j, w in word(source):
        if kind == "D":
            items[1:] = [(x[0],) + divide(x[1:], d) if x[0] else x for x, d in zip(items[1:], j)]
        elif kind == "E":
            items[j] = signed_add(items[j], negative(signed_multiply(w, items[j - 1])))
        else:
            items[j - 1] = signed_add(items[j - 1], negative(signed_multiply(w, items[j])))
    return stored_or_zero(items[1:])


def far_neighbours(rng, source):
    """Items that the first letter adds to a neighbour of opposite sign: equal, nearly equal, or about 32 places apart."""
    n = source.n
    items = [random_item(rng) for _ in range(n)]
    if n > 1:
        items[n - 1] = (1,) + spread_number(rng, 3)
        sign, m, e = signed_multiply(source.factors[n - 1], items[n - 1])
        close = min(HIGH - 1, max(LOW, m + rng.choice((0, 0, rng.randint(-2, 2)))))
        # Just below a power of two the numbers lie twice as close.
        items[n - 2] = rng.choice(((-sign, close, e), (-sign, m, e + rng.choice((-1, 1))), (-sign, LOW, e + rng.randint(30, 36)),
                                   (-sign, LOW, e + 33), (-sign, mantissa(rng), e + rng.randint(-36, 36))))
    return stored_or_zero(items)


def random_item(rng):
    return ITEM_ZERO if rng.random() < 0.25 else (rng.choice((-1, 1)),) + spread_number(rng, rng.choice((1, 30, EDGE)))


def unit_items(signs):
    """A list of ones, minus ones and zeros."""
    return [(sign,) + ONE if sign else ITEM_ZERO for sign in signs]


def still_or_moving(rng):
    """An item of a list with standstills: zero as often as not."""
    return ITEM_ZERO if rng.random() < 0.5 else (rng.choice((-1, 1)),) + whole_number(rng, 4)


def bad_item(rng):
    """An item not of the stated form, in a form that the console passes on."""
    m, e = spread_number(rng, 20)
    limit = rng.choice((TOO_LARGE - 1, -TOO_LARGE))
    narrowed = ((257, m, e), (2 ** 32 - 1, m, e), (1, m + 2 ** 32, e), (-1, m - 2 ** 32, e), (1, m, e + 2 ** 16), (-1, m, e - 2 ** 32))
    return rng.choice(((2, m, e), (-2, m, e), (127, m, e), (-128, m, e), (0, m, e), (0, 0, e), (0, m, 0), (1, 0, 0), (-1, 0, e),
                       (1, LOW - 1, e), (1, rng.randrange(LOW), e), (-1, m, 1001), (1, m, -1001), (1, m, 32767), (-1, m, -32768),
                       (1, -m, e), (-1, -m, e), (1, -rng.randrange(1, LOW), e), (0, -m, 0),
                       (limit, m, e), (1, limit, e), (-1, m, limit)) + narrowed)


def beyond_item(rng):
    """An item with a number that the console does not pass on: the nearest such, or a good one when cut to 64 bits."""
    item = [rng.choice((-1, 1)), *spread_number(rng, 20)]
    place = rng.randrange(3)
    item[place] = rng.choice((TOO_LARGE, -TOO_LARGE - 1, item[place] + 2 * TOO_LARGE, item[place] - 2 * TOO_LARGE))
    return tuple(item)


def odd_item(rng):
    return bad_item(rng) if rng.random() < 0.8 else beyond_item(rng)


def tokens(source):
    """The group numbers of an encoding, one by one, each with what it is: n, an exponent code or a mantissa part."""
    parts = [("n", group(source.n))]
    for m, e in source.factors:
        parts += [("code", group(e + EDGE + 1)), ("part", group(m - LOW))] if m else [("code", group(0))]
    return parts


def padded(part):
    """The same number in more bytes than needed."""
    return part[:-1] + bytes([part[-1] | 128]) + b"\x00" if len(part) < 5 else bytes.fromhex("8080808000")


def spoiled_group(rng, what, part):
    """A group number with a fault of form or of value; `what` tells n, exponent codes and mantissa parts apart."""
    choice = rng.randrange(5)
    if choice == 0:
        return padded(part)
    if choice == 1:
        return bytes.fromhex(rng.choice(NEVER_SHORTEST))
    if what == "n":
        return group(rng.choice((0, 9, 10, 127, 128, 300, 2 ** 31, 2 ** 32 - 1)))
    if what == "code":
        return group(rng.choice((0, 0, 2002, 2003, 16384, 2 ** 31, 2 ** 32 - 1)))
    return group(rng.choice((2 ** 31, 2 ** 31 + 1, 2 ** 32 - 1)))


def faulty(rng, source):
    """Bytes of a matrix with a fault or two: in a group number, cut short, or with bytes behind."""
    parts = tokens(source)
    for _ in range(rng.choice((0, 1, 1, 1, 2))):
        index = rng.randrange(len(parts)) if rng.random() < 0.8 else 0
        parts[index] = (parts[index][0], spoiled_group(rng, *parts[index]))
    data = b"".join(part for _, part in parts)
    if rng.random() < 0.3:
        data = data[:rng.randrange(len(data) + 1)]
    if rng.random() < 0.3:
        data += rng.choice((b"\x00", b"\xff", bytes(rng.randrange(256) for _ in range(rng.randint(1, 9))), encode(source)))
    return data


def mask(rng, n, size):
    return sum(1 << k for k in rng.sample(range(n), size))


def good_masks(rng, n):
    style = rng.randrange(4)
    size = n if style == 0 else rng.randint(1, n)
    if style == 1:
        start = rng.randint(0, n - size)
        return [interval(start + 1, start + size), interval(1, size)][::rng.choice((1, -1))]
    return [mask(rng, n, size), mask(rng, n, size)]


def masks(rng, n):
    """Row and column sets, mostly good ones."""
    style = rng.randrange(12)
    if style > 4:
        return good_masks(rng, n)
    if style == 0:
        return [rng.randrange(256), rng.randrange(256)]
    if style == 1:
        return rng.choice(([0, 0], [0, 1], [1, 0], [0, 255]))
    if style == 2:
        return [mask(rng, n, rng.randint(1, n)), mask(rng, n, rng.randint(1, n))]
    rows, columns = good_masks(rng, n)
    beyond = 1 << rng.randint(min(n, 7), 7)
    moved = (rows & rows - 1) | beyond
    return [moved, columns] if style == 3 else [columns, moved]


def overflowing(rng, source):
    """Items that carry a matrix out of the stored exponents, if its diagonal allows."""
    up = max(e for m, e in source.factors if m) > -31
    return [(rng.choice((-1, 1)), mantissa(rng), EDGE if up else -EDGE) for _ in range(source.n)]
