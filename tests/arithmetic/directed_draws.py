"""Operands for directed.py: `drawn` gives the name of a kind, the codes of an operation and of three directions, and two operands as the library takes them.

An operand is (m, x), of value m * 2^(x - BIAS); zero is (0, BIAS). Most are drawn as items (sign, m, e) and then put into that form.
"""
from draws import (HIGH, LOW, ZERO, apart, carried_product, carried_sum, end_quotient, equal_mantissas, exact_product, exact_quotient, exact_sum, exponent,
                   left_over, mantissa, near_quotient, product_tie, random_pair, sum_tie, tied_quotient, with_zero)

BIAS, EDGE = 4194304, 2097088
OPERATIONS = '+*/'
KNOWN = (0, 1, 2)
WORDS = 1 << 64  # what a mantissa or an exponent code of the call can hold


def close(r):
    """Exponents alike, or a few places apart."""
    return apart(r, mantissa(r), mantissa(r), r.choice((0, r.randrange(28))))


def beyond(r):
    """Exponents around the distance at which the smaller operand is less than a last place, and beyond it, also past a word of 64 digits."""
    return apart(r, mantissa(r), mantissa(r), r.randrange(28, 71))


def around(r):
    """31 apart, where the smaller operand is a last place or more, 32, where it is half of one or more, and 33."""
    return apart(r, mantissa(r), mantissa(r), r.choice((31, 32, 33)))


def far(r):
    """A million places apart, some thousands, or as far as operands can be."""
    gap = r.choice((1000000, r.randrange(1000, 9999), r.randrange(1000000, 2 * EDGE), 2 * EDGE))
    return apart(r, mantissa(r), mantissa(r), gap, EDGE)


def past_a_power(r):
    """A distance that would be small if its first digit were lost."""
    return apart(r, mantissa(r), mantissa(r), (1 << r.randrange(6, 22)) + r.randrange(34), EDGE)


def tail(r, places):
    """What may follow the last kept digit: a single 1 at the end, all ones, half a last place and one more or less, or a quarter."""
    half = 1 << places - 1
    return r.choice((1, 2 * half - 1, half, half - 1, half + 1, half // 2)) % (2 * half)


def tailed_sum(r):
    """A sum with such a tail behind 32 digits, if it is guessed right that it has one digit more than the larger operand, or none."""
    gap = r.randrange(1, 33)
    m, n, places = mantissa(r), mantissa(r), gap + r.randrange(2)
    n = ((m << gap) + n & -1 << places | tail(r, places)) - (m << gap)
    return apart(r, m, n if LOW <= n < HIGH else LOW + 1, gap)


def tailed_product(r):
    """A product with such a tail in its last 31 or 32 digits, which is what is left off."""
    while True:
        m = mantissa(r) | 1
        n = tail(r, r.choice((31, 32))) * pow(m, -1, HIGH) % HIGH
        if n >= LOW:
            return (1, m, exponent(r)), (1, n, exponent(r))


def tailed_quotient(r):
    """A remainder of 1 or 2, or as much less than the divisor."""
    return left_over(r, lambda n: r.choice((1, 2, n - 1, n - 2)))


def below_sum(r):
    """A sum less than a last place below 2^32 times a power of two: only upwards it always becomes that power."""
    gap = r.randrange(1, 33)
    n, lack = mantissa(r), r.choice((1, r.randrange(1, 1 << gap), 1 << gap - 1, max(1, 1 << gap >> 2), (1 << gap) - 1))
    n = n & -1 << gap | (1 << gap) - lack
    return apart(r, HIGH - (n + lack >> gap), n, gap) if LOW <= n < HIGH else below_far(r)


def below_far(r):
    """The largest mantissa and a part of its last place: from a half or more, 32 apart, to 2^-40 and less."""
    return apart(r, HIGH - 1, mantissa(r), r.choice((32, 33, 33, 34, r.randrange(35, 73), 71)))


def below_product(r):
    """(2^31 + k) (2^32 - 2 k) is 2 k^2 less than 2^63; (2^k - 1) (2^k + 1) is 1 less than a power of two. A last place is 2^31."""
    k, j = r.randrange(1, 1 << 15), r.randrange(16, 32)
    m, n = r.choice(((LOW + k, HIGH - 2 * k), ((1 << j) - 1 << 32 - j, (1 << j) + 1 << 31 - j)))
    return (1, m, exponent(r)), (1, n, exponent(r))


def largest_product(r):
    """Products near 2^64, which no direction takes there."""
    return (1, HIGH - 1 - r.randrange(4), exponent(r)), (1, HIGH - 1 - r.randrange(4), exponent(r))


def ends(r):
    """Exponents at the ends of what is taken, and next to them."""
    e = r.choice((-EDGE, EDGE))
    f = r.choice((e, e, -e, inward(e, r.randrange(1, 71))))
    pair = [(1, mantissa(r), inward(e, r.choice((0, 0, 1)))), (1, mantissa(r), f)]
    r.shuffle(pair)
    return pair


def inward(e, step):
    return e - step if e > 0 else e + step


def moved(r, op, pair):
    """The same mantissas at other exponents; the operands of a sum keep their distance."""
    if r.random() < 0.7 or ZERO in pair:
        return pair
    (s, m, e), (t, n, f) = pair
    if op == '+':
        step = r.choice((-EDGE - min(e, f), EDGE - max(e, f), r.randint(-EDGE - min(e, f), EDGE - max(e, f))))
        return (s, m, e + step), (t, n, f + step)
    return (s, m, r.randint(-EDGE, EDGE)), (t, n, r.randint(-EDGE, EDGE))


def operand(item):
    return item[1], BIAS + item[2]


def bad_operand(r):
    """An operand that is not taken, each for a reason of its own."""
    m, x = mantissa(r), BIAS + exponent(r)
    return r.choice((
        (0, r.choice((0, BIAS - 1, BIAS + 1, BIAS + EDGE, r.randrange(BIAS + 2, WORDS)))),
        (LOW - 1, x),
        (r.choice((1, m >> 1, r.randrange(1, LOW))), x),
        (HIGH, x),
        (r.choice((2 * m, r.randrange(HIGH, WORDS), WORDS - 1)), x),
        (m + HIGH, x),
        (m + (1 << 63), x),
        (m, BIAS - EDGE - 1),
        (m, BIAS + EDGE + 1),
        (m, r.choice((0, r.randrange(BIAS - EDGE)))),
        (m, r.choice((2 * BIAS, r.randrange(BIAS + EDGE + 1, WORDS), WORDS - 1))),
        (m, x + (1 << 32)),
        (m, WORDS - x),
    ))


def not_taken(r):
    """One operand not taken, the other a number or zero; or neither taken."""
    good, bad = r.choice((operand((1, mantissa(r), exponent(r))), operand(ZERO))), bad_operand(r)
    return r.choice(((good, bad), (bad, good), (good, bad), (bad, good), (bad, bad_operand(r))))


def unknown(r):
    """A code that is none of the known ones."""
    return r.choice((3, 4, 5, 127, 128, 254, 255, r.randrange(3, 256)))


# what is drawn, how often, and for which operations
PAIRS = (
    ('random', random_pair, 12, '+*/'),
    ('tie', sum_tie, 6, '+'),
    ('tie', product_tie, 6, '*'),
    ('near a tie', tied_quotient, 6, '/'),
    ('tail', tailed_sum, 8, '+'),
    ('tail', tailed_product, 6, '*'),
    ('tail', tailed_quotient, 6, '/'),
    ('near quotient', near_quotient, 4, '/'),
    ('equal mantissas', equal_mantissas, 4, '/'),
    ('quotient at an end', end_quotient, 2, '/'),
    ('0 to 27 apart', close, 6, '+'),
    ('28 to 70 apart', beyond, 8, '+'),
    ('31 to 33 apart', around, 6, '+'),
    ('far apart', far, 0.6, '+'),
    ('far, past a power of two', past_a_power, 1, '+'),
    ('exact', exact_sum, 3, '+'),
    ('exact', exact_product, 3, '*'),
    ('exact', exact_quotient, 3, '/'),
    ('carry', carried_sum, 3, '+'),
    ('carry', carried_product, 3, '*'),
    ('just below 2^32', below_sum, 4, '+'),
    ('just below 2^32', below_far, 4, '+'),
    ('just below 2^32', below_product, 4, '*'),
    ('largest', largest_product, 1, '*'),
    ('zero', with_zero, 4, '+*/'),
    ('ends', ends, 5, '+**//'),
)
SPOILED = (('not taken', 6), ('unknown operation', 1), ('unknown direction', 2))
WEIGHTS = [kind[2] for kind in PAIRS] + [kind[1] for kind in SPOILED]


def drawn(r):
    """The name of a kind, the code of an operation, three of directions, and two operands."""
    kind = r.choices(PAIRS + SPOILED, WEIGHTS)[0]
    if kind in PAIRS:
        op = r.choice(kind[3])
        return kind[0], OPERATIONS.index(op), KNOWN, *map(operand, moved(r, op, kind[1](r)))
    return spoiled(r, kind[0])


def spoiled(r, name):
    if name == 'not taken':
        return name, r.choice(KNOWN), KNOWN, *not_taken(r)
    a, b = map(operand, random_pair(r))
    if name == 'unknown operation':
        return name, unknown(r), KNOWN, a, b
    return name, r.choice(KNOWN), (unknown(r), unknown(r), unknown(r)), a, b
