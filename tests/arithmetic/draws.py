"""Operands for compare.py, kinds of them for directed_draws.py too: `drawn` gives the name of a kind, an operation (+ * / or c) and the numbers of a list,
mostly two items of three."""

LOW, HIGH, LIMIT = 1 << 31, 1 << 32, 1000
ZERO = (0, 0, 0)


def mantissa(r):
    """Any mantissa, or one next to a power of two, or one of few bits."""
    kind = r.randrange(4)
    if kind == 0:
        near = r.randrange(5)
        return r.choice((LOW + near, HIGH - 1 - near))
    if kind == 1:
        return within(LOW + (1 << r.randrange(31)) + r.randrange(-2, 3))
    if kind == 2:
        return few_bits(r, r.randrange(1, 17))
    return r.randrange(LOW, HIGH)


def within(m):
    return min(max(m, LOW), HIGH - 1)


def few_bits(r, bits):
    """A mantissa that has only zeros behind its first bits."""
    return ((1 << bits - 1) + r.getrandbits(bits - 1)) << 32 - bits


def exponent(r):
    return r.randrange(-40, 41) if r.random() < 0.8 else r.randrange(-LIMIT, LIMIT + 1)


def apart(r, m, n, gap, limit=LIMIT):
    """Two items whose exponents are so far apart, either first."""
    e = r.randrange(-limit, limit - gap + 1) if gap > 100 or r.random() < 0.2 else r.randrange(-40, 41)
    pair = [(1, m, e + gap), (1, n, e)]
    r.shuffle(pair)
    return pair


def random_pair(r):
    return (1, mantissa(r), exponent(r)), (1, mantissa(r), exponent(r))


def sum_tie(r):
    """A sum that lies halfway between two numbers: its last kept place is followed by a single 1."""
    gap = r.randrange(0, 33)
    m, n = mantissa(r), mantissa(r)
    for places in (gap, gap + 1) if gap else (1,):
        total = ((m << gap) + n) & -(1 << places) | 1 << (places - 1)
        n = total - (m << gap)
        if LOW <= n < HIGH:
            return apart(r, m, n, gap)
    return apart(r, m, LOW, 32)


def product_tie(r):
    """A product of 33 bits that ends in a 1."""
    bits = r.randrange(2, 32)
    p = r.getrandbits(bits) | 1 << bits - 1 | 1
    q = (HIGH // p + r.randrange(1, 1 + max(1, HIGH // p))) | 1
    if (p * q).bit_length() != 33 or q.bit_length() > 32:
        return random_pair(r)
    return (1, p << 32 - bits, exponent(r)), (1, q << 32 - q.bit_length(), exponent(r))


def near_quotient(r):
    """A dividend close to a multiple of the divisor."""
    n, k = mantissa(r), mantissa(r)
    return (1, within(n * k // r.choice((LOW, HIGH)) + r.randrange(-1, 2)), exponent(r)), (1, n, exponent(r))


def equal_mantissas(r):
    """Equal mantissas, or one or two apart either way: a dividend that is less is shifted by one place more."""
    n = mantissa(r)
    return (1, within(n + r.randrange(-2, 3)), exponent(r)), (1, n, exponent(r))


def end_quotient(r):
    """A quotient at an end of the range: the least mantissas over the largest, or the largest over the least."""
    m, n = r.sample((LOW + r.randrange(3), HIGH - 1 - r.randrange(3)), 2)
    return (1, m, exponent(r)), (1, n, exponent(r))


def left_over(r, left):
    """A quotient whose remainder is `left` of the divisor, modulo the divisor."""
    while True:
        n = mantissa(r) | 1
        k = left(n)
        for m in (k * pow(2, -32, n) % n, k * pow(2, -31, n) % n + n):
            if LOW <= m < HIGH:
                return (1, m, exponent(r)), (1, n, exponent(r))


def tied_quotient(r):
    """A remainder of half the divisor, as nearly as it can be: no quotient lies halfway between two numbers."""
    return left_over(r, lambda n: n // 2 + r.randrange(2))


def far(r):
    """Exponents around the distance at which the smaller operand no longer counts, and far beyond it."""
    return apart(r, mantissa(r), mantissa(r), r.randrange(28, 38) if r.random() < 0.9 else r.randrange(1000, 2 * LIMIT + 1))


def just_apart(r):
    """Exactly 32 apart, where the smaller operand is half a last place or more, and 33, where it is less and is the whole rest."""
    return apart(r, mantissa(r), mantissa(r), r.choice((32, 33)))


def exact_sum(r):
    gap = r.randrange(0, 17)
    return apart(r, few_bits(r, r.randrange(1, 16)), few_bits(r, r.randrange(1, 16)), gap)


def exact_product(r):
    bits = r.randrange(1, 32)
    return (1, few_bits(r, bits), exponent(r)), (1, few_bits(r, 32 - bits), exponent(r))


def exact_quotient(r):
    """A product of at most 32 bits over one of its factors."""
    bits = r.randrange(1, 32)
    n = few_bits(r, 32 - bits)
    p = (few_bits(r, bits) >> 32 - bits) * (n >> bits)
    return (1, p << 32 - p.bit_length(), exponent(r)), (1, n, exponent(r))


def carried_sum(r):
    """A sum at 2^32 times a power of two, or below it by at most half a last place."""
    gap = r.randrange(1, 33)
    n, half = mantissa(r), 1 << gap - 1
    n = r.choice((n | half, n & -half | half, n & -2 * half or LOW))
    return apart(r, HIGH - (n + 2 * half - 1 >> gap), n, gap)


def carried_product(r):
    """A product below 2^63 by less than the first factor; one in four rounds up to it. Or by exactly half a last place."""
    m = r.randrange(LOW + 1, HIGH)
    m, n = r.choice(((m, ((1 << 63) - 1) // m),) * 4 + ((7 << 29, 1227133513 << 1),))
    return (1, m, exponent(r)), (1, n, exponent(r))


def cancelling(r):
    """Operands of opposite sign and of nearly the same size, or the lesser just below a power of two."""
    m, e, s = mantissa(r), exponent(r), r.choice((1, -1))
    kind = r.randrange(4)
    if kind == 0:
        return (s, m, e), (-s, m, e)
    if kind == 1:
        return (s, m, e), (-s, within(m + r.randrange(-9, 10)), nearby(e, r.randrange(-1, 2)))
    if kind == 2:
        return (s, LOW, e), (-s, mantissa(r), nearby(e, -r.randrange(0, 37)))
    return (s, m, e), (-s, mantissa(r), nearby(e, -r.randrange(0, 4)))


def nearby(e, step):
    return max(-LIMIT, min(LIMIT, e + step))


def with_zero(r):
    a = (1, mantissa(r), exponent(r))
    return r.choice(((a, ZERO), (ZERO, a), (ZERO, ZERO)))


def extreme(r):
    """Exponents at the ends of what the calls take."""
    e = nearby(r.choice((-LIMIT, LIMIT)), r.choice((0, 0, r.randrange(-3, 4))))
    f = e + r.randrange(-40, 41) if r.random() < 0.9 else -e
    return (1, mantissa(r), e), (1, mantissa(r), nearby(f, 0))


def negative(r):
    """One item negative, or both: refused but by a carry."""
    a, b = random_pair(r)
    return r.choice(((flipped(a), b), (a, flipped(b)), (flipped(a), flipped(b))))


def not_taken(r):
    """An item with a sign, a mantissa or an exponent out of range, or a zero that is not written 0, 0, 0."""
    good = (1, mantissa(r), exponent(r))
    bad = r.choice((
        (1, r.randrange(1, LOW), 0),
        (1, LOW - 1, exponent(r)),
        (1, HIGH, exponent(r)),
        (1, r.randrange(HIGH, 1 << 63), 0),
        (1, -mantissa(r), 0),
        (1, LOW, -LIMIT - 1 - r.randrange(99)),
        (1, LOW, LIMIT + 1 + r.randrange(99)),
        (1, mantissa(r) + HIGH, 0),
        (1, mantissa(r), r.choice((-1, 1)) * (1 << 32)),
        (r.choice((2, -2, 257, 1 + HIGH)), mantissa(r), exponent(r)),
        (0, mantissa(r), exponent(r)),
        (1, 0, 0),
        (-1, 0, 0),
        (0, 0, r.choice((-1, 1, 77))),
    ))
    return r.choice(((good, bad), (bad, good)))


def wrong_count(r):
    """Another count than six numbers: items left out or added, or parts of them."""
    numbers = [x for _ in range(4) for x in (1, mantissa(r), exponent(r))]
    return (numbers[:r.choice((0, 1, 2, 3, 4, 5, 5, 5, 7, 7, 7, 8, 9, 12))],)


# what is drawn, how often, and for which operations
KINDS = (
    ('random', random_pair, 20, '+*/c'),
    ('sum tie', sum_tie, 10, '++c'),
    ('product tie', product_tie, 8, '*'),
    ('near quotient', near_quotient, 8, '/'),
    ('equal mantissas', equal_mantissas, 4, '/'),
    ('quotient at an end', end_quotient, 2, '/'),
    ('quotient near a tie', tied_quotient, 5, '/'),
    ('far apart', far, 8, '+c'),
    ('32 or 33 apart', just_apart, 8, '++c'),
    ('exact', exact_sum, 3, '+'),
    ('exact', exact_product, 3, '*'),
    ('exact', exact_quotient, 3, '/'),
    ('carry', carried_sum, 6, '++c'),
    ('carry', carried_product, 4, '*'),
    ('cancelling', cancelling, 12, 'c'),
    ('zero', with_zero, 3, '+*/c'),
    ('extreme', extreme, 6, '+*/c'),
    ('negative', negative, 2, '+*/c'),
    ('not taken', not_taken, 3, '+*/c'),
    ('wrong count', wrong_count, 1, '+*/c'),
)


def flipped(a):
    return (-a[0], *a[1:])


def drawn(r):
    """The name of a kind, an operation and the numbers of its list. Sums through a carry are signed."""
    name, draw, _, ops = r.choices(KINDS, [k[2] for k in KINDS])[0]
    op = r.choice(ops)
    items = draw(r)
    if op == 'c' and draw is not wrong_count:
        items = [flipped(item) if r.random() < 0.4 else item for item in items]
    return name, op, [x for item in items for x in item]
