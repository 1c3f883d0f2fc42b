"""Pairs of items for add, multiply and divide.

pair: two positive items, drawn in one of the ways of DRAWS. spoiled: a pair with an item that is refused, mostly. cases: what a pair of positive
items meets, roundings and distances; every_case: all that a call can meet.
"""
from number import HIGH, ITEM_ZERO, LOW, worked
from sources import EDGE, clamp, mantissa, negative, odd_item, spread_number

# Each of these distances of two exponents is a case of its own. From 33 on the smaller operand is the rest of a sum.
GAPS = range(35)


def near_zero(rng):
    return rng.randint(-40, 40)


def turned(rng, first, second):
    return (first, second) if rng.random() < 0.5 else (second, first)


def of_digits(rng, count):
    """A mantissa whose last digit that is not zero is the count-th."""
    return (1 << count - 1 | rng.getrandbits(count - 1) | 1) << 32 - count


def any_numbers(rng):
    spread = rng.choice((1, 3, 40, 400))
    return spread_number(rng, spread), spread_number(rng, spread)


def apart(rng):
    """Exponents at a distance that matters to a sum, or far beyond."""
    gap = rng.choice((*GAPS, 32, 33, 34, 35, 63, 64, 65, rng.randint(36, 2 * EDGE)))
    e = rng.randint(-EDGE, EDGE - gap)
    return turned(rng, (mantissa(rng), e), (mantissa(rng), e + gap))


def few_digits(rng):
    """Exact results, and products of 33 digits, which lie halfway between two numbers."""
    count = rng.randint(2, 31)
    other = rng.choice((33 - count, 34 - count, rng.randint(1, 33 - count)))
    return (of_digits(rng, count), near_zero(rng)), (of_digits(rng, other), near_zero(rng))


def sum_tie(rng):
    """A sum whose last kept digit is followed by a single 1, if the digits kept are guessed right."""
    gap, e, m = rng.randint(0, 32), near_zero(rng), mantissa(rng)
    places = max(1, gap + rng.randrange(2))
    n = ((m << gap) + mantissa(rng) & -1 << places | 1 << places - 1) - (m << gap)
    return turned(rng, (m, e + gap), (n if LOW <= n < HIGH else LOW + 1, e))


def sum_carry(rng):
    """A sum at 2^32 last places, or less than one last place below it."""
    gap, e, n = rng.randint(1, 32), near_zero(rng), mantissa(rng)
    half = 1 << gap - 1
    n = rng.choice((n | half, n & -half | half, n & -2 * half or LOW))
    return turned(rng, (HIGH - 1 - (n - 1 >> gap), e + gap), (n, e))


def product_carry(rng):
    """A product just below 2^63: mostly by less than half a last place, for the second by just that half, for the last by a whole one."""
    m = rng.randrange(LOW + 1, HIGH)
    first, second = rng.choice(((m, ((1 << 63) - 1) // m), (7 << 29, 1227133513 << 1), (LOW + 1, HIGH - 2), (3 << 30, (1 << 33) // 3)))
    return turned(rng, (first, near_zero(rng)), (second, near_zero(rng)))


def exact_quotient(rng):
    count = rng.randint(1, 31)
    first, second = of_digits(rng, count) >> 32 - count, of_digits(rng, 32 - count) >> count
    dividend = first * second
    return (dividend << 32 - dividend.bit_length(), near_zero(rng)), (second << count, near_zero(rng))


def near_quotient(rng):
    """A remainder of 1 or -1, or of about half the divisor: next to an exact quotient, or to a tie, which no quotient is."""
    while True:
        n = mantissa(rng) | 1
        left = rng.choice((1, n - 1, n // 2, n // 2 + 1))
        # The dividend is less than the divisor and gets 32 places, or it is more and gets 31.
        less, more = left * pow(2, -32, n) % n, left * pow(2, -31, n) % n + n
        for m in (less, more):
            if LOW <= m < HIGH:
                return (m, near_zero(rng)), (n, near_zero(rng))


def close(rng):
    """Equal mantissas or nearly so, and the ends of their range."""
    m, n = mantissa(rng), rng.choice((LOW, HIGH - 1))
    first, second = rng.choice(((m, m), (m, min(m + 1, HIGH - 1)), (m, max(m - 1, LOW)), (m, n), (n, m), (LOW, HIGH - 1), (HIGH - 1, LOW)))
    return (first, rng.randint(-33, -29)), (second, rng.randint(-33, -29))


def at_the_ends(rng):
    """Exponents of 1000 and -1000: results that could not be stored."""
    e = rng.choice((-EDGE, EDGE))
    return (mantissa(rng), e), (mantissa(rng), clamp(rng.choice((e, -e, e + rng.randint(-34, 34)))))


DRAWS = {
    "add": (any_numbers, apart, apart, apart, few_digits, sum_tie, sum_tie, sum_carry, close, at_the_ends),
    "multiply": (any_numbers, any_numbers, few_digits, few_digits, product_carry, close, at_the_ends),
    "divide": (any_numbers, any_numbers, few_digits, exact_quotient, near_quotient, near_quotient, close, at_the_ends),
}


def pair(rng, kind):
    return [(1,) + number for number in rng.choice(DRAWS[kind])(rng)]


def spoiled(rng, kind):
    """A pair with one item or both not positive or not of the stated form; now and then with an exponent that is still taken."""
    items = pair(rng, kind)
    for place in rng.choice(((0,), (0,), (1,), (1,), (0, 1))):
        other = (1, mantissa(rng), rng.choice((-EDGE - 1, -EDGE, EDGE, EDGE + 1)))
        items[place] = rng.choice((ITEM_ZERO, ITEM_ZERO, negative(items[place]), negative(items[place]), other, odd_item(rng)))
    return items


def rounding(kind, result, rest):
    """Which way it went. Halfway is half a last place, and just below a power of two the places are half as large. No quotient lies halfway."""
    odd, e = rest
    carry = odd < 0 and result[0] == LOW
    tie = kind != "divide" and abs(odd) == 1 and e == result[1] - 1 - carry
    return ("tie " if tie else "") + ("carry" if carry else "down" if odd > 0 else "up") if odd else "exact"


def distance(a, b):
    gap = abs(a[1] - b[1])
    side = "first larger" if a[1] > b[1] else "second larger" if a[1] < b[1] else "equal"
    return f"{gap if gap in GAPS else 'far'} apart, {side}"


def division(a, b, result, rest):
    yield "mantissas equal" if a[0] == b[0] else "mantissa less" if a[0] < b[0] else "mantissa more"
    if abs(a[0] - b[0]) == 1:
        yield "mantissa one less" if a[0] < b[0] else "mantissa one more"
    if (a[0], b[0]) in ((HIGH - 1, LOW), (LOW, HIGH - 1)):
        yield "least over largest" if a[0] < b[0] else "largest over least"
    if result[0] == HIGH - 1 and rest[0] < 0:
        yield "up to 2^32 - 1"
    # The remainder in units of the divisor's last place times the result's.
    units = abs(rest[0]) << max(0, rest[1] - b[1] - result[1])
    if 2 * units + 1 == b[0]:
        yield "nearly a tie, " + ("up" if rest[0] < 0 else "down")


def cases(kind, items):
    """What add, multiply or divide of two positive items meets."""
    a, b = (item[1:] for item in items)
    result, rest = worked(kind, a, b)
    found = {rounding(kind, result, rest)}
    if abs(result[1]) > EDGE:
        found.add("above 1000" if result[1] > 0 else "below -1000")
    if kind == "add":
        found.add(distance(a, b))
    return found.union(division(a, b, result, rest)) if kind == "divide" else found


def every_case(kind):
    """All of them: a sum is never below -1000, and a quotient neither lies halfway nor carries."""
    found = {"exact", "down", "up", "above 1000"} | ({"below -1000"} if kind != "add" else set())
    if kind == "divide":
        found |= {"mantissas equal", "mantissa less", "mantissa more", "mantissa one less", "mantissa one more"}
        return found | {"nearly a tie, up", "nearly a tie, down", "largest over least", "least over largest", "up to 2^32 - 1"}
    found |= {"tie down", "tie up", "carry", "tie carry"}
    if kind == "add":
        found |= {f"{gap} apart, {side} larger" for gap in (*GAPS[1:], "far") for side in ("first", "second")} | {"0 apart, equal"}
    return found
