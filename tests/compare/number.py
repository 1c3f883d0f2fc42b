"""Numbers: a mantissa m from 2^31 to 2^32 - 1 and an exponent e, the pair (m, e), of value m * 2^e; zero is (0, 0).

add, multiply, divide: the exact result rounded once at 32 bits, by integers and shifts; in a direction, which is to nearest, ties to even, if none is given.
signed_add: the same to nearest for items (sign, m, e). round_fraction, value and the slow_ functions say it again with fractions.
whole_quotient and rounded_quotient: division by one shift, chosen by comparing the mantissas, then one rounding in a given direction.
worked: one of the three with the rest, what rounding took away, as a pair of an odd whole number and an exponent.
"""
import math
from fractions import Fraction

BITS = 32
LOW, HIGH = 1 << 31, 1 << 32
ZERO = (0, 0)
ONE = (LOW, -31)
ITEM_ZERO = (0, 0, 0)
EXPONENT_LIMIT = 1000
# From this distance on the smaller operand cannot change the nearest number, not even just below a power of two.
FAR = 40
# Document 02, (g), by how each takes a whole number for a fraction; `round` takes the even one at a tie.
DIRECTIONS = {"nearest": round, "down": math.floor, "up": math.ceil}


def round_whole(whole, e, direction="nearest"):
    """The positive whole number `whole` times 2^e, rounded."""
    shift = whole.bit_length() - BITS
    if shift <= 0:
        return (whole << -shift, e + shift)
    m = rounded_quotient(whole >> shift, whole & (1 << shift) - 1, 1 << shift, direction)
    return (m, e + shift) if m < HIGH else (LOW, e + shift + 1)


def multiply(a, b, direction="nearest"):
    p = a[0] * b[0]
    return round_whole(p, a[1] + b[1], direction) if p else ZERO


def add(a, b, direction="nearest"):
    if not a[0]:
        return b
    if not b[0]:
        return a
    gap = a[1] - b[1]
    if gap < 0:
        a, b, gap = b, a, -gap
    if gap > FAR:
        # The smaller one only says that something is left over.
        b, gap = (1, a[1] - FAR), FAR
    return round_whole((a[0] << gap) + b[0], b[1], direction)


def divide(a, b, direction="nearest"):
    """a over b, b not zero. A quotient of 34 bits or more and a bit for the remainder round as the exact one does."""
    if not a[0]:
        return ZERO
    q, r = divmod(a[0] << 34, b[0])
    return round_whole(2 * q + (r > 0), a[1] - b[1] - 35, direction)


WORK = {"add": add, "multiply": multiply, "divide": divide}


def whole_quotient(a, b):
    """Document 02, (d): mantissas compared, the shift chosen, one division. The whole quotient of two positive numbers, its remainder and its exponent."""
    # Equal mantissas need 31: with 32 their quotient would be 2^32.
    shift = 31 if a[0] >= b[0] else 32
    q, left = divmod(a[0] << shift, b[0])
    return q, left, a[1] - b[1] - shift


def rounded_quotient(q, left, divisor, direction):
    """A whole quotient with its remainder, rounded to nearest (ties to even), down or up."""
    if direction == "nearest":
        return q + (2 * left > divisor or 2 * left == divisor and q % 2 == 1)
    return q + (direction == "up" and left > 0)


def signed_add(x, y):
    """The sum of two items (sign, m, e), rounded once; full cancellation gives zero."""
    if not x[0]:
        return y
    if not y[0]:
        return x
    if x[2] < y[2]:
        x, y = y, x
    gap = x[2] - y[2]
    if gap > FAR:
        return x
    whole = x[0] * (x[1] << gap) + y[0] * y[1]
    if not whole:
        return ITEM_ZERO
    return (1 if whole > 0 else -1,) + round_whole(abs(whole), y[2])


def signed_multiply(weight, x):
    """A positive number or zero times an item."""
    return (x[0],) + multiply(weight, x[1:]) if x[0] and weight[0] else ITEM_ZERO


def stored(number):
    """Whether a number may be stored or answered, as far as its exponent goes; zero may."""
    return -EXPONENT_LIMIT <= number[1] <= EXPONENT_LIMIT


def value(number):
    m, e = number
    return Fraction(m << e) if e >= 0 else Fraction(m, 1 << -e)


def round_fraction(x, direction="nearest"):
    """The nonnegative fraction x rounded: the nearest m * 2^e with m below 2^32, even m at a tie, or the largest not above x, or the smallest not below."""
    if x == 0:
        return ZERO
    e = x.numerator.bit_length() - x.denominator.bit_length() - BITS
    while x >= Fraction(2) ** (e + BITS):
        e += 1
    while x < Fraction(2) ** (e + BITS - 1):
        e -= 1
    m = DIRECTIONS[direction](x / Fraction(2) ** e)
    return (m, e) if m < HIGH else (LOW, e + 1)


def slow_add(a, b, direction="nearest"):
    return round_fraction(value(a) + value(b), direction)


def slow_multiply(a, b, direction="nearest"):
    return round_fraction(value(a) * value(b), direction)


def slow_divide(a, b, direction="nearest"):
    return round_fraction(value(a) / value(b), direction)


def neighbours(number):
    """The number before a positive one, and the next."""
    m, e = number
    return (m - 1, e) if m > LOW else (HIGH - 1, e - 1), (m + 1, e) if m < HIGH - 1 else (LOW, e + 1)


def slow_signed_add(x, y):
    total = x[0] * value(x[1:]) + y[0] * value(y[1:])
    sign = (total > 0) - (total < 0)
    return (sign,) + round_fraction(abs(total))


def odd_form(x):
    """A fraction over a power of two as an odd whole number and an exponent; zero as 0 and 0."""
    places = (x.numerator & -x.numerator).bit_length() - x.denominator.bit_length()
    return (int(x / Fraction(2) ** places), places) if x else ZERO


def worked(kind, a, b):
    """Document 02, (c): the result of two positive numbers, and sum or product minus it, or dividend minus it times divisor."""
    result = WORK[kind](a, b)
    x, y, r = map(value, (a, b, result))
    rest = x + y - r if kind == "add" else x * y - r if kind == "multiply" else x - r * y
    return result, odd_form(rest)
