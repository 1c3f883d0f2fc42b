"""Exact results of two numbers, and their rounding to 32 significant bits: to nearest (ties to even), down or up."""
import math
from fractions import Fraction

from draws import HIGH, LOW

NEAREST, DOWN, UP = DIRECTIONS = (0, 1, 2)
TAKEN = (round, math.floor, math.ceil)  # `round` of a Fraction takes the even whole number at a tie
SHORT = 1 << 4096


def rounded(q, e, direction=NEAREST):
    """q * 2^e, q a positive fraction, as a mantissa of 32 bits and an exponent. By whole numbers: a sum may have a million digits."""
    shift = q.numerator.bit_length() - q.denominator.bit_length() - 32
    above, below = q.numerator << max(0, -shift), q.denominator << max(0, shift)
    if above >= below << 32:
        below, shift = below << 1, shift + 1
    m = whole(*divmod(above, below), below, direction)
    return (m, e + shift) if m < HIGH else (LOW, e + shift + 1)


def whole(m, left, below, direction):
    """The whole number that a direction takes for m + left / below. A fraction of a million digits would be slow: these are judged by hand."""
    if below < SHORT:
        return TAKEN[direction](m + Fraction(left, below))
    if direction == NEAREST:
        return m + (2 * left > below or 2 * left == below and m % 2 == 1)
    return m + (direction == UP and left > 0)


def scaled(m, places):
    return Fraction(m << places) if places >= 0 else Fraction(m, 1 << -places)


def exact(op, a, b):
    """The exact sum, product or quotient of two signed items, as a fraction and an exponent."""
    (s, m, e), (t, n, f) = a, b
    if op == '*':
        return Fraction(m * n), e + f
    if op == '/':
        return Fraction(m, n), e - f
    low = min(e, f) if m and n else e if m else f
    return (s * scaled(m, e - low) if m else 0) + (t * scaled(n, f - low) if n else Fraction(0)), low
