"""Weights from time stamps, document 02, (a): the factors of the matrix whose row i holds the powers 0 to n - 1 of stamp i.

built: the factors by the rounded rule. exact_built: the exact ones, as fractions. powers: the matrix itself. stamps_good: whether a list is taken;
stamp_faults: the same said again, each thing that is wrong with a list by its name and position.
"""
from fractions import Fraction
from math import prod

from number import HIGH, ONE, divide, multiply, round_whole
from words import Matrix

MOST_STAMPS = 8
BUILT_BOUND = 11


def stamps_good(stamps):
    """1 to 8, positive, each more than the one before, below 2^32."""
    return 1 <= len(stamps) <= MOST_STAMPS and all(before < stamp < HIGH for before, stamp in zip([0, *stamps], stamps))


def stamp_faults(stamps):
    """What 15 is answered for; positions count from 1."""
    found = [] if len(stamps) in range(1, MOST_STAMPS + 1) else [f"{len(stamps)} stamps"]
    for i, stamp in enumerate(stamps):
        if stamp == 0:
            found.append(f"zero at {i + 1}")
        if stamp >= 2 ** 32:
            found.append(f"large at {i + 1}")
        if i > 0 and stamp <= stamps[i - 1]:
            found.append(f"{'equal' if stamp == stamps[i - 1] else 'falling'} at {i + 1}")
    return found


def rounded_product(differences):
    """From 1 on, in the order given, each step rounded. A difference of stamps has at most 32 digits, so it is a number itself."""
    result = ONE
    for difference in differences:
        result = multiply(result, round_whole(difference, 0))
    return result


def built_factor(s, i, j):
    """b(i, j) by the rounded rule; the stamps are s[1] to s[n]."""
    if i < j:
        return round_whole(s[i], 0)
    if i == j:
        return rounded_product(s[i] - s[k] for k in range(1, i))
    above = rounded_product(s[i] - s[k + 1] for k in range(i - j, i - 1))
    below = rounded_product(s[i - 1] - s[k] for k in range(i - j, i - 1))
    return divide(above, below)


def built(stamps):
    n, s = len(stamps), [None, *stamps]
    return Matrix(n, tuple(built_factor(s, i, j) for i in range(1, n + 1) for j in range(1, n + 1)))


def exact_factor(stamps, i, j):
    """b(i, j) exactly, below the diagonal a product of quotients."""
    def s(k):
        return Fraction(stamps[k - 1])

    if i < j:
        return s(i)
    if i == j:
        return prod((s(i) - s(k) for k in range(1, i)), start=Fraction(1))
    return prod(((s(i) - s(k + 1)) / (s(i - 1) - s(k)) for k in range(i - j, i - 1)), start=Fraction(1))


def exact_built(stamps):
    """One fraction for each (i, j), row by row."""
    rows = range(1, len(stamps) + 1)
    return [exact_factor(stamps, i, j) for i in rows for j in rows]


def powers(stamps):
    """The entries of the matrix that the exact factors multiply out to."""
    return [[Fraction(stamp ** power) for power in range(len(stamps))] for stamp in stamps]
