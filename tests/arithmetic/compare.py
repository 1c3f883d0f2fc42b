"""compare.py DRIVER SEED COUNT: COUNT operations, worked by DRIVER and by exact fractions, must agree to the last bit.

An item is (sign, m, e): sign * m * 2^e, m from 2^31 to 2^32 - 1 and e from -1000 to 1000; zero is (0, 0, 0). The operations + * / take two positive items
and answer the exact result rounded to 32 significant bits, to nearest, ties to even, and the exact rest: what the result lacks, for a quotient what the
result times the divisor lacks, as an odd whole number with an exponent, or 0 with 0. What they do not take they refuse with 9.
The operation c carries two items of any sign through two rows of ones: (a, b) becomes (a + b, b + (a + b)), each sum rounded.
"""
import random
import sys
from collections import Counter

from batches import compared
from draws import HIGH, LIMIT, LOW, ZERO, drawn
from rational import exact, rounded, scaled

BAD_LIST, OUTSIDE = 9, 14
LENT = (7,) * 7  # what the driver lends to a carry


def odd(q, e):
    """q * 2^e, q a fraction over a power of two, as an odd whole number and an exponent; 0 and 0 for none."""
    if q == 0:
        return 0, 0
    while q.denominator > 1:
        q, e = q * 2, e - 1
    while q.numerator % 2 == 0:
        q, e = q / 2, e + 1
    return q.numerator, e


def taken(item):
    sign, m, e = item
    return item == ZERO or sign in (-1, 1) and LOW <= m < HIGH and -LIMIT <= e <= LIMIT


def worked(op, a, b):
    """Result and rest of two positive items."""
    q, e = exact(op, a, b)
    m, x = rounded(q, e)
    rest = q - scaled(m, x - e)
    # the dividend minus result times divisor is the divisor times what the quotient lacks
    return (m, x, *(odd(rest * b[1], e + b[2]) if op == '/' else odd(rest, e)))


def added(a, b):
    q, e = exact('+', a, b)
    return (1 if q > 0 else -1, *rounded(abs(q), e)) if q else ZERO


def expected(op, numbers):
    """What the driver must answer."""
    items = [tuple(numbers[k:k + 3]) for k in range(0, len(numbers), 3)]
    good = len(numbers) == 6 and all(map(taken, items))
    if op != 'c':
        good = good and all(item[0] == 1 for item in items)
        return (0, 0, *worked(op, *items)) if good else (BAD_LIST, 0, 0, 0, 0, 0)
    if not good:
        return (BAD_LIST, 0, *LENT)
    first = added(*items)
    carried = first, added(items[1], first)
    return (0, 0, *carried[0], *carried[1], LENT[6]) if all(map(taken, carried)) else (OUTSIDE, 0, *LENT)


def line(case):
    _, op, numbers = case
    return f"{op} {len(numbers)} {' '.join(map(str, numbers))}"


def main():
    driver, seed, count = sys.argv[1], int(sys.argv[2]), int(sys.argv[3])
    r = random.Random(seed)
    seen, refused = Counter(), Counter()

    def judged(case, got):
        name, op, numbers = case
        want = expected(op, numbers)
        seen[f'{name} {op}'] += 1
        refused[want[0]] += 1
        return [] if got == want else [f'{name}: {line(case)} gave {got}, exact {want}']

    wrong = compared(driver, count, lambda: drawn(r), line, judged)
    print(', '.join(f'{k} {n}' for k, n in sorted(seen.items())))
    print(f'accepted {refused[0]}, refused with 9 {refused[BAD_LIST]}, with 14 {refused[OUTSIDE]}')
    print(f'{count} operations, seed {seed}: {wrong} differences')
    sys.exit(1 if wrong else 0)


main()
