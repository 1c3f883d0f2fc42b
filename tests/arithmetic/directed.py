"""directed.py DRIVER SEED COUNT: COUNT pairs, worked by DRIVER to nearest, down and up, and by exact fractions, must agree to the last bit.

A number is (m, e), of value m * 2^e, m from 2^31 to 2^32 - 1; zero is (0, 0). DRIVER takes and answers exponents with BIAS added. What is asked of its own
answers, whatever the fractions say: on which side of the exact result they lie and how far, that up is the next number after down or, where the exact result
is a number, the same, and that nearest is the nearer of the two. What DRIVER does not take, it answers with NOTHING.
"""
import random
import sys
from collections import Counter

from batches import compared
from directed_draws import BIAS, EDGE, KNOWN, OPERATIONS, drawn
from draws import HIGH, LOW, ZERO
from rational import DIRECTIONS, exact, rounded

NOTHING = (0, 0)  # with BIAS added, so that it is no number
ZERO_NUMBER = (0, 0)  # before BIAS is added
OUT_OF_REACH = 2 * BIAS  # no result of taken operands has an exponent this large


def item(operand):
    """An operand as a signed item, or None if it is not taken."""
    m, x = operand
    e = x - BIAS
    return ZERO if (m, e) == ZERO_NUMBER else (1, m, e) if LOW <= m < HIGH and -EDGE <= e <= EDGE else None


def worked(operation, a, b):
    """The exact result of two operands as a fraction and an exponent, or None if something is not taken."""
    a, b = item(a), item(b)
    if operation not in KNOWN or a is None or b is None:
        return None
    op = OPERATIONS[operation]
    return None if op == '/' and b == ZERO else exact(op, a, b)


def coded(number):
    return number[0], number[1] + BIAS


def expected(result, direction):
    """What DRIVER must answer."""
    if result is None or direction not in DIRECTIONS:
        return NOTHING
    q, e = result
    return coded(rounded(q, e, direction) if q else ZERO_NUMBER)


def after(number):
    """The next number after a positive one."""
    m, e = number
    return (m + 1, e) if m < HIGH - 1 else (LOW, e + 1)


def before(number):
    """The number before a positive one."""
    m, e = number
    return (m - 1, e) if m > LOW else (HIGH - 1, e - 1)


def wholes(q, e, *numbers):
    """Whole numbers in the ratio of q * 2^e and the numbers."""
    low = min(e, *(x for _, x in numbers))
    return [q.numerator << e - low, *(m * q.denominator << x - low for m, x in numbers)]


def side(number, q, e):
    """-1, 0 or 1 as a number is below q * 2^e, equal to it or above it."""
    true, found = wholes(q, e, number)
    return (found > true) - (found < true)


def within(number, q, e, k):
    """Whether the ratio to q * 2^e lies from (1 - 2^-32)^k to its reciprocal."""
    true, found = wholes(q, e, number)
    less, one = (HIGH - 1) ** k, HIGH ** k
    return found * one >= true * less and true * one >= found * less


def is_number(q):
    """Whether q times a power of two is a number: it needs no more than 32 digits."""
    places = (q.numerator & -q.numerator).bit_length() - 1
    return q.denominator & q.denominator - 1 == 0 and (q.numerator >> places) < HIGH


def nearer(down, up, q, e):
    """Of two numbers around q * 2^e the nearer, at a tie the even one."""
    true, low, high = wholes(q, e, down, up)
    return down if low + high > 2 * true or low + high == 2 * true and down[0] % 2 == 0 else up


def broken(q, e, answers):
    """What three answers for q * 2^e, to nearest, down and up, do not keep."""
    if not q:
        return [] if set(answers) == {ZERO_NUMBER} else ['zero is exact']
    if not all(LOW <= m < HIGH and abs(x) < OUT_OF_REACH for m, x in answers):
        return ['an answer is a number']
    nearest, down, up = answers
    facts = {
        'down is not above': side(down, q, e) <= 0,
        'the next after down is above': side(after(down), q, e) > 0,
        'up is not below': side(up, q, e) >= 0,
        'the one before up is below': side(before(up), q, e) < 0,
        'nearest is within 1': within(nearest, q, e, 1),
        'down is within 2': within(down, q, e, 2),
        'up is within 2': within(up, q, e, 2),
        'up is down at a number, else the next': up == (down if is_number(q) else after(down)),
        'nearest is down or up': nearest in (down, up),
        'nearest is the nearer, even at a tie': nearest == nearer(down, up, q, e),
    }
    return [fact for fact, kept in facts.items() if not kept]


def uncoded(answers):
    return tuple((m, x - BIAS) for m, x in answers)


def faults(result, directions, got, want):
    """How DRIVER's answers differ from those expected, and what they do not keep. Those expected must keep it all."""
    found = [] if got == want else [f'gave {got}, exact {want}']
    if result is None or directions != DIRECTIONS:
        return found
    for answers in {got, want}:
        lost = broken(*result, uncoded(answers))
        if lost and answers == want:
            sys.exit(f'the expected {want} does not keep: {lost}')
        found += [f'does not keep: {fact}' for fact in lost]
    return found


def line(case):
    _, operation, directions, a, b = case
    return ' '.join(map(str, (operation, *directions, *a, *b)))


def counted(counts, operation, result, want):
    """What the test reached, by operation."""
    sign = OPERATIONS[operation]
    nearest, down, up = want
    counts[f'{sign} exact'] += down == up
    counts[f'{sign} down differs from nearest'] += down != nearest
    counts[f'{sign} up differs from nearest'] += up != nearest
    counts[f'{sign} only up becomes 2^32'] += up[0] == LOW and up != down == nearest
    counts[f'{sign} nearest and up become 2^32'] += up[0] == LOW and up != down != nearest
    counts[f'{sign} zero'] += result[0] == 0


def main():
    driver, seed, count = sys.argv[1], int(sys.argv[2]), int(sys.argv[3])
    r = random.Random(seed)
    seen, counts = Counter(), Counter()

    def judged(case, got):
        name, operation, directions, a, b = case
        result = worked(operation, a, b)
        got, want = tuple(zip(got[::2], got[1::2])), tuple(expected(result, direction) for direction in directions)
        seen[f'{name} {OPERATIONS[operation] if operation in KNOWN else "?"}'] += 1
        counts['not taken'] += NOTHING in want
        if NOTHING not in want:
            counted(counts, operation, result, want)
        found = faults(result, directions, got, want)
        return [f'{name}: {line(case)}', *('    ' + fault for fault in found)] if found else []

    wrong = compared(driver, count, lambda: drawn(r), line, judged)
    for listed in (seen, counts):
        print(', '.join(f'{k} {n}' for k, n in sorted(listed.items())))
    print(f'{count} pairs in three directions, seed {seed}: {wrong} differences')
    sys.exit(1 if wrong else 0)


if __name__ == '__main__':
    main()
