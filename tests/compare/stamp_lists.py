"""Lists of time stamps for builds.

rising: a list that is taken, drawn in one of the ways of DRAWS. spoiled: one that is refused. unread: one that the console does not pass on.
each_fault: every fault of a list alone, and stamps that are right when cut to 32 bits. build_line: the request.
"""
from console_model import MOST_STAMP
from number import HIGH, LOW
from stamps import MOST_STAMPS

LAST = HIGH - 1
ENDS = (1, 2, 3, LOW - 1, LOW, LOW + 1, LAST - 1, LAST)
POWERS = sorted({x for k in range(33) for x in ((1 << k) - 1, 1 << k, (1 << k) + 1) if 1 <= x <= LAST})
SIZE_WEIGHTS = (6, 8, 10, 14, 14, 14, 14, 20)
# Over the limit: just above it, for a sign of 64 bits, and the largest; and what no 64 bits hold.
LARGE = (HIGH, HIGH, HIGH + 1, 2 * HIGH - 1, 2 ** 63 - 1, 2 ** 63, MOST_STAMP)
BEYOND = (MOST_STAMP + 1, MOST_STAMP + 1, MOST_STAMP + 2, 10 ** 25)


def build_line(place, stamps):
    return " ".join(map(str, ["build", place, *stamps]))


def chosen(rng, among, count):
    return sorted(rng.sample(among, count))


def small(rng, count):
    return chosen(rng, range(1, rng.choice((max(count, 8), 40)) + 1), count)


def cluster(rng, count):
    """Close together, the last one 2^32 - 1."""
    return chosen(rng, range(LAST - rng.choice((20, 2000, 1 << 20)), LAST), count - 1) + [LAST]


def consecutive(rng, count):
    """One after the other, mostly near 2^32."""
    start = rng.choice((HIGH - count, HIGH - count - rng.randrange(1, 9), LOW - rng.randint(1, count), rng.randint(1, HIGH - count)))
    return list(range(start, start + count))


def near_powers(rng, count):
    """Powers of two and their neighbours."""
    return chosen(rng, POWERS, count)


def equally_spaced(rng, count):
    widest = (LAST - 1) // max(count - 1, 1)
    step = rng.choice((widest, rng.randint(1, widest), 1 << rng.randrange(widest.bit_length()), rng.randint(1, 1000)))
    start = rng.choice((1, LAST - (count - 1) * step, rng.randint(1, LAST - (count - 1) * step)))
    return [start + k * step for k in range(count)]


def anywhere(rng, count):
    return chosen(rng, range(1, HIGH), count)


def all_scales(rng, count):
    """Of few digits as often as of many."""
    found = set()
    while len(found) < count:
        digits = rng.randint(1, 32)
        found.add(1 << digits - 1 | rng.getrandbits(digits - 1))
    return sorted(found)


def far_apart(rng, count):
    """At the ends of the range and in its middle, some others between."""
    return chosen(rng, ENDS if count <= len(ENDS) and rng.random() < 0.5 else sorted({*ENDS, *anywhere(rng, 16)}), count)


def two_clusters(rng, count):
    """Some close to each other, and the others far above."""
    few, start = rng.randint(0, count), rng.choice((1, rng.randrange(1, LOW)))
    return chosen(rng, range(start, start + 100), few) + chosen(rng, range(HIGH - 100, HIGH), count - few)


def odd_number(rng, digits):
    return 1 << digits - 1 | rng.getrandbits(digits - 1) | 1


def halfway(rng, count):
    """Three neighbours whose last differs from the others by odd numbers with a product of 33 digits, or with one just below a power of two."""
    digits, k = rng.randint(4, 15), rng.randint(17, 29)
    less, more = rng.choice(((odd_number(rng, digits), odd_number(rng, 33 - digits)), (odd_number(rng, digits), odd_number(rng, 34 - digits)),
                             ((1 << k) - 1, (1 << k) + 1)))
    before, start = rng.randint(0, max(count - 3, 0)), rng.choice((16, rng.randrange(16, LOW)))
    three = [start, start + more - less, start + more][:count]
    return chosen(rng, range(1, start), before) + three + chosen(rng, range(start + more + 1, HIGH), count - before - len(three))


DRAWS = (small, small, cluster, cluster, consecutive, near_powers, near_powers, equally_spaced, anywhere, anywhere, anywhere,
         all_scales, all_scales, far_apart, two_clusters, two_clusters, halfway, halfway)


def rising(rng, count=None):
    """Stamps that are taken; of more than eight, 17 at most, only the count is wrong."""
    return rng.choice(DRAWS)(rng, count or rng.choices(range(1, MOST_STAMPS + 1), SIZE_WEIGHTS)[0])


def replaced(stamps, i, stamp):
    return stamps[:i] + [stamp] + stamps[i + 1:]


def exchanged(stamps, i):
    """The one at i and the one before it exchanged."""
    return stamps[:i - 1] + [stamps[i], stamps[i - 1]] + stamps[i + 1:]


def zero(rng, stamps, i):
    return replaced(stamps, rng.choice((0, i)), 0)


def equal(rng, stamps, i):
    """Equal neighbours."""
    return replaced(stamps, i, stamps[i - 1]) if i else stamps[:1] + stamps[:1] + stamps[2:]


def falling(rng, stamps, i):
    """Two neighbours exchanged, all in reverse, or a last one that is too small."""
    if len(stamps) == 1:
        return stamps + [rng.randint(1, stamps[0])]
    return rng.choice((exchanged(stamps, max(i, 1)), exchanged(stamps, max(i, 1)), stamps[::-1], stamps[:-1] + [rng.randint(1, stamps[-2])]))


def large(rng, stamps, i):
    """The last one over the limit."""
    return stamps[:-1] + [rng.choice(LARGE + (rng.randrange(HIGH, MOST_STAMP),))]


def lifted(rng, stamps, i):
    """One, or all from one on, over the limit by something that is gone when cut to 32 bits, now and then when cut to 63."""
    more = rng.choice((1, 1, LOW, 1 << rng.randrange(32), rng.randrange(1, HIGH), LAST)) * HIGH
    return rng.choice((replaced(stamps, i, stamps[i] + more), stamps[:i] + [stamp + more for stamp in stamps[i:]]))


def miscounted(rng, stamps, i):
    """None, or more than eight, at least the first eight of them right."""
    more, eight = rising(rng, rng.choice((9, 9, 10, 12, 15, 16, 16))), rising(rng, MOST_STAMPS)
    return rng.choice(([], [], more, more, more, eight + eight[:1], eight + eight, eight + [0], eight + [HIGH]))


SPOILERS = (zero, equal, equal, falling, falling, large, large, lifted, lifted, lifted, miscounted, miscounted)


def spoiled(rng):
    stamps = rising(rng)
    return rng.choice(SPOILERS)(rng, stamps, rng.randrange(len(stamps)))


def unread(rng):
    """One too many, or one that is no whole number of 64 bits: just above the largest, right when cut, with a sign or a letter, an empty word."""
    stamps = rising(rng)
    i = rng.randrange(len(stamps))
    stamp = stamps[i]
    other = rng.choice((*BEYOND, stamp + MOST_STAMP + 1, f"-{stamp}", f"+{stamp}", f"{stamp}.", f"{stamp},", f"{stamp}a", f"a{stamp}", "-", "x"))
    return rng.choice((rising(rng, 17), stamps[:i] + [""] + stamps[i:], stamps + [""], *[replaced(stamps, i, other)] * 5))


def each_fault(rng):
    """For each count the first stamp zero and the last one wrong, of eight each one; then each of eight over the limit by 2^32; then the wrong counts."""
    for count in range(1, MOST_STAMPS + 1):
        stamps = rising(rng, count)
        yield replaced(stamps, 0, 0)
        yield from (replaced(stamps, count - 1, stamp) for stamp in (HIGH, HIGH + stamps[-1], LOW * HIGH + stamps[-1], MOST_STAMP))
        for i in range(1 if count == MOST_STAMPS else max(count - 1, 1), count):
            yield from (replaced(stamps, i, stamps[i - 1]), exchanged(stamps, i), replaced(stamps, i, 0))
    stamps = rising(rng, MOST_STAMPS)
    for i in range(MOST_STAMPS):
        yield from (replaced(stamps, i, stamps[i] + HIGH), stamps[:i] + [stamp + HIGH for stamp in stamps[i:]])
    yield from ([], stamps + stamps[:1], stamps + stamps, *(rising(rng, count) for count in range(9, 17)))


def lone_faults():
    """The faults that each_fault gives alone, as stamp_faults names them."""
    for i in range(1, MOST_STAMPS + 1):
        yield from (f"large at {i}", *(f"{name} at {i}" for name in ("equal", "falling") if i > 1))
    yield from ("zero at 1", *(f"{count} stamps" for count in (0, *range(9, 17))))
