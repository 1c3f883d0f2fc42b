"""Scenarios about bytes: loads with faults, bundles. Each takes a requests.Stream and gives a few lines."""
from banded import any_matrix, breakable, broken
from console_model import text_of_bytes
from encoding import encode, rest
from sources import faulty

SMALL_WEIGHTS = (30, 30, 20, 10, 4, 2, 2, 2)


def spoiled(rng, source):
    """Bytes with a fault: of form or value, or a factor that breaks the pattern, then maybe both."""
    if source.n > 2 and rng.random() < 0.4:
        source = broken(rng, source, *rng.choice(breakable(source.n)))
        if rng.random() < 0.6:
            return encode(source)
    return faulty(rng, source)


def byte_faults(stream):
    yield from stream.make_room()
    for _ in range(stream.rng.randint(1, 6)):
        source = any_matrix(stream.rng, stream.rng.choices(range(1, 9), SMALL_WEIGHTS)[0])
        yield from stream.bytes_judged(spoiled(stream.rng, source))


def load_anywhere(stream):
    """Loads that may meet a place above 7 or one that is full before a fault in the bytes."""
    source = any_matrix(stream.rng, stream.rng.choice((1, 2, 3)))
    data = spoiled(stream.rng, source) if stream.rng.random() < 0.6 else encode(source)
    yield f"load {stream.any_place()} {text_of_bytes(data)}"


def random_bytes(stream):
    yield from stream.make_room()
    rng = stream.rng
    data = bytes(rng.choice((rng.randrange(256), rng.randrange(10), 0, 128, 202, 7)) for _ in range(rng.randrange(24)))
    yield from stream.bytes_judged(data)


def bundle(stream):
    """A few matrices one behind the other, taken apart; the last may have a fault."""
    rng = stream.rng
    parts = [encode(any_matrix(rng, stream.size())) for _ in range(rng.randint(1, 3))]
    data = b"".join(parts) + (spoiled(rng, any_matrix(rng, rng.choice((2, 2, 3)))) if rng.random() < 0.5 else b"")
    while len(data) < 2000:
        yield f"rest {text_of_bytes(data)}"
        behind = rest(data)
        if len(behind) == len(data):
            return
        data = behind
