"""Scenarios about lists: carries, reversals, numbers worked. Each takes a requests.Stream and gives a few lines."""
from console_model import text_of_items
from encoding import Refusal
from model import WORKED
from pairs import pair, spoiled
from sources import listed, odd_item, overflowing, random_item, still_or_moving
from words import reversals as count_of_reversals


def carry(stream):
    yield from stream.filled_source()
    rng, place = stream.rng, stream.rng.choice(stream.full())
    source = stream.shelf.places[place]
    for _ in range(rng.randint(1, 4)):
        items = listed(rng, source)
        style = rng.random()
        if style < 0.08:
            items = items[:-1] if rng.random() < 0.5 else items + [random_item(rng)] * rng.randint(1, 16 - len(items))
        elif style < 0.16:
            items[rng.randrange(len(items))] = odd_item(rng)
        elif style < 0.24:
            items = overflowing(rng, source)
        named = place if rng.random() < 0.95 else stream.any_place()
        most = 512 if rng.random() < 0.02 else 16
        yield f"carry {named} {stream.lent(source.n, most)} {text_of_items(items)}"


def no_items(stream):
    yield stream.rng.choice(("reversals", f"carry {stream.any_place()} {stream.rng.randint(0, 9)}"))


def reversals(stream):
    rng = stream.rng
    length = rng.randint(1, 8) if rng.random() < 0.9 else rng.randint(9, 16)
    items = [random_item(rng) for _ in range(length)]
    if rng.random() < 0.2:
        items[rng.randrange(length)] = odd_item(rng)
    yield f"reversals {text_of_items(items)}"


def standstills(stream):
    """Reversals of a list with many zeros."""
    rng = stream.rng
    yield f"reversals {text_of_items([still_or_moving(rng) for _ in range(rng.randint(1, 8))])}"


def counted_carry(stream, place=None):
    """A list carried between two counts of its reversals: there are never more of them afterwards."""
    yield from stream.filled_source()
    rng = stream.rng
    place = rng.choice(stream.full()) if place is None else place
    n = stream.n(place)
    items = listed(rng, stream.shelf.places[place]) if rng.random() < 0.5 else [still_or_moving(rng) for _ in range(n)]
    yield f"reversals {text_of_items(items)}"
    yield f"carry {place} {n} {text_of_items(items)}"
    try:
        carried = stream.shelf.carry(place, items, n)
    except Refusal:
        return
    assert count_of_reversals(carried) <= count_of_reversals(items), f"{carried} from {items}"
    yield f"reversals {text_of_items(carried)}"


def work(stream):
    """Numbers worked, now and then with an item that is refused or with a wrong count of items."""
    rng, kind = stream.rng, stream.rng.choice(WORKED)
    for _ in range(rng.randint(1, 4)):
        items = pair(rng, kind) if rng.random() < 0.8 else spoiled(rng, kind)
        if rng.random() < 0.03:
            items = rng.choice(([], items[:1], items + items[:1], items * 8, items * 8 + items[:1]))
        yield f"{kind} {text_of_items(items)}" if items else kind
