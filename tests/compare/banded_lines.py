"""Scenarios about banded places, document 02, (e). Each takes a requests.Stream and gives a few lines."""
from banded import any_matrix, any_sets, banded
from console_model import text_of_items
from encoding import encode
from list_lines import counted_carry
from model import ONE_SOURCE
from sources import listed


def operations(stream):
    """A banded source, beside another for a product; what comes out is taken on."""
    rng = stream.rng
    yield from stream.make_room(4)
    n = stream.size()
    yield from stream.put(banded(rng, n))
    place = stream.last
    yield from stream.put(any_matrix(rng, n))
    for _ in range(rng.randint(1, 3)):
        yield from stream.make_room(kept=place)
        target = rng.choice(stream.free())
        yield stream.operation(rng.choice(("product", "product", "submatrix") + ONE_SOURCE), place, target)
        if stream.shelf.places[target] is None:
            return
        place = target


def readings(stream):
    """Minors, lists, lengths of a banded place, and submatrices that are singular or not."""
    rng = stream.rng
    yield from stream.make_room(2)
    yield from stream.put(banded(rng, stream.size()))
    place, source = stream.last, stream.shelf.places[stream.last]
    for _ in range(rng.randint(2, 5)):
        rows, columns = any_sets(rng, source)
        lent = len(encode(source)) + rng.choice((-1, 0, 1))
        target = rng.choice(stream.free() or [place])
        yield from rng.choice((
            [f"minor {place} {rows} {columns}"], [f"submatrix {place} {rows} {columns} {target}"], [f"write {place} {lent}"],
            [f"carry {place} {source.n} {text_of_items(listed(rng, source))}"], counted_carry(stream, place)))
