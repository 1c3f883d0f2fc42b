"""What requests show of banded places, document 02, (e). banded_cases: of one request; unbanded: what a list of requests ought to show and doesn't."""
from banded import breakable
from console_model import Console, parse
from encoding import Refusal, encode, read_matrix
from model import GOOD
from number import ZERO
from patterns import reached
from words import Walker, chosen, chosen_rows, interval, latest, operation_word, word

WORDS = ("product", "inverse", "converse", "submatrix", "schur")
SIDES = ("below", "above")


def leaps(kind, sources, sets):
    """The sides of the diagonal where a set R is not the rows just before its own."""
    n = sources[0].n
    rows, columns, joined = chosen_rows(kind, n, *sets)
    walker = Walker(operation_word(kind, sources), n)

    def below(r, c):
        return walker.minor(joined | chosen(r, rows), joined | chosen(c, columns))

    for side, minor in zip(SIDES, (below, lambda r, c: below(c, r))):
        if any(latest(minor, ZERO, i, j) != interval(i - j + 1, i - 1) for i in range(2, len(rows) + 1) for j in range(1, i)):
            yield side


def cases_of_operation(call, held, words, result):
    """What an accepted operation shows."""
    if ZERO in result.factors:
        yield f"{call} with a zero new factor"
    if any(ZERO in source.factors for source in held):
        yield f"{call} of banded places, {held[0].n} rows"
        if result.n > 1 and ZERO not in result.factors:
            yield f"{call} of banded places, full"
    if call in WORDS:
        sets = words[1:-1] if call in GOOD else ()
        yield from (f"{call}, a set R that leaps, {side}" for side in leaps(call, held, sets))


def factor_length(data):
    """The bytes of the first factor: one for zero, else two group numbers."""
    return 1 + [k for k, byte in enumerate(data) if byte < 128][data[0] > 0]


def place_at(data, offset):
    """Row and column of the factor that begins at an offset; all before it are well formed."""
    position, number = 1, 0
    while position < offset:
        position, number = position + factor_length(data[position:]), number + 1
    return 1 + number // data[0], 1 + number % data[0]


def banded_cases(shelf, before, call, words, answer):
    """What a request shows; `before` holds the places as they were."""
    if answer.startswith("refused 16"):
        yield "16 at row %d, column %d" % place_at(words[1], int(answer.split(" ")[3]))
    if answer.startswith("refused 6 "):
        yield "6 at row %d, column %d" % place_at(words[1], int(answer.split(" ")[3]))
    if call == "rest":
        yield from cases_of_bundle(words[0])
    source = before[words[0]] if call in ("minor", "carry", "write", "submatrix") and words[0] < 8 else None
    if source is not None and ZERO in source.factors:
        yield from cases_of_reading(source, call, words, answer)
    if answer.startswith("bound") and call not in ("build", "recipe"):
        held = [before[place] for place in words[:2 if call == "product" else 1]]
        yield from cases_of_operation(call, held, words, shelf.places[words[-1]])


def cases_of_bundle(data):
    try:
        read_matrix(data)
    except Refusal as fault:
        if fault.number == 16:
            yield "bundle broken by 16"


def cases_of_reading(source, call, words, answer):
    if call == "submatrix" and answer.startswith("refused 17"):
        yield f"17 with {min(3, words[1].bit_count())} rows"
        seen = all(ZERO != Walker(word(source), source.n).minor(1 << i, 1 << j) for i in range(8) if words[1] >> i & 1 for j in range(8) if words[2] >> j & 1)
        yield "17 with no zero among the entries" if seen else "17 with a zero among the entries"
    if call == "minor" and answer.startswith("number"):
        yield "zero minor" if answer == "number 0 0" else "minor of a banded place"
        assert (answer == "number 0 0") == (words[1] not in reached(word(source), source.n, words[2]))
    if call == "carry" and answer.startswith("carried"):
        yield f"carry through a banded place, {source.n} rows"
    if call == "write":
        yield f"write of a banded place, {words[1] - len(encode(source))} over"


def every_banded_case():
    yield from (f"16 at row {i}, column {j}" for i, j in breakable(8))
    yield from (f"6 at row {i}, column {i}" for i in range(1, 9))
    for call in WORDS + ("transpose",):
        yield f"{call} with a zero new factor"
        yield from (f"{call} of banded places, {n} rows" for n in range(2, 9))
    # A matrix without zero factors has no zero minor, nor have its inverse and its converse.
    yield from (f"{call} of banded places, full" for call in ("product", "submatrix", "schur"))
    yield from (f"{call}, a set R that leaps, {side}" for call in WORDS for side in SIDES)
    yield from (f"17 with {count} rows" for count in (1, 2, 3))
    yield from ("17 with no zero among the entries", "17 with a zero among the entries", "zero minor", "minor of a banded place", "bundle broken by 16")
    yield from (f"carry through a banded place, {n} rows" for n in range(2, 9))
    yield from (f"write of a banded place, {more} over" for more in (-1, 0))


def unbanded(asked):
    """The cases that no request shows."""
    console, met = Console(), set()
    for line in asked:
        request, before = parse(line), list(console.shelf.places)
        answer = console.answer(line)
        if request:
            met.update(banded_cases(console.shelf, before, *request, answer))
    return [case for case in every_banded_case() if case not in met]
