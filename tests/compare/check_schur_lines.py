"""Checks of the requests about what remains after clamped points, document 02, (l): the order of tests, the lines
drawn, the console's lines."""
import random

from banded_cases import unbanded
from checks import check, refused, same
from comparison import batch
from conditions import together, wanted_pairs
from console_model import BAD_REQUEST, Console, doubtful, parse
from encoding import encode
from model import ORDER, Shelf, in_range
from number import LOW
from requests import Stream
from schur_cases import unclamped
from schur_lines import HUGE, ODD_SCHURS, SCHURS, SPELLED, anywhere, clamped, edge, misread, unread
from schur_sweeps import edge_sources, every_schur, ones
from sources import EDGE
from words import operate


@check
def schurs_refused(rng, rounds):
    """1, 11, 12, 8, 14, a forecast 1, 11, 8; 17 is no test of it; a refused request leaves the shelf."""
    same([ORDER[call] for call in ("schur", "forecast schur")], [(1, 11, 12, 8, 14), (1, 11, 8)])
    shelf, large = Shelf(), (LOW, EDGE)
    for place, source in ((0, ones(3)), (1, ones(3, b31=large, b32=large)), (2, ones(1)), (3, ones(8))):
        shelf.load(place, encode(source))
    before = list(shelf.places)
    for place, k, target, wanted, told in (
            (8, 0, 9, 1, 1), (0, 1, 8, 1, 66), (7, 1, 8, 1, 11), (0, 0, 8, 1, 8), (1, 1, 8, 1, 66), (9, 1, 0, 1, 1),
            (7, 1, 0, 11, 11), (7, 0, 7, 11, 11), (7, 99, 6, 11, 11), (0, 0, 0, 12, 8), (0, 3, 1, 12, 8),
            (1, 1, 1, 12, 66), (0, 0, 7, 8, 8), (0, 3, 7, 8, 8), (0, 4, 7, 8, 8), (1, 3, 7, 8, 8), (1, 0, 7, 8, 8),
            (2, 0, 7, 8, 8),
            (2, 1, 7, 8, 8), (2, 2, 7, 8, 8), (3, 8, 7, 8, 8), (3, 9, 7, 8, 8), (3, 256, 7, 8, 8), (1, 1, 7, 14, 66),
            *((0, k, 7, 8, 8) for k in HUGE)):
        same((place, k, target, refused(shelf.schur, place, k, target)), (place, k, target, (wanted, 0)))
        found = refused(shelf.forecast, "schur", place, k)
        same((place, k, found or (shelf.forecast("schur", place, k), 0)), (place, k, (told, 0)))
    same(shelf.places, before)
    # The edge, worked by hand in schur_sweeps: which of the sources give a result that is stored.
    stored_results = [in_range(operate("schur", [source], k)) for source, k in edge_sources()]
    same(stored_results, [False, True, False, True, False, False, False, True, True, True, True])


@check
def schurs_drawn(rng, rounds):
    """Lines that are no requests are none, and are not left open; the swept ones show every case; the scenarios reach
    every refusal."""
    assert not any(map(doubtful, ODD_SCHURS)) and len(set(ODD_SCHURS)) == len(ODD_SCHURS)
    same([line for line in ODD_SCHURS if parse(line) is not None], [])
    assert all(map(parse, SCHURS))
    same([parse(f"schur 0 {text} 7")[1][1] for text in SPELLED], [int(text) for text in SPELLED])
    for _ in range(5 * rounds):
        line = unread(rng)
        assert parse(line) is None and not doubtful(line), line
    asked, _ = batch(lambda shelf: (), 0, lambda shelf: every_schur(Stream(random.Random(rng.random()), shelf)))
    same(unclamped(asked), [])
    same([case for case in unbanded(asked) if case.startswith("schur")], [])
    pairs = together(asked)
    same([pair for pair in wanted_pairs() if pair[0] in ("schur", "forecast schur") and not pairs[pair]], [])

    def scenarios(shelf):
        maker = Stream(random.Random(rng.random()), shelf)
        while True:
            yield from rng.choice((clamped, clamped, edge, anywhere, anywhere, misread))(maker)

    asked, wanted = batch(scenarios, 1000 + 5 * rounds)
    assert not any(map(doubtful, asked))
    met = {answer.split(" ")[1] if answer.startswith("refused") else answer.split(" ")[0]
           for line, answer in zip(asked, wanted) if line.startswith("schur")}
    same({"bound", "bad", "1", "11", "12", "8", "14"} - met, set())


@check
def console_schurs(rng, rounds):
    """Lines and answers, those of the console's description among them."""
    session, one = Console(), "ca0700"
    talk = [("build 3 1 3 7", "bound 11"), ("forecast schur 3 1", "steps 66"), ("schur 3 1 4", "bound 63 steps 66"),
            ("show 4", "matrix 2 2147483648 -30 2147483648 -29 3221225472 -30 3221225472 -27"),
            ("schur 3 2 5", "bound 63 steps 6"), ("show 5", "matrix 1 3221225472 -27"),
            ("schur 4 1 6", "bound 27 steps 2"), ("show 6", "matrix 1 3221225472 -27"),
            ("load 0 03" + one * 9, "loaded"), ("schur 0 01 7", "bound 63 steps 66"),
            ("schur 0 3 3", "refused 12 at 0"),
            ("show 7", "matrix 2 2147483648 -31 2147483648 -30 2147483648 -30 2147483648 -31"), ("drop 7", "dropped"),
            ("schur 0 0 7", "refused 8 at 0"), ("schur 0 3 7", "refused 8 at 0"), ("schur 5 1 7", "refused 8 at 0"),
            ("schur 0 4294967295 7", "refused 8 at 0"), ("schur 1 3 3", "refused 11 at 0"),
            ("schur 1 3 8", "refused 1 at 0"), ("forecast schur 0 3", "refused 8 at 0"), ("show 7", "empty"),
            ("forecast schur 7 0", "refused 11 at 0"), ("forecast schur 8 0", "refused 1 at 0"),
            ("forecast schur 0 002", "steps 6")]
    talk += [(line, BAD_REQUEST) for line in (
        "schur", "schur 0 1", "schur 0 1 7 7", "schur 0 +1 7", "schur 0 -1 7", "schur 0 4294967296 7",
        "schur 0 4294967297 7", "forecast schur 0", "forecast schur 0 1 7", "schur 4294967296 1 7",
        "schur 0 1 4294967303")]
    for line, wanted in talk:
        same((line, session.answer(line)), (line, wanted))
    unsure = ("schur 00 1 7", "schur 0 1 07", "forecast schur +0 1")
    same([doubtful(x) for x in (*unsure, "schur 0 01 7")], [True] * 3 + [False])
