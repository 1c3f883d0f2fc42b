#!/usr/bin/env python3
"""Checks the model by itself: P1 to P12, the program shown in document 01, and random cross-checks.

selftest.py [--rounds N] [--seed S]; exit status 1 if a check fails.
"""
import argparse
import random
import sys

import check_banded  # noqa: F401
import check_directed  # noqa: F401
import check_forecasts  # noqa: F401
import check_marked  # noqa: F401
import check_pattern  # noqa: F401
import check_random  # noqa: F401
import check_recipes  # noqa: F401
import check_schur  # noqa: F401
import check_schur_lines  # noqa: F401
import check_sentences  # noqa: F401
import check_spoilt  # noqa: F401
import check_stamps  # noqa: F401
import check_wrong_recipes  # noqa: F401
import check_wrong_schur  # noqa: F401
from checks import CHECKS


def main():
    options = argparse.ArgumentParser(description=__doc__.splitlines()[0])
    options.add_argument("--rounds", type=int, default=400)
    options.add_argument("--seed", type=int, default=1)
    chosen = options.parse_args()
    failed = 0
    for function in CHECKS:
        try:
            function(random.Random(f"{chosen.seed} {function.__name__}"), chosen.rounds)
            print("ok  ", function.__name__)
        except AssertionError as error:
            failed += 1
            print("FAIL", function.__name__, error)
    print(f"{len(CHECKS) - failed} passed, {failed} failed")
    return 1 if failed else 0


if __name__ == "__main__":
    sys.exit(main())
