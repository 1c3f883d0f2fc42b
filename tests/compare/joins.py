#!/usr/bin/env python3
"""joins.py [SEED]: five random spans joined by four products and by one recipe; how far both are from the exact product, in unit roundings.

For each number of rows: how many joins, the largest error of any factor and the mean of the joins' largest errors, by calls and by the recipe, and the
recipe's bound. By the model alone: the console is held to it by `run`.
"""
import random
import sys

from exact import exact_parts, units
from words import Matrix, bound, operate

SPANS = 5
JOINS = {2: 400, 4: 200, 6: 60, 8: 20}
RECIPE = ("plain",) * SPANS


def spans(rng, n):
    """Values from about 1/2 to 4, every mantissa alike."""
    return [Matrix(n, tuple((rng.randrange(2 ** 31, 2 ** 32), rng.randrange(-32, -29)) for _ in range(n * n))) for _ in range(SPANS)]


def by_calls(sources):
    joined = sources[0]
    for source in sources[1:]:
        joined = operate("product", [joined, source])
    return joined


def largest(result, parts):
    return max(abs(units(number, exact)) for number, exact in zip(result.factors, parts))


def main():
    seed = int(sys.argv[1]) if sys.argv[1:] else 1
    print("rows joins  calls: largest mean  recipe: largest mean  bound")
    for n, joins in JOINS.items():
        rng, calls, recipe = random.Random(f"joins {seed} {n}"), [], []
        for _ in range(joins):
            sources = spans(rng, n)
            parts = exact_parts(RECIPE, sources)
            calls.append(largest(by_calls(sources), parts))
            recipe.append(largest(operate(RECIPE, sources), parts))
        worst = f"{max(calls):14.1f} {sum(calls) / joins:4.1f} {max(recipe):16.1f} {sum(recipe) / joins:4.1f}"
        print(f"{n:4} {joins:5} {worst} {bound(RECIPE, n):6}")


if __name__ == "__main__":
    main()
