#!/usr/bin/python3
"""Draws docs/error-bound.svg and docs/error-bound.png from measured.csv: bounds and largest errors seen, by rows and operation.

Needs matplotlib (package python3-matplotlib).
"""
import math
import os

import matplotlib

matplotlib.use("Agg")
import matplotlib.pyplot as plt  # noqa: E402

from measure import read_table  # noqa: E402

HERE = os.path.dirname(os.path.abspath(__file__))
DOCS = os.path.join(os.path.dirname(os.path.dirname(HERE)), "docs")
UNIT = 2.0 ** -32
LOWEST, HIGHEST = 0.7, 2000
DARK, GREY = "#222222", "#666666"
# operation: colour, mark, name
SEEN = {"product": ("#0072b2", "o", "product"), "inverse": ("#d55e00", "s", "re-signed inverse"),
        "converse": ("#009e73", "^", "converse"), "submatrix": ("#b05090", "D", "submatrix")}
# the bounds' curves: style, name, where its figures stand beside it, in points
BOUNDS = {"product": ("-", "bound,\nproduct", (-5, 6)), "inverse": ("--", "bound,\none source", (3, -15))}
# labels at the curves' ends are at least this factor apart
APART = 1.36


def draw_bounds(axes, rows):
    for operation, (style, name, aside) in BOUNDS.items():
        points = [(row.n, row.bound) for row in rows if row.operation == operation]
        axes.plot(*zip(*points), style, color=DARK, linewidth=1.8)
        for n, bound in points:
            axes.annotate(str(bound), (n, bound), aside, textcoords="offset points", ha="center", fontsize=9, color=DARK)
        axes.annotate(name, points[-1], (16, 2), textcoords="offset points", va="center", fontsize=10, color=DARK)


def spread(ends):
    """The heights of the labels: in the order of the curves' ends, APART from each other, and as a whole as high as these."""
    heights, last = {}, 0
    for operation, end in sorted(ends.items(), key=lambda item: item[1]):
        heights[operation] = last = max(end, last * APART)
    shift = math.prod(heights[operation] / end for operation, end in ends.items()) ** (1 / len(ends))
    return {operation: height / shift for operation, height in heights.items()}


def draw_seen(axes, rows):
    """Where nothing was rounded there is no point: one row has an exact converse and submatrix."""
    ends = {}
    for operation, (colour, mark, _) in SEEN.items():
        points = [(row.n, row.largest) for row in rows if row.operation == operation and row.largest > 0]
        axes.plot(*zip(*points), mark + "-", color=colour, linewidth=1.5, markersize=5)
        ends[operation] = points[-1][1]
    for operation, height in spread(ends).items():
        colour, _, name = SEEN[operation]
        axes.annotate("seen, " + name, (8, ends[operation]), (8.45, height), va="center", fontsize=10, color=colour,
                      arrowprops={"arrowstyle": "-", "color": colour, "linewidth": 0.6, "relpos": (0, 0.5), "shrinkA": 1, "shrinkB": 4})


def draw_axes(axes):
    axes.set_yscale("log")
    axes.set_xlim(0.6, 10.7)
    axes.set_ylim(LOWEST, HIGHEST)
    axes.set_xticks(range(1, 9))
    axes.set_yticks([1, 2, 5, 10, 20, 50, 100, 200, 500, 1000])
    axes.yaxis.set_major_formatter("{x:g}")
    axes.minorticks_off()
    axes.grid(True, color="#e4e4e4")
    axes.set_axisbelow(True)
    axes.set_xlabel("rows of the source", x=0.42, fontsize=11)
    axes.set_ylabel("unit roundings (a unit is a factor 1 − 2⁻³²)", fontsize=11)
    right = axes.secondary_yaxis("right", functions=(lambda units: units * UNIT, lambda error: error / UNIT))
    right.set_ylabel("relative error (units × 2⁻³²)", fontsize=11)


def main():
    rows = read_table(os.path.join(HERE, "measured.csv"))
    cases = {row.cases for row in rows}
    assert len(cases) == 1, "measured.csv has unequal numbers of cases"
    plt.rcParams.update({"svg.fonttype": "path", "svg.hashsalt": "error-bound", "font.family": "DejaVu Sans"})
    figure, axes = plt.subplots(figsize=(9.6, 6.2))
    draw_axes(axes)
    draw_bounds(axes, rows)
    draw_seen(axes, rows)
    axes.set_title("How far a rounded factor is from the exact one: proved bound and largest seen", fontsize=12, pad=12)
    figure.text(0.02, 0.015, f"Each point is the largest error in {cases.pop()} accepted operations; half of them start from the worst sources seen so far.\n"
                "With one row converse and submatrix are exact and have no point.", fontsize=9, color=GREY)
    figure.tight_layout(rect=(0, 0.06, 1, 1))
    figure.savefig(os.path.join(DOCS, "error-bound.svg"), metadata={"Date": None})
    figure.savefig(os.path.join(DOCS, "error-bound.png"), dpi=120, metadata={"Software": None})


if __name__ == "__main__":
    main()
