"""draw.py TABLES PICTURE: draws the tables that bench/times prints. Above, microseconds over n on a logarithmic axis; below, the ratio to branch-free C."""

import sys

import matplotlib

matplotlib.use("Agg")
import matplotlib.pyplot as plt

FORMS = [("plain C", "#888888", "s"), ("branch-free C", "#d98200", "^"), ("proved library", "#0b5fa5", "o")]


def read(path):
    """For each operation its lines: n, the three times, the ratio, the limit."""
    operations, name = {}, ""
    for line in open(path, encoding="utf-8"):
        if line.startswith("### "):
            name = line[4:].strip()
        cells = [cell.strip() for cell in line.strip().strip("|").split("|")]
        if len(cells) == 9 and cells[0].isdigit():
            n, plain, fast, proved, _, ratio, limit = map(float, cells[:7])
            operations.setdefault(name, []).append((int(n), (plain, fast, proved), ratio, limit))
    return operations


def draw_times(axes, name, lines):
    rows = [line[0] for line in lines]
    for form, (label, colour, mark) in enumerate(FORMS):
        times = [line[1][form] for line in lines]
        axes.plot(rows, times, mark + "-", color=colour, label=label, markersize=10 - 2 * form, fillstyle="none" if form == 1 else "full", linewidth=1.8)
    axes.set_yscale("log")
    axes.yaxis.set_major_formatter("{x:g}")
    axes.set_title(name, fontsize=13)
    axes.grid(True, which="major", color="#dddddd")
    axes.set_axisbelow(True)


def draw_ratios(axes, lines):
    rows = [line[0] for line in lines]
    top = 1.25 * max(max(line[2], line[3]) for line in lines)
    axes.bar(rows, [line[2] for line in lines], width=0.9, color=FORMS[2][1])
    for n, _, ratio, limit in lines:
        axes.text(n, max(ratio, limit) + 0.02 * top, f"{ratio:.2f}", ha="center", va="bottom", fontsize=11)
        axes.plot([n - 0.65, n + 0.65], [limit, limit], color="#b00020", linewidth=2, label="limit" if n == rows[0] else None)
    axes.axhline(1, color="black", linewidth=1, linestyle="--", label="1.0: as fast as branch-free C")
    axes.set_ylim(0, top)
    axes.set_xticks(rows)
    axes.set_xlabel("rows n of the matrix", fontsize=11)
    axes.legend(loc="upper right", fontsize=10)


def main(tables, picture):
    operations = read(tables)
    figure, axes = plt.subplots(2, len(operations), figsize=(11, 8), sharex="col", sharey="row", squeeze=False, gridspec_kw={"height_ratios": [3, 2]})
    for column, (name, lines) in enumerate(operations.items()):
        draw_times(axes[0][column], name, lines)
        draw_ratios(axes[1][column], lines)
    axes[0][0].set_ylabel("least processor time of a call, microseconds", fontsize=11)
    axes[1][0].set_ylabel("proved / branch-free", fontsize=11)
    axes[0][0].legend(loc="upper left", fontsize=11)
    figure.tight_layout()
    figure.savefig(picture, dpi=110)


main(*sys.argv[1:3])
