#!/usr/bin/env python3
"""Draws the tables of docs/BENCHMARKS.md and docs/PARTS.md as bars into docs/images/benchmarks.png, and those of
docs/SCALE.md as curves into docs/images/scale.png; wants matplotlib.

usage: bench/plots.py [FOLDER]     where the two images go, if not there

Each table is a panel. Of bars each row is a group, one bar for each column that has times; where they differ much the
scale is in powers of ten. Of curves each column that has times is one, over the numbers of the first column.
"""
import os
import re
import sys

from matplotlib.figure import Figure

HERE = os.path.dirname(os.path.abspath(__file__))
DOCS = os.path.join(HERE, "..", "docs")
UNITS = {"ns": 1e-9, "µs": 1e-6, "ms": 1e-3, "s": 1.0}
TIME = re.compile(r"([0-9][0-9,.]*) (ns|µs|ms|s)\b")
FAR = 30
COLOURS = ["#27509b", "#d17b0f", "#2a7f4f", "#8e44ad"]


def seconds(cell):
    """The first time that a cell tells, or None."""
    found = TIME.search(cell)
    return float(found[1].replace(",", "")) * UNITS[found[2]] if found else None


def tables(text):
    """Each table as (heading, names of columns, rows of cells)."""
    heading, rows = "", []
    for line in [*text.splitlines(), ""]:
        if line.startswith("|"):
            rows.append([cell.strip() for cell in line.strip("|").split("|")])
            continue
        if len(rows) > 2:
            yield heading, rows[0], rows[2:]
        rows = []
        if line.startswith("## "):
            heading = line[3:]


def timed(names, rows):
    """The columns that have times, each as (name, times by row), and the rows' names."""
    columns = [(names[at], [seconds(row[at]) if at < len(row) else None for row in rows])
               for at in range(1, len(names))]
    return [row[0].replace("`", "") for row in rows], [(name or "time", times) for name, times in columns if any(times)]


def panel(axes, heading, names, columns):
    height = 0.8 / len(columns)
    for at, (name, times) in enumerate(columns):
        places = [row + at * height for row, time in enumerate(times) if time]
        axes.barh(places, [time for time in times if time], height=height * 0.9, label=name,
                  color=COLOURS[at % len(COLOURS)])
    drawn = [time for _, times in columns for time in times if time]
    if max(drawn) > FAR * min(drawn):
        axes.set_xscale("log")
        axes.set_xlim(left=min(drawn) / 3)
    axes.set_yticks([row + 0.4 - height / 2 for row in range(len(names))],
                    [name if len(name) < 60 else name[:57] + ".." for name in names])
    axes.invert_yaxis()
    axes.set_title(heading, loc="left", fontsize=10)
    axes.set_xlabel("seconds", fontsize=8)
    axes.tick_params(labelsize=8)
    if len(columns) > 1:
        axes.legend(fontsize=7, frameon=False)
    for side in ("top", "right"):
        axes.spines[side].set_visible(False)


def curves(axes, heading, first, numbers, columns):
    for at, (name, times) in enumerate(columns):
        axes.plot(numbers, times, marker="o", label=name.replace("`", ""), linestyle="-" if at < 4 else "--",
                  color=COLOURS[at % len(COLOURS)])
    axes.set_yscale("log")
    if max(numbers) > FAR * min(numbers):
        axes.set_xscale("log")
    else:
        axes.set_xticks(numbers)
    axes.set_title(heading, loc="left", fontsize=10)
    axes.set_xlabel(first, fontsize=8)
    axes.set_ylabel("seconds", fontsize=8)
    axes.tick_params(labelsize=8)
    axes.legend(fontsize=7, frameon=False, loc="center left", bbox_to_anchor=(1, 0.5))
    for side in ("top", "right"):
        axes.spines[side].set_visible(False)


def found_in(page):
    """The tables of a page that have times, as (heading, name of the first column, its cells, columns of times)."""
    with open(os.path.join(DOCS, page)) as file:
        found = [(heading, names[0], *timed(names, rows)) for heading, names, rows in tables(file.read())]
    found = [one for one in found if one[3]]
    return found or sys.exit("no tables with times in docs/%s" % page)


def draw_bars(path):
    found = found_in("BENCHMARKS.md") + found_in("PARTS.md")
    heights = [0.9 + 0.28 * len(names) * max(1, len(columns) * 0.7) for _, _, names, columns in found]
    figure = Figure(figsize=(10, sum(heights)), layout="constrained")
    for axes, one in zip(figure.subplots(len(found), height_ratios=heights, squeeze=False)[:, 0], found):
        heading, _, names, columns = one
        panel(axes, heading, names, columns)
    figure.savefig(path, dpi=110)


def draw_curves(path):
    found = found_in("SCALE.md")
    figure = Figure(figsize=(10, 3.6 * len(found)), layout="constrained")
    for axes, (heading, first, names, columns) in zip(figure.subplots(len(found), squeeze=False)[:, 0], found):
        curves(axes, heading, first, [int(name.replace(",", "")) for name in names], columns)
    figure.savefig(path, dpi=110)


def main(folder):
    os.makedirs(folder, exist_ok=True)
    draw_bars(os.path.join(folder, "benchmarks.png"))
    draw_curves(os.path.join(folder, "scale.png"))


if __name__ == "__main__":
    if len(sys.argv) > 2 or sys.argv[1:] in (["-h"], ["--help"]):
        sys.exit(__doc__)
    main(sys.argv[1] if len(sys.argv) == 2 else os.path.join(DOCS, "images"))
