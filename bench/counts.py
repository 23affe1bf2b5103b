#!/usr/bin/env python3
"""Times counts and grids beside the line of the same box, over a million drawn points in one segment, with kept pages.

usage: bench/counts.py [--points COUNT]

A line is timed by what a run of some more such lines takes of the processor more than a run of one, the least of three,
so starting and opening are not in it. The counts are compared with the hits of the boxes: a document has one point.

Beside the counts stand SQLite's R*Tree, asked for `count(*)` of the same boxes (Debian's sqlite3), and a flat scan over
an array of the points (bench/scan.rs, by rustc -O); beside the grids, what the scan takes to put each point into its
bucket of a flat array. Where one isn't installed it is left out. All counts are compared.
"""
import argparse
import os
import shutil
import subprocess

from peers import rtree
from runs import COUNT, HERE, Data, Run, bkd, compare, write

# half the side of a square, and how many lines of each kind are timed
SQUARES = ((500, 2000, 2000), (31_623, 500, 100), (100_000, 500, 20))
GRIDS = ((8, 20), (64, 20))


class Timed:
    def __init__(self, count):
        self.data = Data(count)
        self.folder = self.data.merged()

    def run(self, command, line, times, keep=False):
        source = write(self.data.path("lines"), [line] * times)
        return bkd(self.folder, command, "--cache", "65536", source=source, keep=keep).done()

    def line(self, command, line, times):
        """The processor seconds of one line."""
        once, more = (min(self.run(command, line, n).processor for _ in range(3)) for n in (1, 1 + times))
        return (more - once) / times

    def answer(self, command, line):
        return self.run(command, line, 1, keep=True).text


class Peers:
    """SQLite and the flat scan over the same points, with what each takes for one question."""

    def __init__(self, data):
        self.data = data
        self.scan = data.path("scan") if shutil.which("rustc") else None
        if self.scan:
            subprocess.run(["rustc", "-O", "-o", self.scan, os.path.join(HERE, "scan.rs")], check=True)
        self.base = data.path("base/points") if shutil.which("sqlite3") else None
        if self.base:
            rtree(data).done()

    def scanned(self, kind, size, times, wanted):
        """The seconds that the scan takes for one question: `size` is half a square's side, or the buckets of one."""
        if not self.scan:
            return None
        once, more = (self.run_scan(kind, size, n, wanted) for n in (1, 1 + times))
        return (more - once) / times

    def run_scan(self, kind, size, times, wanted):
        words = [self.scan, kind, str(self.data.count), str(times), str(size)]
        runs = [Run(words, keep=True).done() for _ in range(3)]
        compare(runs[0].text.split()[1], str(wanted * times))
        return min(run.processor for run in runs)

    def counted(self, half, times, wanted):
        """The seconds that SQLite takes for the count of one square."""
        if not self.base:
            return None
        inside = f"x0 >= {-half} and x1 <= {half} and y0 >= {-half} and y1 <= {half}"
        asked = f"select count(*) from points where {inside};"
        once, more = (self.run_sqlite([asked] * n, wanted) for n in (1, 1 + times))
        return (more - once) / times

    def run_sqlite(self, lines, wanted):
        asked = write(self.data.path("count.sql"), lines)
        runs = [Run(["sqlite3", "-batch", self.base], asked, True).done() for _ in range(3)]
        compare(runs[0].text.split()[0], str(wanted))
        return min(run.processor for run in runs)


def told(seconds):
    if seconds is None:
        return "not installed"
    return f"{seconds * 1e6:,.0f} µs" if seconds < 1e-3 else f"{seconds * 1e3:,.1f} ms"


def main():
    parser = argparse.ArgumentParser(description=__doc__, formatter_class=argparse.RawDescriptionHelpFormatter)
    parser.add_argument("--points", type=int, default=COUNT)
    timed = Timed(parser.parse_args().points)
    peers = Peers(timed.data)
    print("| Asked | Points | A line | The line of its box | Box to it | SQLite R*Tree | Flat scan |")
    print("|---|---|---|---|---|---|---|", flush=True)
    for half, counts, boxes in SQUARES:
        ends = f"{-half} {-half} {half} {half}"
        hits = timed.answer("run", f"box {ends}").split("\n", 1)[0]
        compare(timed.answer("count", f"points {ends}").strip(), hits.replace("hits", "points"))
        count, box = timed.line("count", f"points {ends}", counts), timed.line("run", f"box {ends}", boxes)
        found = int(hits.split()[1])
        beside = [peers.counted(half, 2000 if found < 100 else 20, found), peers.scanned("count", half, 200, found)]
        show("a count", found, count, box, *beside)
    for side, times in GRIDS:
        step = -(-200_001 // side)
        line = f"grid 0 {step} 1 {step} -100000 -100000 100000 100000"
        buckets = timed.answer("count", line).split("\n")[1:-1]
        filled = sum(int(row.split()[2]) for row in buckets)
        grid, box = timed.line("count", line, times), timed.line("run", "box -100000 -100000 100000 100000", times)
        show(f"a grid of {len(buckets):,} buckets", filled, grid, box, "none", peers.scanned("grid", side, 100, filled))


def show(name, points, line, box, sqlite, scan):
    ratio = "" if line <= 0 else f"{box / line:,.1f}"
    base = sqlite if isinstance(sqlite, str) else told(sqlite)
    print(f"| {name} | {points:,} | {told(line)} | {told(box)} | {ratio} | {base} | {told(scan)} |", flush=True)


if __name__ == "__main__":
    main()
