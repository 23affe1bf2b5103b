#!/usr/bin/env python3
"""Times polygons through the program bkd from outside, over a million drawn points, and prints a line for each shape.

usage: bench/polygons.py [--processor] [--points COUNT] [--only WORD]

A line is timed by what a run of some more such lines takes more than a run of one, so starting and opening are not in
it; reading the line and writing its answer are. Beside each shape stand

- the text: the same line over an index without documents, which is read and made ready, and finds nothing;
- the line of the box round the shape;
- GEOS's prepared polygon (Debian's libgeos-dev, by bench/geos.c), which tests the same points one by one: what making
  it ready and testing took, without reading, the numbers of the points that are in compared with bkd's.

What takes longer than LIMIT seconds is told as that. With --processor times are of the processor, not of the clock,
for a machine that does other work; with --only shapes are timed whose names have the word. BKD names the program where
it is not crates/bkd/out/bkd.
"""
import argparse
import json
import math
import os
import random
import subprocess
import sys
import tempfile

from runs import COUNT, HERE, PROGRAM, Draws, Run, bkd, compare, in_order, write

WIDTH = 100_000
LIMIT = 300
# so long a difference of two runs has to be, in seconds, and so many lines it may take
LONG, MOST = 0.4, 1000
# and so many bytes: a run takes an input of 512 MiB at most
LARGEST = 256 << 20


def square(x, y, side):
    return [[x, y], [x + side, y], [x + side, y + side], [x, y + side], [x, y]]


def squares(count, drawn):
    """Squares on a lattice over the whole plane, row by row or in a drawn order."""
    per_row = math.isqrt(count - 1) + 1
    step = 2 * WIDTH // per_row
    corners = [(-WIDTH + step * (i % per_row), -WIDTH + step * (i // per_row)) for i in range(count)]
    rings = [square(x, y, step * 2 // 3) for x, y in corners]
    if drawn:
        random.Random(5).shuffle(rings)
    return rings


def drawn_ring(count):
    """A ring of drawn positions, whose edges all cross."""
    ring = [list(p) for p in Draws(11).points(count)]
    return [ring + ring[:1]]


def smooth_ring(count, radius):
    angles = [2 * math.pi * i / count for i in range(count)]
    ring = [[round(radius * math.cos(a)), round(radius * math.sin(a))] for a in angles]
    return [ring + ring[:1]]


def shapes():
    yield "8,000 squares, row by row", squares(8_000, drawn=False)
    yield "8,000 squares in drawn order", squares(8_000, drawn=True)
    yield "a smooth ring of 1,000 positions, about 1,000 hits", smooth_ring(1_000, 3_570)
    yield "a smooth ring of 60,000 positions", smooth_ring(60_000, 90_000)
    for count in (100, 1_000, 4_000, 60_000):
        yield f"a drawn ring of {count:,} positions", drawn_ring(count)


def box_of(rings):
    xs = [x for ring in rings for x, _ in ring]
    ys = [y for ring in rings for _, y in ring]
    return "box %d %d %d %d" % (min(xs), min(ys), max(xs), max(ys))


def polygon_of(rings):
    return "polygon " + json.dumps({"type": "Polygon", "coordinates": rings}, separators=(",", ":"))


class Bench:
    """The points in an index of one segment and in a CSV file, beside an index without documents."""

    def __init__(self, room, count, by_processor):
        self.room = room
        self.spent = (lambda run: run.processor) if by_processor else (lambda run: run.wall)
        self.folder, self.empty = self.path("index"), self.path("empty")
        os.mkdir(self.folder)
        os.mkdir(self.empty)
        self.points = write(self.path("points.csv"), ["x,y"] + ["%d,%d" % p for p in Draws(1).points(count)])
        bkd(self.folder, "load", "--columns", "x,y", source=self.points).done()
        bkd(self.folder, "run", source=write(self.path("lines"), ["merge"])).done()
        bkd(self.empty, "run", source=write(self.path("lines"), ["create 2"])).done()
        self.geos = self.make_geos()

    def path(self, name):
        return os.path.join(self.room, name)

    def make_geos(self):
        made = self.path("geos")
        words = ["cc", "-O2", "-o", made, os.path.join(HERE, "geos.c"), "-lgeos_c"]
        if subprocess.run(words, stderr=subprocess.DEVNULL, check=False).returncode == 0:
            return made
        print("GEOS is not here: apt-get install libgeos-dev", file=sys.stderr)
        return None

    def run(self, folder, line, times):
        source = write(self.path("lines"), [line] * times)
        return bkd(folder, "run", "--cache", "65536", source=source).done()

    def best(self, folder, line, times, turns):
        return min(self.spent(self.run(folder, line, times)) for _ in range(turns))

    def line(self, folder, line):
        """The seconds of a line: first roughly, and again by many of them where it is quick."""
        once = self.best(folder, line, 1, 1)
        more = self.spent(self.run(folder, line, 2)) - once
        if more > 5 * LONG:
            return more
        once = min(once, self.best(folder, line, 1, 2))
        times = min(MOST, LARGEST // len(line), math.ceil(LONG / max(more, LONG / MOST)))
        return (self.best(folder, line, 1 + times, 3) - once) / times

    def answer(self, line):
        """What the line answers; None where it takes too long."""
        words = ["timeout", str(LIMIT), PROGRAM, self.folder, "run"]
        run = Run(words, write(self.path("lines"), [line]), keep=True)
        return None if run.status == 124 else run.done().text

    def by_geos(self, rings):
        """GEOS's text, and its seconds: making ready, testing, and of that making a geometry of each point."""
        lines = [text for ring in rings for text in (len(ring), *("%d %d" % (x, y) for x, y in ring))]
        source = write(self.path("rings"), map(str, lines))
        run = Run(["timeout", str(LIMIT), self.geos, self.points, source, "numbers"], keep=True)
        if run.status == 124:
            return None
        return run.done().text, [float(word) for word in run.said.split()[:3]]


def seconds(value):
    return f"{value * 1000:,.2f} ms" if value < 0.01 else f"{value * 1000:,.0f} ms"


def row(bench, name, rings):
    """A line of the table."""
    line = polygon_of(rings)
    theirs = bench.by_geos(rings) if bench.geos else None
    peer = "" if not bench.geos else f"more than {LIMIT} s" if theirs is None else seconds(sum(theirs[1][:2]))
    text = bench.answer(line)
    if text is None:
        return f"| {name} | | more than {LIMIT} s | | | | {peer} |"
    if theirs is not None:
        compare(in_order(text), in_order(theirs[0]))
    hits = int(text.split("\n", 1)[0].split()[1])
    whole, read, box = (bench.line(*one) for one in (
        (bench.folder, line), (bench.empty, line), (bench.folder, box_of(rings))))
    return (f"| {name} | {hits:,} | {seconds(whole)} | {seconds(read)} | {seconds(box)} "
            f"| {(whole - read) / box:.1f} | {peer} |")


def main():
    parser = argparse.ArgumentParser(description=__doc__, formatter_class=argparse.RawDescriptionHelpFormatter)
    parser.add_argument("--processor", action="store_true")
    parser.add_argument("--points", type=int, default=COUNT)
    parser.add_argument("--only", default="")
    words = parser.parse_args()
    with tempfile.TemporaryDirectory(prefix="bkd-polygons-") as room:
        bench = Bench(room, words.points, words.processor)
        print("times of the " + ("processor" if words.processor else "clock"))
        print("| Shape | Hits | A line | Its text | Its box | Without the text, to its box | GEOS |")
        print("|---|---|---|---|---|---|---|", flush=True)
        for name, rings in shapes():
            if words.only in name:
                print(row(bench, name, rings), flush=True)


if __name__ == "__main__":
    main()
