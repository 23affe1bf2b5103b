#!/usr/bin/env python3
"""Times the program bkd over ever more points, and over ever more dimensions; prints the tables of docs/SCALE.md.

usage: bench/scale.py points | dimensions | all [GREATEST]

points      10,000 points of two dimensions, ten times as many each time, up to GREATEST (16,000,000 if left out)
dimensions  a million points (GREATEST where it is less) of 1, 2, 3, 4 and 8 dimensions

Each table has the time of loading them from a CSV file, what the files take, the time of opening them merged into one
segment, of a line for the ten nearest, of boxes that hold about 10 and 1,000 documents, on pages that are kept, and of
`check`. BKD names the program where it is not crates/bkd/out/bkd.
"""
import glob
import os
import random
import subprocess
import sys
import tempfile

from runs import NEAREST, PROGRAM, bkd, best, write

SPAN = 100_000_000
LIMIT = 16_000_000
LINES = 4_000
NAMES = "abcdefgh"


class Points:
    """Drawn points in a CSV file that grows: those of a smaller count are the first of a greater one."""

    def __init__(self, folder, dimensions):
        self.path, self.dimensions = os.path.join(folder, "points.csv"), dimensions
        self.columns = ",".join(NAMES[:dimensions])
        self.draws, self.count = random.Random(1), 0
        with open(self.path, "w") as file:
            file.write(self.columns + "\n")

    def draw(self):
        return [int(self.draws.random() * SPAN) for _ in range(self.dimensions)]

    def grow(self, count):
        with open(self.path, "a") as file:
            while self.count < count:
                some = min(100_000, count - self.count)
                file.write("\n".join(",".join(map(str, self.draw())) for _ in range(some)) + "\n")
                self.count += some


def emptied(path):
    subprocess.run(["rm", "-rf", path], check=True)
    os.mkdir(path)
    return path


def each_line(folder, lines):
    """The processor time of a line on kept pages: what two further rounds of the same lines take more."""
    once, thrice = (best(lambda: bkd(folder, "run", "--cache", "65536",
                                     source=write(folder + ".lines", lines * rounds)), 3) for rounds in (1, 3))
    return (thrice.processor - once.processor) / (2 * len(lines))


def boxes(points, centres, wanted):
    half = SPAN * (wanted / points.count) ** (1 / points.dimensions) / 2
    ends = ([(int(x - half), int(x + half)) for x in centre] for centre in centres)
    return ["box " + " ".join("%d" % low for low, _ in box) + "".join(" %d" % high for _, high in box) for box in ends]


def time_of(seconds):
    for unit, factor in (("µs", 1e6), ("ms", 1e3)):
        if seconds * factor < 1000:
            return "%.3g %s" % (seconds * factor, unit)
    return "%.3g s" % seconds


def row(first, points, folder):
    """A row of a table: what these points cost."""
    times = 3 if points.count <= 1_000_000 else 1
    loaded = best(lambda: bkd(emptied(folder), "load", "--columns", points.columns, source=points.path), times)
    bkd(folder, "run", source=write(folder + ".lines", ["merge"])).done()
    size = sum(os.path.getsize(name) for name in glob.glob(os.path.join(folder, "*")))
    opened = best(lambda: bkd(folder, "run"), 10)
    draws = random.Random(7)
    centres = [[int(draws.random() * SPAN) for _ in range(points.dimensions)] for _ in range(LINES)]
    near = ["nearest %d %s" % (NEAREST, " ".join(map(str, centre))) for centre in centres]
    checked = best(lambda: bkd(folder, "check"), times)
    queries = [near, boxes(points, centres, 10), boxes(points, centres[:LINES // 10], 1_000)]
    cells = [first, time_of(loaded.wall), "%.1f" % (size / points.count), time_of(opened.wall),
             *(time_of(each_line(folder, lines)) for lines in queries), time_of(checked.wall)]
    print("| %s |" % " | ".join(cells))
    sys.stdout.flush()


def table(first):
    print("\n| %s | Loading | Bytes a point | Opening | The ten nearest | A box of 10 | A box of 1,000 | `check` |"
          % first)
    print("|---" * 8 + "|")


def more_points(folder, greatest):
    table("Points")
    points, count = Points(folder, 2), 10_000
    while points.count < greatest:
        points.grow(min(count, greatest))
        row("{:,}".format(points.count), points, os.path.join(folder, "index"))
        count *= 10


def more_dimensions(folder, greatest):
    table("Dimensions")
    for dimensions in (1, 2, 3, 4, 8):
        points = Points(folder, dimensions)
        points.grow(min(1_000_000, greatest))
        row(str(dimensions), points, os.path.join(folder, "index"))


KINDS = {"points": more_points, "dimensions": more_dimensions}


if __name__ == "__main__":
    if len(sys.argv) not in (2, 3) or sys.argv[1] not in [*KINDS, "all"]:
        sys.exit(__doc__)
    if not os.path.exists(PROGRAM):
        sys.exit("no program %s: rt run in crates/bkd" % PROGRAM)
    with tempfile.TemporaryDirectory(prefix="bkd-bench-") as temporary:
        for kind in KINDS if sys.argv[1] == "all" else [sys.argv[1]]:
            KINDS[kind](temporary, int(sys.argv[2]) if len(sys.argv) == 3 else LIMIT)
