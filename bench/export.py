#!/usr/bin/env python3
"""Times `export` of a million points of two dimensions, beside `check` and SQLite's CSV of an R*Tree.

usage: bench/export.py [COUNT]

bkd      `export` over the points in one segment and over the segments that `load` leaves; `check` of the same, which
         reads and digests the same pages; and `info`
SQLite   `select` of all rows of an R*Tree of the same points by number, in `.mode csv` (Debian's sqlite3)

The least of five runs is told, by the clock and of the processor. What is exported is compared with what was loaded,
and SQLite's rows with it. SQLite is left out where it isn't there. BKD names the program.
"""
import os
import shutil
import sys

from peers import rtree
from runs import COUNT, Data, Run, best, bkd, compare, milliseconds, write

SELECT = "select id, cast(x0 as integer), cast(y0 as integer) from points order by id;"


def loaded(data):
    """A folder with the segments that loading makes."""
    folder = data.empty("loaded")
    bkd(folder, "load", "--columns", "x,y", source=data.csv()).done()
    return folder


def show(name, run, size=None):
    rate = "" if size is None else ", %5.0f MB/s" % (size / run.wall / 1e6)
    print("  %-28s %s, processor %s%s" % (name, milliseconds(run.wall), milliseconds(run.processor), rate))


def main():
    data = Data(int(sys.argv[1]) if len(sys.argv) > 1 else COUNT)
    wanted = ["doc,c1,c2"] + ["%d,%d,%d" % (i, x, y) for i, (x, y) in enumerate(data.points)]
    size = sum(map(len, wanted)) + len(wanted)
    print("export: %d points, %.1f MB of CSV" % (data.count, size / 1e6))
    for name, folder in {"one segment": data.merged(), "as loaded": loaded(data)}.items():
        compare(bkd(folder, "export", keep=True).done().text.splitlines(), wanted)
        show("export, " + name, best(lambda folder=folder: bkd(folder, "export")), size)
        show("check, " + name, best(lambda folder=folder: bkd(folder, "check")))
        show("info, " + name, best(lambda folder=folder: bkd(folder, "info")))
    if shutil.which("sqlite3"):
        rtree(data).done()
        asked = write(data.path("all.sql"), [".mode csv", SELECT])
        words = ["sqlite3", "-batch", os.path.join(data.path("base"), "points")]
        compare(Run(words, asked, True).done().text.splitlines(), wanted[1:])
        show("SQLite, .mode csv", best(lambda: Run(words, asked)), size)


if __name__ == "__main__":
    main()
