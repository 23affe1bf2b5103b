"""The same points and queries in SQLite's R*Tree and in Apache Lucene: what is timed and compared beside bkd."""
import glob
import os
import subprocess
import sys

from runs import (COMPARED, HERE, NEAREST, QUERIES, Run, best, bkd, compare, distances, each_line, in_order,
                  milliseconds, write)


def rtree(data):
    """The run that makes SQLite's R*Tree of the points, in the file `base/points`."""
    rows = write(data.path("rows"), ["%d,%d,%d,%d,%d" % (i, x, x, y, y) for i, (x, y) in enumerate(data.points)])
    made = write(data.path("make.sql"), [
        "create virtual table points using rtree_i32(id, x0, x1, y0, y1);", ".import --csv %s points" % rows])
    return Run(["sqlite3", "-batch", os.path.join(data.empty("base"), "points")], made)


def sqlite(data):
    theirs, base = best(lambda: rtree(data), 2), data.path("base/points")
    ours = best(lambda: bkd(data.empty("loaded"), "load", "--columns", "x,y", source=data.csv()), 3)
    print("sqlite: %d points, %d boxes; SQLite %s"
          % (data.count, QUERIES, Run(["sqlite3", "-version"], keep=True).text.split()[0]))
    print("  loading: bkd load %s, R*Tree by .import %s, ratio %5.1f" % (
        milliseconds(ours.wall), milliseconds(theirs.wall), theirs.wall / ours.wall))

    def queries(count, rounds=1, between=()):
        asked = ["select id from points where x0 >= %d and x1 <= %d and y0 >= %d and y1 <= %d;"
                 % (b[0], b[2], b[1], b[3]) for b in data.boxes(count)]
        texts = ["pragma mmap_size = 1000000000;", "pragma cache_size = -1000000;"]
        return write(data.path("asked.sql"), texts + [line for one in asked for line in (*between, one)] * rounds)

    told = Run(["sqlite3", "-batch", base], queries(COMPARED, between=("select 'hits ';",)), keep=True).done().text
    told = told[told.index("hits "):]
    compare(in_order(bkd(data.merged(), "run", source=data.box_lines(COMPARED), keep=True).done().text), in_order(told))
    once = best(lambda: Run(["sqlite3", "-batch", base], queries(QUERIES)), 3)
    thrice = best(lambda: Run(["sqlite3", "-batch", base], queries(QUERIES, 3)), 3)
    each, mine = (thrice.wall - once.wall) / (2 * QUERIES), each_line(data, data.box_lines)
    print("  a box, read as a line and its numbers written: bkd %.2f us, R*Tree %.2f us, ratio %5.1f; "
          "%d answers compared" % (mine * 1e6, each * 1e6, each / mine, COMPARED))


def jars():
    folder = os.environ.get("LUCENE", "/usr/share/java")
    found = [glob.glob(os.path.join(folder, "lucene-%s-8*.jar" % name)) for name in ("core", "sandbox")]
    if not all(found):
        sys.exit("no lucene-core-8*.jar and lucene-sandbox-8*.jar in %s: apt-get install liblucene8-java" % folder)
    return ":".join(sorted(one)[-1] for one in found)


def java(data, *words, keep=False):
    """A run of a class of Lucene's, or of bench/Lucene.java, which is compiled once."""
    classes, paths, source = data.path("classes"), jars(), os.path.join(HERE, "Lucene.java")
    if not os.path.exists(classes):
        subprocess.run(["javac", "-cp", paths, "-d", data.empty("classes"), source], check=True)
    return Run(["java", "-Xmx2g", "-cp", paths + ":" + classes, *words], keep=keep)


def lucene(data):
    paths, points = jars(), write(data.path("points"), ["%d %d" % p for p in data.points])
    theirs = best(lambda: java(data, "Lucene", "index", points, data.empty("apart"), "apart"), 2)
    ours = best(lambda: bkd(data.empty("loaded"), "load", "--columns", "x,y", source=data.csv()), 3)
    print("lucene: %d points; %s" % (data.count, os.path.basename(paths.split(":")[0])))
    print("  loading, the virtual machine's start counted in: bkd load %s, Lucene %s, ratio %5.1f" % (
        milliseconds(ours.wall), milliseconds(theirs.wall), theirs.wall / ours.wall))
    java(data, "Lucene", "index", points, data.empty("together"), "merge").done()
    boxes = write(data.path("box_queries"), ["%d %d %d %d" % b for b in data.boxes(COMPARED)])
    near = write(data.path("near_queries"), ["%d %d" % p for p in data.centres[:COMPARED]])
    # in the program's own time, after rounds that warm the virtual machine
    boxed = java(data, "Lucene", "boxes", data.path("together"), boxes, "20", keep=True).done()
    nearest = java(data, "Lucene", "near", data.path("together"), near, "20", str(NEAREST), points, keep=True).done()
    compare(in_order(bkd(data.merged(), "run", source=data.box_lines(COMPARED), keep=True).done().text),
            in_order(boxed.text))
    compare(distances(bkd(data.merged(), "run", source=data.near_lines(COMPARED), keep=True).done().text),
            distances(nearest.text))
    for name, run, write_lines in (("a box      ", boxed, data.box_lines), ("the nearest", nearest, data.near_lines)):
        each, mine = float(run.said.split()[-1]) / 1e6, each_line(data, write_lines)
        print("  %s: bkd, read as a line and its answer written, %.2f us; Lucene, warm and without texts, %.2f us, "
              "ratio %5.1f; %d answers compared" % (name, mine * 1e6, each * 1e6, each / mine, COMPARED))
