#!/usr/bin/env python3
"""Times the program bkd from outside, which has to be built (rt run in crates/bkd), and prints ratios of one run.

usage: bench/program.py add|window|lines|loaded|tree|dead|open|load|memory|sqlite|lucene|limits|all [COUNT]

add      a script adds COUNT documents (a million where it is left out) of two dimensions, and merges them
window   a script that deletes a document with each that it adds, so that 16,000 wait in the buffer: the newest, one in
         the middle, the oldest; and a script that deletes them all by a box whenever they are so many
lines    small boxes and queries for the ten nearest over those documents, on pages that are kept, a line
loaded   the same queries over the segments that loading leaves, with the pages that are kept where nothing is said, and
         with all pages kept
tree     the same queries, and boxes that hold 10 to 100,000 documents, beside a plain k-d tree in flat arrays
         (bench/tree.rs, which wants rustc): the same lines in, the same text out, which is compared
dead     the ten nearest where a box took 99 % of the documents out and none was merged since, to points in that box,
         beside the same tree over the points that are left; the distances are compared
open     a run without a line over them
load     the same points loaded from a CSV file, for several levels of forks
memory   what loading takes at most beside its input
sqlite   the same points and boxes in SQLite's R*Tree (Debian's sqlite3), the answers compared
lucene   the same points and queries in Apache Lucene 8 (Debian's liblucene8-java and a JDK), the answers compared;
         LUCENE names the folder of its jars where it is not /usr/share/java
limits   inputs of 536,870,912 bytes and of one more: not timed, only what is answered
BKD names the program where it is not crates/bkd/out/bkd.
"""
import glob
import os
import subprocess
import sys

from peers import lucene, sqlite
from runs import (COMPARED, COUNT, HALF, HERE, KEPT, NEAREST, PROGRAM, QUERIES, Data, Run, best, bkd, compare,
                  distances, each_line, milliseconds, write)

LIMIT = 536_870_912


def add(data):
    adds = ["create 2"] + ["add %d %d" % p for p in data.points]
    plain, merging = write(data.path("adds"), adds), write(data.path("adds_merge"), adds + ["merge"])
    print("add: a script adds %d documents of two dimensions, one point each; answers go nowhere" % data.count)
    alone = None
    for forks in ("0", "1", "2"):
        spent = best(lambda: bkd(data.empty("added"), "run", "--forks", forks, source=plain), 3)
        both = best(lambda: bkd(data.empty("added"), "run", "--forks", forks, source=merging), 3)
        alone = alone or spent.wall
        print("  forks %s added and committed %s, processor %s, ratio %4.2f; with merge %s" % (
            forks, milliseconds(spent.wall), milliseconds(spent.processor), spent.wall / alone,
            milliseconds(both.wall)))


HELD = 16_000


def window(data):
    print("window: a script adds %d documents, none of which leaves the buffer but by a deletion" % data.count)
    least = None
    for name, back in (("the newest", 0), ("one in the middle", HELD // 2), ("the oldest", HELD)):
        lines = ["create 2"]
        for number, point in enumerate(data.points):
            lines.append("add %d %d" % point)
            if number >= HELD:
                lines.append("delete %d" % (number - back))
        source = write(data.path("window"), lines)
        spent = best(lambda: bkd(data.empty("window_folder"), "run", source=source), 3)
        least = least or spent.wall
        print("  %-18s %s, ratio %5.2f" % (name, milliseconds(spent.wall), spent.wall / least))
    low, high = (f(c for point in data.points for c in point) for f in (min, max))
    lines = ["create 2"]
    for number, point in enumerate(data.points, 1):
        lines.append("add %d %d" % point)
        if number % HELD == 0:
            lines.append("delete box %d %d %d %d" % (low, low, high, high))
    source = write(data.path("window"), lines)
    spent = best(lambda: bkd(data.empty("window_folder"), "run", source=source), 3)
    print("  all by a box        %s, ratio %5.2f" % (milliseconds(spent.wall), spent.wall / least))


def lines(data):
    print("lines: over %d documents in one segment, pages kept; reading the line and writing its answer counted in"
          % data.count)
    print("  a box of a width of %d  %7.2f us" % (2 * HALF, each_line(data, data.box_lines) * 1e6))
    print("  the %d nearest          %7.2f us" % (NEAREST, each_line(data, data.near_lines) * 1e6))


def loaded(data):
    folder = data.empty("as_loaded")
    bkd(folder, "load", "--columns", "x,y", source=data.csv()).done()
    segments = len(glob.glob(os.path.join(folder, "seg-*")))
    print("loaded: over %d documents as loading leaves them, in %d segments; a line" % (data.count, segments))
    for name, options in (("1,024 pages kept", ()), ("all pages kept  ", KEPT)):
        print("  %s: a box of a width of %d %7.2f us, the %d nearest %7.2f us" % (
            name, 2 * HALF, each_line(data, data.box_lines, folder, options) * 1e6, NEAREST,
            each_line(data, data.near_lines, folder, options) * 1e6))


def box_of(data, wanted):
    """Half the width of the boxes that hold so many documents in the middle."""
    return max(1, round(200_001 * (wanted / data.count) ** 0.5 / 2))


def tree(data):
    """Each kind of query: what a line takes here and in the plain tree, in one run,
    as the difference of three rounds and one."""
    plain, points = plain_tree(data), write(data.path("plain_points"), ["%d %d" % p for p in data.points])
    folder = data.merged()
    print("tree: over %d documents in one segment, pages kept, beside a plain tree; a line, its answer written"
          % data.count)

    def boxes(half):
        return lambda x, y: "box %d %d %d %d" % (x - half, y - half, x + half, y + half)

    kinds = [("the %d nearest  " % NEAREST, QUERIES, nearest_line)]
    for wanted in (10, 1_000, 100_000):
        kinds.append(("a box of %6d" % wanted, max(50, min(QUERIES, 2_000_000 // wanted)), boxes(box_of(data, wanted))))
    for name, count, ask in kinds:
        asked = [ask(x, y) for x, y in data.centres[:count]]
        beside(data, name, asked, [PROGRAM, folder, "run", "--cache", "65536"], [plain, points], lambda text: text)


def plain_tree(data):
    plain = data.path("plain")
    if not os.path.exists(plain):
        subprocess.run(["rustc", "-O", "-o", plain, os.path.join(HERE, "tree.rs")], check=True)
    return plain


def nearest_line(x, y):
    return "nearest %d %d %d" % (NEAREST, x, y)


def beside(data, name, asked, ours, theirs, seen):
    """What a line takes of both programs, as the difference of three rounds and one; `seen` is what is compared."""
    def each(words):
        sources = [write(data.path("asked_%d" % rounds), asked * rounds) for rounds in (1, 3)]
        spent = [best(lambda: Run(words, source), 3).processor for source in sources]
        return (spent[1] - spent[0]) / (2 * len(asked))

    few = write(data.path("asked"), asked[:COMPARED])
    compare(seen(Run(ours, few, True).done().text), seen(Run(theirs, few, True).done().text))
    mine, least = each(ours), each(theirs)
    print("  %s: bkd %9.2f us, the tree %9.2f us, ratio %5.2f" % (name, mine * 1e6, least * 1e6, mine / least))


def dead(data):
    plain, side, edge = plain_tree(data), round(100_000 * 0.99 ** 0.5), round(200_000 * 0.99) - 100_000
    print("dead: the %d nearest over %d documents in one segment, 99 %% of which a box took out, to points in that box"
          % (NEAREST, data.count))
    for name, box in (("a box in the middle    ", (-side, -side, side, side)),
                      ("a box but for one side ", (-100_000, -100_000, edge, 100_000))):
        def is_inside(p):
            return box[0] <= p[0] <= box[2] and box[1] <= p[1] <= box[3]

        folder = data.empty("dead")
        subprocess.run("cp %s/* %s" % (data.merged(), folder), shell=True, check=True)
        bkd(folder, "run", source=write(data.path("delete"), ["delete box %d %d %d %d" % box])).done()
        live = write(data.path("live_points"), ["%d %d" % p for p in data.points if not is_inside(p)])
        asked = [nearest_line(*p) for p in data.centres if is_inside(p)][:QUERIES // 100]
        beside(data, name, asked, [PROGRAM, folder, "run", "--cache", "65536"], [plain, live], distances)


def opening(data):
    folder = data.merged()
    none = best(lambda: bkd(data.empty("none"), "run"), 20)
    opened = best(lambda: bkd(folder, "run"), 20)
    size = sum(os.path.getsize(f) for f in glob.glob(os.path.join(folder, "*")))
    print("open: a run without a line over %d documents in one segment, %d bytes of files" % (data.count, size))
    print("  an empty folder %s" % milliseconds(none.wall))
    print("  the index       %s" % milliseconds(opened.wall))


def load(data):
    source = data.csv()
    print("load: %d records of two columns, %d bytes" % (data.count, os.path.getsize(source)))
    for forks in ("0", "1", "2", "3"):
        run = best(lambda: bkd(data.empty("loaded"), "load", "--columns", "x,y", "--forks", forks, source=source))
        print("  forks %s %s, processor %s" % (forks, milliseconds(run.wall), milliseconds(run.processor)))


# a process started by a large one counts that one's memory as its own, so a small one starts it
STARTER = """
import resource, subprocess, sys
with open(sys.argv[1], "rb") as text:
    status = subprocess.run(sys.argv[2:], stdin=text, stdout=subprocess.DEVNULL).returncode
print(resource.getrusage(resource.RUSAGE_CHILDREN).ru_maxrss * 1024)
sys.exit(status)
"""


def memory(data):
    print("memory: the greatest resident memory of loading, its input taken off")
    for count in (data.count, 2 * data.count, 4 * data.count):
        source = data.csv(count)
        words = [PROGRAM, data.empty("loaded"), "load", "--columns", "x,y"]
        run = Run([sys.executable, "-c", STARTER, source, *words], keep=True).done()
        beside = int(run.text) - os.path.getsize(source)
        print("  %9d points %7.1f MB, %5.1f bytes a point" % (count, beside / 1e6, beside / count))


def limits(data):
    print("limits: what is answered to inputs that are as long as they may be, and longer")
    path = data.path("long")
    for size, wanted in ((LIMIT, {"run": 2, "explain": 2, "load": 2}),
                         (LIMIT + 1, {"run": 8, "explain": 8, "load": 8})):
        with open(path, "wb") as file:
            file.truncate(size)
        for command, status in wanted.items():
            folder = data.empty("limits")
            words = [command, "--columns", "a"] if command == "load" else [command]
            run = bkd(folder, *words, source=path, keep=True)
            told = run.text.splitlines()[0] if run.text else ""
            print("  %d bytes, %-7s status %d %s%s" % (size, command, run.status, told, run.said.strip()))
            if run.status != status or os.listdir(folder):
                sys.exit("wanted status %d and an empty folder" % status)


KINDS = {"add": add, "window": window, "lines": lines, "loaded": loaded, "tree": tree, "dead": dead, "open": opening,
         "load": load, "memory": memory, "sqlite": sqlite, "lucene": lucene, "limits": limits}


if __name__ == "__main__":
    if len(sys.argv) not in (2, 3) or sys.argv[1] not in [*KINDS, "all"]:
        sys.exit(__doc__)
    if not os.path.exists(PROGRAM):
        sys.exit("no program %s: rt run in crates/bkd" % PROGRAM)
    data = Data(int(sys.argv[2]) if len(sys.argv) == 3 else COUNT)
    for kind in KINDS if sys.argv[1] == "all" else [sys.argv[1]]:
        KINDS[kind](data)
        sys.stdout.flush()
