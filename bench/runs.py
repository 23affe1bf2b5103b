"""Runs of the program bkd and of others, and the points and queries that they read: what the scripts here share."""
import os
import subprocess
import sys
import tempfile
import time

HERE = os.path.dirname(os.path.abspath(__file__))
PROGRAM = os.environ.get("BKD", os.path.join(HERE, "..", "crates", "bkd", "out", "bkd"))
COUNT = 1_000_000
QUERIES = 20_000
COMPARED = 2_000
HALF = 500
NEAREST = 10


class Run:
    """A run of a program: its wall time in seconds, its processor time, its status and what it wrote."""

    def __init__(self, words, source=None, keep=False):
        with tempfile.TemporaryFile() as kept, open(source or os.devnull, "rb") as text:
            begun = time.perf_counter()
            child = subprocess.Popen(words, stdin=text, stdout=kept if keep else subprocess.DEVNULL,
                                     stderr=subprocess.PIPE)
            said = child.stderr.read()
            _, status, used = os.wait4(child.pid, 0)
            self.wall = time.perf_counter() - begun
            child.returncode = os.waitstatus_to_exitcode(status)
            self.status = child.returncode
            self.processor = used.ru_utime + used.ru_stime
            self.said = said.decode()
            kept.seek(0)
            self.text = kept.read().decode() if keep else ""

    def done(self):
        if self.status != 0:
            sys.exit("status %d: %s" % (self.status, self.said))
        return self


def bkd(folder, *words, source=None, keep=False):
    return Run([PROGRAM, folder, *words], source, keep)


def best(run, times=5):
    """The run of the least wall time; `run` is called for each."""
    return min((run().done() for _ in range(times)), key=lambda it: it.wall)


class Draws:
    """The points that `bkd generate` draws."""

    def __init__(self, seed):
        self.x = seed

    def coordinate(self):
        self.x = 48271 * self.x % 2147483647
        return self.x % 200_001 - 100_000

    def point(self):
        x = self.coordinate()
        return x, self.coordinate()

    def points(self, count):
        return [self.point() for _ in range(count)]


def write(path, lines):
    with open(path, "w") as file:
        file.write("\n".join(lines) + "\n")
    return path


class Data:
    """The points and queries in a folder that goes at the end, in the form that each program reads."""

    def __init__(self, count):
        self.temporary = tempfile.TemporaryDirectory(prefix="bkd-bench-")
        self.folder = self.temporary.name
        self.count = count
        self.points = Draws(1).points(count)
        self.centres = Draws(7).points(QUERIES)

    def path(self, name):
        return os.path.join(self.folder, name)

    def empty(self, name):
        """An empty folder of this name."""
        path = self.path(name)
        subprocess.run(["rm", "-rf", path], check=True)
        os.mkdir(path)
        return path

    def csv(self, count=None):
        count = count or self.count
        points = self.points if count <= self.count else self.points * -(-count // self.count)
        return write(self.path("points.csv"), ["x,y"] + ["%d,%d" % p for p in points[:count]])

    def boxes(self, count=QUERIES):
        return [(x - HALF, y - HALF, x + HALF, y + HALF) for x, y in self.centres[:count]]

    def box_lines(self, count=QUERIES, rounds=1):
        return write(self.path("boxes"), ["box %d %d %d %d" % b for b in self.boxes(count)] * rounds)

    def near_lines(self, count=QUERIES, rounds=1):
        return write(self.path("near"),
                     ["nearest %d %d %d" % (NEAREST, x, y) for x, y in self.centres[:count]] * rounds)

    def merged(self):
        """A folder with all points in one segment."""
        folder = self.path("merged")
        if not os.path.exists(folder):
            self.empty("merged")
            bkd(folder, "load", "--columns", "x,y", source=self.csv()).done()
            bkd(folder, "run", source=write(self.path("merge"), ["merge"])).done()
        return folder


def milliseconds(seconds):
    return "%8.1f ms" % (seconds * 1000)


def in_order(text):
    """The answers to boxes with the numbers of each in order."""
    answers, count = [], 0
    for line in text.splitlines():
        if line.startswith("hits "):
            answers.append([])
        else:
            answers[-1].append(int(line))
    return [sorted(numbers) for numbers in answers]


def compare(ours, theirs):
    if ours != theirs:
        at = next((i for i, (a, b) in enumerate(zip(ours, theirs)) if a != b), "the length")
        sys.exit("the answers differ at %s" % at)


KEPT = ("--cache", "65536")


def each_line(data, write_lines, folder=None, options=KEPT):
    """The time of a line, on kept pages of one segment if nothing else is said: what two further rounds of the same
    lines take more."""
    folder = folder or data.merged()
    once = best(lambda: bkd(folder, "run", *options, source=write_lines(rounds=1)))
    thrice = best(lambda: bkd(folder, "run", *options, source=write_lines(rounds=3)))
    return (thrice.wall - once.wall) / (2 * QUERIES)


def distances(text):
    """The distances of each answer to a query for the nearest, in order; of equally near ones another may be found."""
    return [line if line.startswith("near ") else line.split()[1] for line in text.splitlines()]
