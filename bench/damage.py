#!/usr/bin/env python3
"""Changes each byte of small folders, one at a time, and compares what the program and a second reader make of it.

usage: bench/damage.py [--folder flat|wide] [--sample N] [--workers N]

Two folders with two segments, deletions and documents of several points: `flat` of two dimensions, whose files have
three pages at most, and `wide` of eight, in which an index, leaves and live bits fill two pages each. A byte of a page
is changed in one drawn way, first plainly and then with the page sealed anew, so that its digest is right again; a
byte that isn't in the zeros at a payload's end is sealed with each of its bits changed too. Over each changed folder

- `check` and bkd.formats, a reader in Python from docs/FORMATS.md and docs/DAMAGE.md alone, say the same line;
- where it is `ok`, a run of queries answers as a scan over the documents that the reader finds;
- else the run ends Damaged, or answers as before the change. Behind a new seal it may answer as a scan over the live
  entries of the leaves, since it looks at no more than its queries need: such runs are counted apart;
- neither changes a file.

Status 1 where one of these fails. --sample takes so many drawn changes of each folder. BKD names the program where it
is not crates/bkd/out/bkd.
"""
import argparse
import collections
import concurrent.futures
import itertools
import os
import random
import subprocess
import sys
import tempfile

HERE = os.path.dirname(os.path.abspath(__file__))
sys.path.insert(0, os.path.join(HERE, "..", "clients", "python"))

from bkd import Damaged  # noqa: E402
from bkd.damage import Damage  # noqa: E402
from bkd.formats import open_stored  # noqa: E402
from bkd.formats.pages import COMMIT, LIVE, PAGE, PAYLOAD, SEGMENT, FileName, digest  # noqa: E402

PROGRAM = [os.environ.get("BKD", os.path.join(HERE, "..", "crates", "bkd", "out", "bkd"))]
PLAIN, SEALED = "plainly", "sealed anew"
SHOWN = 5

Change = collections.namedtuple("Change", "file at bits how")


def run(words, text=""):
    """Status, answers and the last line of standard error."""
    done = subprocess.run(words, input=text.encode(), capture_output=True, check=False)
    said = done.stderr.decode().strip().splitlines()
    return done.returncode, done.stdout.decode(), said[-1] if said else ""


def drawn_lines(draw, count, dims, most):
    """Lines that add documents of 1 to `most` points, whose coordinates are of several sizes."""
    for _ in range(count):
        wide = (draw.choice((3, 6, 12, 30)) for _ in range(dims * draw.randint(1, most)))
        yield "add " + " ".join(str(draw.randint(-(1 << w), 1 << w)) for w in wide)


def flat():
    """Segments of 30 and 17 documents in two dimensions, leaves of three."""
    draw = random.Random(1)
    lines = ["create 2 leaf 3", *drawn_lines(draw, 30, 2, 3), "flush", *drawn_lines(draw, 17, 2, 2)]
    return [*lines, "delete 4", "flush", "delete 33", "commit"]


def wide():
    """A segment with two pages of live bits, two of index and two of leaves, and a small one."""
    draw = random.Random(2)
    far = "1000000 " * 8
    lines = ["create 8 leaf 2", *drawn_lines(draw, 40, 8, 2), *["add " + far] * 32_300, "delete box " + far * 2]
    lines += [*drawn_lines(draw, 40, 8, 2), "flush", "merge", "delete 7", *drawn_lines(draw, 9, 8, 3), "flush"]
    return [*lines, "delete 32341", "commit"]


FOLDERS = {"flat": (2, flat), "wide": (8, wide)}


class Queries:
    """Lines that look at all points and at few, and what a scan over documents answers to them."""

    def __init__(self, dims):
        every = ((-(1 << 31),) * dims, ((1 << 31) - 1,) * dims)
        self.boxes = [every, ((0,) * dims, every[1]), ((-70,) * dims, (70,) * dims)]
        self.nearest = [(10_000, (0,) * dims), (3, (-50,) * dims), (2, (5000,) * dims)]
        lines = ["box " + " ".join(map(str, low + high)) for low, high in self.boxes]
        lines += [f"nearest {k} " + " ".join(map(str, at)) for k, at in self.nearest]
        self.text = "".join(line + "\n" for line in lines)

    def scan(self, documents):
        """The answers over a dict of points by number."""
        out = []
        for low, high in self.boxes:
            hits = [n for n, points in sorted(documents.items()) if any(is_in(p, low, high) for p in points)]
            out += [f"hits {len(hits)}", *map(str, hits)]
        for k, at in self.nearest:
            near = sorted((min(distance(p, at) for p in points), n) for n, points in documents.items())[:k]
            out += [f"near {len(near)}", *(f"{n} {d}" for d, n in near)]
        return "".join(line + "\n" for line in out)


def is_in(point, low, high):
    return all(a <= c <= b for a, c, b in zip(low, point, high))


def distance(p, q):
    return sum((a - b) ** 2 for a, b in zip(p, q))


def read(folder):
    """What the second reader says, and the live entries that it finds as documents (None where it can't read them)."""
    documents = None
    try:
        stored = open_stored(folder)
        said = "ok dims {0.dims} leaf {0.leaf} next {0.next} live {1} segments {2}".format(
            stored.commit, sum(one.live for one in stored.commit.listed), len(stored.parts))
        try:
            stored.check()
        except Damaged as error:
            said = f"damaged: {error.damage}"
        documents = collections.defaultdict(list)
        for _, leaf, places in stored.entries():
            for i in places:
                documents[leaf.numbers[i]].append(tuple(column[i] for column in leaf.columns))
    except Damaged as error:
        return f"damaged: {error.damage}", None
    return said, documents


def name_of(file):
    """The place that the digests of a file name."""
    if file.startswith("commit"):
        return FileName(file, COMMIT, 0)
    return FileName(file, SEGMENT if file.startswith("seg") else LIVE, int(file.split("-")[1][:16], 16))


def bytes_of(folder):
    """The files of a folder by name."""
    found = {}
    for name in sorted(os.listdir(folder)):
        with open(os.path.join(folder, name), "rb") as file:
            found[name] = file.read()
    return found


def changes(files):
    """Each change of one byte, in an order that doesn't depend on the machine."""
    draw = random.Random(3)
    for file, data in files.items():
        for at in range(len(data)):
            yield Change(file, at, draw.randint(1, 255), PLAIN)
        for page in range(len(data) // PAGE):
            held = len(data[page * PAGE:page * PAGE + PAYLOAD].rstrip(b"\0"))
            for at in range(PAYLOAD):
                ways = {draw.randint(1, 255)} | {1 << bit for bit in range(8) if at < held}
                for bits in sorted(ways):
                    yield Change(file, page * PAGE + at, bits, SEALED)


def changed(data, change):
    """The bytes of the file with this change."""
    data = bytearray(data)
    data[change.at] ^= change.bits
    if change.how == SEALED:
        page = change.at // PAGE
        begin, end = page * PAGE, page * PAGE + PAYLOAD
        data[end:end + 32] = digest(name_of(change.file), page, bytes(data[begin:end]))
    return bytes(data)


class Table:
    """A folder's changes: `wrong` has what must not be, `counts` what came out."""

    def __init__(self, program, name):
        dims, lines = FOLDERS[name]
        self.program = program
        self.queries = Queries(dims)
        memory = "/dev/shm" if os.path.isdir("/dev/shm") else None
        self.room = tempfile.TemporaryDirectory(prefix="bkd-damage-", dir=memory)
        self.folder = self.room.name
        status, _, said = run([*program, self.folder, "run"], "".join(line + "\n" for line in lines()))
        if status != 0:
            raise RuntimeError(f"the folder wasn't made: {said}")
        self.files = bytes_of(self.folder)
        self.whole = run([*program, self.folder, "run"], self.queries.text)
        self.wrong = []
        self.counts = collections.Counter()

    def changes(self, count=None):
        every = changes(self.files)
        return list(every) if count is None else sorted(random.Random(4).sample(list(every), count))

    def try_whole(self):
        """The folder as it was written."""
        said, documents = read(self.folder)
        self._compare(said, run([*self.program, self.folder, "check"]), "unchanged")
        if self.whole != (0, self.queries.scan(documents), ""):
            self.wrong.append(f"unchanged: the run answers {self.whole}")

    def try_change(self, change):
        data = changed(self.files[change.file], change)
        path = os.path.join(self.folder, change.file)
        with open(path, "wb") as file:
            file.write(data)
        where = f"{change.file} byte {change.at} xor {change.bits} {change.how}"
        said, documents = read(self.folder)
        self._compare(said, run([*self.program, self.folder, "check"]), where)
        self.counts[change.how, kind_of(said), self._answered(change, said, documents, where)] += 1
        if bytes_of(self.folder) != self.files | {change.file: data}:
            self.wrong.append(f"{where}: files were changed")
        with open(path, "wb") as file:
            file.write(self.files[change.file])

    def _compare(self, said, checked, where):
        wanted = (6, "", said) if said.startswith("damaged: ") else (0, said + "\n", "")
        if checked != wanted:
            self.wrong.append(f"{where}: the reader says {said}, check {checked}")

    def _answered(self, change, said, documents, where):
        """How a run of the queries ended."""
        status, text, last = answered = run([*self.program, self.folder, "run"], self.queries.text)
        if said.startswith("ok"):
            if answered != (0, self.queries.scan(documents), ""):
                self.wrong.append(f"{where}: the folder is ok, and the run answers {answered}")
            return "as a scan"
        if status == 6 and Damage.read(last.removeprefix("damaged: ")):
            return "Damaged"
        if answered == self.whole:
            return "as before"
        if status == 0 and change.how == SEALED and documents is not None and text == self.queries.scan(documents):
            return "as a scan"
        self.wrong.append(f"{where}: {said}, and the run answers {answered}")
        return "otherwise"


def kind_of(said):
    damage = Damage.read(said.removeprefix("damaged: "))
    return damage.kind if damage else "ok"


def part(program, name, count, place, parts):
    """One of some parts of a folder's changes."""
    table = Table(program, name)
    if place == 0:
        table.try_whole()
    for change in itertools.islice(table.changes(count), place, None, parts):
        table.try_change(change)
    return table.counts, table.wrong


def show(name, counts, wrong):
    print(f"{name}: {sum(counts.values())} changes, {len(wrong)} wrong")
    for (how, kind, answer), count in sorted(counts.items()):
        print(f"  {how:12} check: {kind:8} run: {answer:10} {count:7}")
    for line in wrong[:SHOWN]:
        print(f"  wrong: {line}")
    sys.stdout.flush()


def main():
    words = argparse.ArgumentParser(description="Changes each byte of small folders, one at a time.")
    words.add_argument("--folder", choices=FOLDERS)
    words.add_argument("--sample", type=int)
    words.add_argument("--workers", type=int, default=os.cpu_count())
    asked = words.parse_args()
    good = True
    with concurrent.futures.ProcessPoolExecutor(asked.workers) as pool:
        parts = 8 * asked.workers
        for name in [asked.folder] if asked.folder else FOLDERS:
            counts, wrong = collections.Counter(), []
            begun = [pool.submit(part, PROGRAM, name, asked.sample, place, parts) for place in range(parts)]
            for done in begun:
                some, faults = done.result()
                counts += some
                wrong += faults
            show(name, counts, wrong)
            good = good and not wrong
    return 0 if good else 1


if __name__ == "__main__":
    sys.exit(main())
