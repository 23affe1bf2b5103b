#!/usr/bin/python3
"""Measures the client beside the program alone; measure_peers.py does it beside others. Prints lines of one run.

usage: measure.py own [COUNT]      opening, one box beside the bare pipe, add_many beside the program, many numbers
       measure.py shards [COUNT]   a million points over folders of a local cluster, and queries: README's table
       measure.py parts [COUNT]    ten million points into eight folders, one after the other, and what each part costs
       measure.py read [COUNT]     a million points read from the files by bkd.formats and exported
Times are by the clock (those of parts are of processors), the least of several spells that take turns. BKD names the
program where it is not the usual one.
"""
import contextlib
import os
import random
import resource
import subprocess
import sys
import tempfile
import time

import numpy

import bkd
from bkd import formats

WORKERS = 4


def drawn(count, seed=1, span=100_000):
    return numpy.random.default_rng(seed).integers(-span, span + 1, size=(count, 2), dtype=numpy.int32)


class Clock:
    """Seconds of the work in a `with`."""

    def __enter__(self):
        self.begun = time.perf_counter()
        return self

    def __exit__(self, *_):
        self.seconds = time.perf_counter() - self.begun


def seconds(work):
    with Clock() as clock:
        work()
    return clock.seconds


# ---- its own

def own(count):
    program = bkd.find()
    with tempfile.TemporaryDirectory() as top:
        opening(program, top)
        one_box(program, top)
        numbers(program, top)
        adding(program, top, count)


def opening(program, top):
    folder = os.path.join(top, "opened")
    bkd.open(folder, create=True, program=program).close()

    def once():
        with bkd.open(folder, program=program):
            pass

    print(f"open and close: {min(seconds(once) for _ in range(20)) * 1e3:.1f} ms")


@contextlib.contextmanager
def bare(program, folder):
    """The program's session over bare pipes."""
    pipe = subprocess.PIPE
    with subprocess.Popen([*program.words, folder, "session"], stdin=pipe, stdout=pipe, bufsize=0) as process:
        yield process.stdin.fileno(), process.stdout.fileno()
        process.kill()


def one_box(program, top):
    """In short spells that take turns, so that both meet the same spells of the machine."""
    folder = os.path.join(top, "boxes")
    with bkd.open(folder, create=True, program=program) as index:
        index.add_many(drawn(100_000, span=1_000_000))
    with bkd.open(folder, program=program, read=True) as index, bare(program, folder) as (into, out):
        draw, spells = random.Random(3), []
        for _ in range(300):
            corners = [(draw.randint(-10**6, 10**6), draw.randint(-10**6, 10**6)) for _ in range(20)]
            boxes = [((x, y), (x + 30_000, y + 30_000)) for x, y in corners]
            lines = [b"box %d %d %d %d\n" % (*low, *high) for low, high in boxes]
            spells.append((seconds(lambda: [(os.write(into, line), os.read(out, 1 << 16)) for line in lines]),
                           seconds(lambda: [index.box(*box) for box in boxes])))
    pipe, ours = (min(spell[i] for spell in spells) / 20 * 1e6 for i in (0, 1))
    print(f"a box with about 22 in it: {ours:.0f} µs; the program over the bare pipe {pipe:.0f} µs, "
          f"ratio {ours / pipe:.2f}")


def numbers(program, top):
    """A box that holds two million documents, as lists and as arrays, beside numpy's reading of the same text."""
    folder = os.path.join(top, "numbers")
    count = 2_000_000
    with bkd.open(folder, create=True, program=program) as index:
        index.add_many(drawn(count))
    text = "".join(f"{i}\n" for i in range(count)).encode()
    alone = min(seconds(lambda: numpy.fromstring(text, dtype=numpy.uint32, sep="\n")) for _ in range(3))
    for arrays in (True, False):
        with bkd.open(folder, program=program, arrays=arrays, read=True) as index:
            taken = min(seconds(lambda: index.box((-200_000,) * 2, (200_000,) * 2)) for _ in range(3))
        print(f"{count:,} numbers as {'an array' if arrays else 'a list'}: {taken:.2f} s "
              f"(numpy reads their text in {alone:.2f} s)")


def adding(program, top, count):
    points = drawn(count)
    script = os.path.join(top, "script")
    with open(script, "w") as file:
        file.write("create 2\n" + "".join("add %d %d\n" % (x, y) for x, y in points.tolist()))
    alone, ours = [], []
    for turn in range(3):
        folder = os.path.join(top, f"alone {turn}")
        os.mkdir(folder)
        with open(script) as source, open(os.path.join(top, "answers"), "w") as sink, Clock() as clock:
            subprocess.run([*program.words, folder, "run"], stdin=source, stdout=sink, check=True)
        alone.append(clock.seconds)
        with Clock() as clock, bkd.open(os.path.join(top, f"ours {turn}"), create=True, program=program) as index:
            assert len(index.add_many(points)) == count
        ours.append(clock.seconds)
    peak = resource.getrusage(resource.RUSAGE_SELF).ru_maxrss / 1024
    print(f"add_many of {count:,} points: {min(ours):.2f} s; the program alone, the same script: {min(alone):.2f} s, "
          f"ratio {min(ours) / min(alone):.2f}; {peak:.0f} MB at most in this process")


def read(count):
    points = drawn(count)
    with tempfile.TemporaryDirectory() as top:
        with bkd.open(top, create=True) as index:
            index.add_many(points)
        with Clock() as opened:
            stored = formats.open_stored(top)
        with Clock() as checked:
            stored.check()
        with Clock() as exported:
            found = sum(1 for _ in bkd.export(top))
        assert found == count
    print(f"read: {count} documents from the files by bkd.formats")
    print(f"  opened {opened.seconds:.2f} s, checked {checked.seconds:.2f} s, exported {exported.seconds:.2f} s")


def shard(count):
    from distributed import Client, LocalCluster

    from bkd import shards
    os.environ["PYTHONPATH"] = os.path.dirname(os.path.abspath(__file__))
    points, program = drawn(count), bkd.find()
    spread = (1, WORKERS, 2 * WORKERS)
    names = ["a session", *(f"{folders} folder{'s' * (folders > 1)}" for folders in spread)]
    with tempfile.TemporaryDirectory() as top, \
            LocalCluster(n_workers=WORKERS, threads_per_worker=1, dashboard_address=None) as cluster, \
            Client(cluster, direct_to_workers=True) as client:
        layouts, least = [os.path.join(top, f"{folders}.json") for folders in spread], {}
        for turn in range(3 if count <= 1_000_000 else 1):
            adding = {}
            with Clock() as clock, bkd.open(os.path.join(top, f"plain {turn}"), create=True, arrays=True) as index:
                index.add_many(points)
            adding["a session"] = clock.seconds
            for path, folders, name in zip(layouts, spread, names[1:]):
                path = path if not turn else f"{path}.{turn}"
                shards.create(path, [os.path.join(top, f"{folders}-{i} {turn}") for i in range(folders)], by="cells")
                with shards.open(path, client, program=program.words) as index, Clock() as clock:
                    index.add_many(points)
                adding[name] = clock.seconds
            least = {name: min(spent, least.get(name, spent)) for name, spent in adding.items()}
        rows = {f"adding {count:,} documents": [f"{least[name]:.1f} s" for name in names]}
        with bkd.open(os.path.join(top, "plain 0"), read=True, arrays=True) as index:
            asked(index, rows)
        for path in layouts:
            with shards.open(path, client, program=program.words) as index:
                asked(index, rows)
    print(f"{WORKERS} workers on {os.cpu_count()} processors, whose load was {os.getloadavg()[0]:.0f}:\n")
    for row in (["", *names], ["---"] * (1 + len(names)), *([what, *cells] for what, cells in rows.items())):
        print("| " + " | ".join(row) + " |", flush=True)


def asked(index, rows):
    """Puts behind the rows what a thousand boxes at once, a thousand times the ten nearest, and one box alone take: the
    least of several times."""
    from bkd import requests, shards
    kinds = shards if hasattr(index, "layout") else requests
    centres = drawn(1000, 7).tolist()
    boxes = [kinds.box((x - 500, y - 500), (x + 500, y + 500)) for x, y in centres]
    near = [kinds.nearest(10, at) for at in centres]
    takes = {"a thousand boxes at once": lambda: index.ask(boxes), "a thousand times the ten nearest":
             lambda: index.ask(near), "one box": lambda: index.box((0, 0), (1000, 1000))}
    for what, work in takes.items():
        spent = min(seconds(work) for _ in range(100 if what == "one box" else 5))
        rows.setdefault(what, []).append(f"{spent * 1000:.{1 if what == 'one box' else 0}f} ms")


def parts(count, folders=8):
    """What an addition over folders is made of, each part on its own, without a cluster. Told is the time of processors
    and not of the clock, so that a busy machine tells the same."""
    import pickle

    from bkd.shards import changing, journal, spelled
    from bkd.shards.documents import Documents, documents_of
    from bkd.shards.layout import Layout, Place
    program, points, spent = bkd.find(), drawn(count), {}

    def part(what, work):
        begun = sum(os.times()[:4])
        told = work()
        spent[what] = spent.get(what, 0) + sum(os.times()[:4]) - begun
        return told

    with tempfile.TemporaryDirectory() as top:
        layout = Layout(2, [Place.new(os.path.join(top, f"{i}")) for i in range(folders)], by="cells")
        found = part("the client takes the documents", lambda: documents_of(points, 2))
        places = part("it cuts cells and finds each one's place",
                      lambda: layout.place(found.firsts(), layout.begin("all", found.firsts())))
        for at, place in enumerate(layout.places):
            rows = part("it parts the documents by folder", lambda: numpy.flatnonzero(places == at))
            mine = part("it parts the documents by folder", lambda: found.chosen(rows))
            sent = part("they are packed and unpacked", lambda: pickle.loads(pickle.dumps((mine, rows), 5)))
            os.mkdir(place.folder)
            with bkd.lock.locked(place.folder) as held:
                changing.run(program, place.folder, [b"create 2\n"], held)
                for begin in range(0, len(rows), 1_000_000):
                    some = slice(begin, begin + 1_000_000)
                    log = journal.Journal(os.path.join(place.folder, journal.NAME))
                    record = journal.Record(journal.ADDED, 0, bytes(16), 0, 0, len(rows[some]), bytes(32))
                    part("keys are written and synced", lambda: log.append(record, rows[some]))
                    piece = Documents(sent[0].points[some])
                    alone = part("the table is spelled", lambda: b"".join(spelled.table(piece)))
                    with program_input(alone) as table:
                        words = ["load", "--columns", spelled.columns(2)]
                        part("the program loads it", lambda: program.output(place.folder, words, table, None, held))
    total = sum(spent.values())
    print(f"{count:,} documents into {folders} folders, one after the other, seconds of processors:\n")
    print("| part | seconds | share |\n| --- | --- | --- |")
    for what, took in (*spent.items(), ("all", total)):
        print(f"| {what} | {took:.2f} | {took / total:.0%} |", flush=True)


@contextlib.contextmanager
def program_input(text):
    """A file of this text, at its begin."""
    with tempfile.TemporaryFile() as file:
        file.write(text)
        file.seek(0)
        yield file


if __name__ == "__main__":
    kinds = {"own": (own, 1_000_000), "read": (read, 1_000_000), "shards": (shard, 1_000_000),
             "parts": (parts, 10_000_000)}
    if len(sys.argv) not in (2, 3) or sys.argv[1] not in kinds:
        sys.exit(__doc__)
    work, usual = kinds[sys.argv[1]]
    work(int(sys.argv[2]) if len(sys.argv) == 3 else usual)
