#!/usr/bin/env python3
"""Times `check` over a million points of two dimensions, beside what reading and digesting every page costs.

usage: bench/check.py [COUNT]
       bench/check.py --digest FOLDER     the floor alone: its wall time and its processor time in seconds

bkd      `check` over the points in one segment, and over the segments that `load` leaves
floor    every page of the same files read, and as many digested as the program digests them, by the kit's SHA-256
         (`pages` of crates/bench, which has to be built: rt run there)
OpenSSL  the same pages read, and each payload digested with its place by OpenSSL's SHA-256 (hashlib): without the
         processor's own instructions for SHA-256, which the kit's digest can't use, and with them
SQLite   `rtreecheck` over an R*Tree of the same points (Debian's sqlite3)
Lucene   `CheckIndex` over the same points (Debian's liblucene8-java and a JDK), and over one point: the machine's start

They take turns, and the least times are told: by the clock, and of the processor. SQLite or Lucene is left out where it
isn't there. BKD names the program where it is not crates/bkd/out/bkd.
"""
import glob
import hashlib
import os
import shutil
import subprocess
import sys
import time

from peers import jars, java, rtree
from runs import COUNT, PROGRAM, Data, Run, bkd, milliseconds, write

TURNS = 5
BENCH = os.path.join(os.path.dirname(PROGRAM), "..", "..", "bench", "out", "bench")
PAGE, PAYLOAD = 4096, 4064
CHECK = "org.apache.lucene.index.CheckIndex"
# bit 29 of the second word of OpenSSL's mask: the processor's instructions for SHA
PLAIN = {"OPENSSL_ia32cap": ":~0x20000000"}


class Times:
    """What takes turns, by name, with the times of each."""

    def __init__(self):
        self.works = {}
        self.found = {}

    def add(self, name, work):
        """`work` answers its wall time and its processor time in seconds."""
        self.works[name] = work

    def take(self):
        for _ in range(TURNS):
            for name, work in self.works.items():
                self.found.setdefault(name, []).append(work())

    def least(self, name):
        return tuple(min(column) for column in zip(*self.found[name]))

    def show(self, name, floor):
        wall, processor = self.least(name)
        ratio = processor / self.least(floor)[1]
        print("  %-39s %s, processor %s, ratio %5.2f" % (name, milliseconds(wall), milliseconds(processor), ratio))


def digested(folder):
    """Wall time and processor time of reading each page and comparing its digest."""
    wall, processor = time.perf_counter(), time.process_time()
    for path in glob.glob(os.path.join(folder, "*.bkd")):
        name = os.path.basename(path)
        kind = {"s": 1, "l": 2, "c": 3}[name[0]]
        number = 0 if kind == 3 else int(name.split("-")[1][:16], 16)
        place = bytes([kind]) + number.to_bytes(8, "big")
        with open(path, "rb", buffering=0) as file:
            for page in range(os.path.getsize(path) // PAGE):
                data = file.read(PAGE)
                digest = hashlib.sha256(place + page.to_bytes(4, "big") + data[:PAYLOAD]).digest()
                if digest != data[PAYLOAD:]:
                    sys.exit("%s page %d is damaged" % (name, page))
    return time.perf_counter() - wall, time.process_time() - processor


def plainly_digested(folder):
    """The same in plain instructions."""
    words = [sys.executable, os.path.abspath(__file__), "--digest", folder]
    said = subprocess.run(words, env={**os.environ, **PLAIN}, check=True, capture_output=True, text=True).stdout
    return tuple(map(float, said.split()))


def floor_of(folder):
    """Wall time and processor time of reading each page, and of digesting as many with the kit's digest."""
    wall, processor = time.perf_counter(), time.process_time()
    pages = 0
    for path in glob.glob(os.path.join(folder, "*.bkd")):
        with open(path, "rb", buffering=0) as file:
            while file.read(PAGE):
                pages += 1
    read = time.perf_counter() - wall, time.process_time() - processor
    run = Run([BENCH, "pages", str(pages)], keep=True).done()
    if run.text != "whole 1\n":
        sys.exit("%r of the bench" % run.text)
    return read[0] + run.wall, read[1] + run.processor


def checked(run, wanted):
    """The times of a run that says what is wanted."""
    run = run.done()
    if wanted not in run.text:
        sys.exit("%r, and not %s" % (run.text[-200:], wanted))
    return run.wall, run.processor


def loaded(data):
    """A folder with the segments that loading makes."""
    folder = data.empty("loaded")
    bkd(folder, "load", "--columns", "x,y", source=data.csv()).done()
    return folder


def add_sqlite(times, data):
    rtree(data).done()
    asked = write(data.path("check.sql"), ["select rtreecheck('points');"])
    words = ["sqlite3", "-batch", data.path("base/points")]
    times.add("SQLite rtreecheck", lambda: checked(Run(words, asked, True), "ok"))


def add_lucene(times, data):
    points, none = (write(data.path(name), lines) for name, lines in (
        ("points", ["%d %d" % p for p in data.points]), ("none", ["0 0"])))
    for name, source in (("Lucene CheckIndex", points), ("Lucene CheckIndex, one point", none)):
        folder = data.empty(name.replace(" ", "-"))
        java(data, "Lucene", "index", source, folder, "apart").done()
        times.add(name, lambda folder=folder: checked(java(data, CHECK, folder, keep=True), "No problems were"))


def main():
    if sys.argv[1:2] == ["--digest"]:
        print(*digested(sys.argv[2]))
        return
    data, times = Data(int(sys.argv[1]) if len(sys.argv) > 1 else COUNT), Times()
    folders = {"one segment": data.merged(), "as loaded": loaded(data)}
    for name, folder in folders.items():
        wanted = "live %d" % data.count
        times.add("bkd check, " + name, lambda folder=folder, w=wanted: checked(bkd(folder, "check", keep=True), w))
        times.add("reading and digesting, " + name, lambda folder=folder: floor_of(folder))
        times.add("OpenSSL, plain, " + name, lambda folder=folder: plainly_digested(folder))
        times.add("OpenSSL, SHA instructions, " + name, lambda folder=folder: digested(folder))
    if shutil.which("sqlite3"):
        add_sqlite(times, data)
    if shutil.which("java") and jars():
        add_lucene(times, data)
    times.take()
    size = {name: sum(map(os.path.getsize, glob.glob(os.path.join(f, "*")))) for name, f in folders.items()}
    print("check: %d points; %s bytes of files; the least of %d turns" % (data.count, size, TURNS))
    for name in times.works:
        floor = "reading and digesting, " + ("as loaded" if "as loaded" in name else "one segment")
        times.show(name, floor)


if __name__ == "__main__":
    main()
