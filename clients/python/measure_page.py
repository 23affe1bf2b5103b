#!/usr/bin/python3
"""Measures the page over an index: what views and grids take, by the clock and in processor time, and memory.

usage: measure_page.py [COUNT ..]     over so many points each: a million, and 16 million, where none is named
Each is asked three times, views with frames that differ by a coordinate, so that none is remembered; the least is
told. Memory is the most that the page's own process had. BKD names the program where it is not the usual one.
"""
import http.client
import json
import os
import subprocess
import sys
import tempfile
import time
from urllib.parse import urlencode, urlsplit

import numpy

import bkd
from bkd import commands

SPAN = 1_800_000_000
TURNS = 3


def made(folder, count):
    """An index of points that gather round a hundred places, in pieces, so that not all are held at once."""
    draw = numpy.random.default_rng(5)
    centres = draw.uniform(-.9 * SPAN, .9 * SPAN, size=(100, 2))
    with bkd.open(folder, create=True, arrays=True) as index:
        for begin in range(0, count, 1_000_000):
            many = min(1_000_000, count - begin)
            places = centres[draw.integers(0, 100, many)] + draw.normal(0, SPAN / 30, size=(many, 2))
            index.add_many(numpy.clip(places, -SPAN, SPAN).astype(numpy.int32))


def memory(process):
    """The most megabytes that a process had."""
    with open(f"/proc/{process}/status") as file:
        return next(int(line.split()[1]) for line in file if line.startswith("VmHWM")) / 1024


def spent(process):
    """Seconds of processor time of a process and of those that it started and that ended."""
    with open(f"/proc/{process}/stat") as file:
        fields = file.read().rpartition(")")[2].split()
    return sum(map(int, fields[11:15])) / os.sysconf("SC_CLK_TCK")


def view(server, url, far, squares):
    """What a view within so far from the middle tells, the seconds that it took, and those of processors."""
    asked = {"x": 0, "y": 1, "frame": f"{-far},{-far},{far},{far}", "columns": squares[0], "rows": squares[1]}
    connection = http.client.HTTPConnection(url.hostname, url.port, timeout=600)
    before, begun = spent(server.pid), time.perf_counter()
    connection.request("GET", f"{url.path}view?{urlencode(asked)}")
    told = json.loads(connection.getresponse().read())
    return told, time.perf_counter() - begun, spent(server.pid) - before


def views(folder):
    """Views as the page asks for them, of all, of a third across, and of a thousandth across: first by larger squares,
    where the last view was slow, and then by those that it draws in the end."""
    words = [sys.executable, "-m", "bkd.view", folder, "--port", "0"]
    with subprocess.Popen(words, stdout=subprocess.PIPE, text=True) as server:
        try:
            url = urlsplit(server.stdout.readline().strip())
            for part, name in ((1, "all"), (1 / 3, "a third across"), (1 / 1000, "a thousandth across")):
                for how, squares in (("by larger squares", (37, 30)), ("by the page's squares", (220, 180))):
                    found = [view(server, url, int(SPAN * part) - turn, squares) for turn in range(TURNS)]
                    told = found[0][0]
                    print(f"  {name}, {how}: {told['points']:,} points in {len(told['squares']):,}, "
                          f"{min(one[1] for one in found):.2f} s by the clock, "
                          f"{min(one[2] for one in found):.2f} s of processor time")
            print(f"  the page's process had {memory(server.pid):.0f} MB at most")
        finally:
            server.terminate()


def grids(folder):
    """Grids of several sides over all, which is what views are made of."""
    for squares in (16, 64, 256):
        side = 2 * SPAN // squares + 1
        asked = commands.grid_over(0, side, 1, side, [-SPAN] * 2, [SPAN] * 2)
        took = []
        for _ in range(TURNS):
            begun = time.perf_counter()
            [told] = commands.count(folder, [asked])
            took.append(time.perf_counter() - begun)
        print(f"  a grid of {squares} by {squares}: {len(told):,} filled, {min(took):.2f} s")


def main():
    for count in map(int, sys.argv[1:] or (1_000_000, 16_000_000)):
        with tempfile.TemporaryDirectory() as folder:
            made(folder, count)
            print(f"{count:,} points", flush=True)
            grids(folder)
            views(folder)


if __name__ == "__main__":
    main()
