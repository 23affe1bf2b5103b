#!/usr/bin/python3
"""Measures the client beside what else finds points from Python, and prints a table of one run.

usage: measure_peers.py [COUNT]    a million points beside sqlite3's R*Tree, rtree, geopandas' sindex, cKDTree and numpy
Peers are those of Debian's packages python3-rtree, python3-geopandas, python3-scipy; one that isn't there is left out.
All find the same. Times are by the clock; queries are timed by tens, of which the least of several spells counts. BKD
names the program where it is not the usual one.
"""
import importlib
import os
import random
import sqlite3
import sys
import tempfile

import numpy

import bkd
from measure import Clock, drawn, seconds

SPAN = 100_000_000
TURNS = 25


# each makes an index of points, and answers a box and the ten nearest by numbers

class Bkd:
    name = "bkd"

    def __init__(self, points, folder):
        self.index = bkd.open(os.path.join(folder, "bkd"), create=True, arrays=True)
        self.index.add_many(points)
        self.index.merge()
        self.index.commit()

    def box(self, low, high):
        return self.index.box(low, high)

    def nearest(self, k, at):
        return self.index.nearest(k, at)[0]

    def end(self):
        self.index.close()


class Sqlite:
    name = "sqlite3, R*Tree"

    def __init__(self, points, folder):
        self.base = sqlite3.connect(os.path.join(folder, "sqlite"))
        self.base.execute("create virtual table t using rtree_i32(id, x0, x1, y0, y1)")
        self.base.executemany("insert into t values (?, ?, ?, ?, ?)",
                              ((i, x, x, y, y) for i, (x, y) in enumerate(points.tolist())))
        self.base.commit()

    def box(self, low, high):
        return [i for i, in self.base.execute("select id from t where x0 >= ? and x1 <= ? and y0 >= ? and y1 <= ?",
                                              (low[0], high[0], low[1], high[1]))]

    nearest = None

    def end(self):
        self.base.close()


class Rtree:
    name = "rtree"

    def __init__(self, points, folder):
        rtree = importlib.import_module("rtree")
        self.index = rtree.index.Index((i, (x, y, x, y), None) for i, (x, y) in enumerate(points.tolist()))

    def box(self, low, high):
        return list(self.index.intersection((*low, *high)))

    def nearest(self, k, at):
        return list(self.index.nearest((*at, *at), k))

    def end(self):
        del self.index


class Geopandas:
    name = "geopandas, sindex"

    def __init__(self, points, folder):
        geopandas = importlib.import_module("geopandas")
        self.frame = geopandas.GeoSeries(geopandas.points_from_xy(points[:, 0], points[:, 1]))
        self.shape = importlib.import_module("shapely.geometry").box
        self.frame.sindex  # (it is made when it is first asked for)

    def box(self, low, high):
        return self.frame.sindex.query(self.shape(*low, *high))

    nearest = None

    def end(self):
        del self.frame


class Numpy:
    name = "numpy, all points"

    def __init__(self, points, folder):
        self.x, self.y = points[:, 0].copy(), points[:, 1].copy()

    def box(self, low, high):
        return numpy.flatnonzero((self.x >= low[0]) & (self.x <= high[0]) & (self.y >= low[1]) & (self.y <= high[1]))

    def nearest(self, k, at):
        distances = (self.x - at[0]).astype(float) ** 2 + (self.y - at[1]).astype(float) ** 2
        found = numpy.argpartition(distances, k)[:k]
        return found[numpy.lexsort((found, distances[found]))]

    def end(self):
        del self.x


class Tree:
    name = "scipy, cKDTree"

    def __init__(self, points, folder):
        self.tree = importlib.import_module("scipy.spatial").cKDTree(points)
        self.points = points

    def box(self, low, high):
        """A ball by the greatest of the sides, cut to the box."""
        middle = [(a + b) / 2 for a, b in zip(low, high)]
        found = numpy.array(self.tree.query_ball_point(middle, max(b - a for a, b in zip(low, high)) / 2, p=numpy.inf),
                            dtype=int)
        some = self.points[found]
        return found[((some >= low) & (some <= high)).all(axis=1)]

    def nearest(self, k, at):
        return self.tree.query(at, k)[1]

    def end(self):
        del self.tree


def peers(count):
    points = drawn(count, span=SPAN)
    draw = random.Random(7)
    side = int(2 * SPAN * (25 / count) ** 0.5)
    corners = [draw.choices(range(-SPAN, SPAN - side), k=2) for _ in range(200)]
    boxes = [((x, y), (x + side, y + side)) for x, y in corners]
    print(f"peers: {count:,} points of two dimensions, 200 boxes with about 25 in each, the ten nearest")
    print("| | made | a box | the ten nearest |\n|---|---|---|---|")
    wanted = None
    for kind in (Bkd, Sqlite, Rtree, Geopandas, Tree, Numpy):
        with tempfile.TemporaryDirectory() as folder:
            try:
                with Clock() as made:
                    peer = kind(points, folder)
            except ImportError as error:
                print(f"| {kind.name} | not here: {error} | | |")
                continue
            found = [sorted(int(i) for i in peer.box(*box)) for box in boxes]
            wanted = found if wanted is None else wanted
            assert found == wanted, kind.name
            box = per(lambda box: peer.box(*box), boxes)
            near = "none" if peer.nearest is None else per(lambda box: peer.nearest(10, box[0]), boxes[:50])
            print(f"| {kind.name} | {made.seconds:.1f} s | {box} | {near} |", flush=True)
            peer.end()


def per(work, asked):
    """What one of these takes: of ten together the least of several spells."""
    tens = [asked[at:at + 10] for at in range(0, len(asked), 10)]
    spent = sum(min(seconds(lambda: [work(one) for one in ten]) for _ in range(TURNS)) for ten in tens)
    return f"{spent / len(asked) * 1e6:,.0f} µs"


if __name__ == "__main__":
    if len(sys.argv) > 2:
        sys.exit(__doc__)
    peers(int(sys.argv[1]) if len(sys.argv) == 2 else 1_000_000)
