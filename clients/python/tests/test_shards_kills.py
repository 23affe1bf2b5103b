"""Workers of a real cluster are killed at drawn moments of adding, deleting, asking and rebalancing: nothing is lost,
nothing is there twice, and no answer is wrong. The model is a plain list.

The long form: BKD_CLUSTER_KILLS=200 BKD_TEST_SECONDS=3600; the quick one kills twice.
"""
import itertools
import os
import random
import threading
import time

import pytest

numpy = pytest.importorskip("numpy")
dask = pytest.importorskip("dask")
distributed = pytest.importorskip("distributed")

import bkd
from bkd import shards
from clusters import KILLS, PATIENCE, box_of, client, cluster, doomed, folders, nearest_of, words  # noqa: F401

KINDS = "add", "delete", "ask", "rebalance"
# a kill and the look at all that is there behind it, in tests that have a time each
PART = 5
_PAUSES = 0.0, 0.01, 0.03, 0.1, 0.3


class Beside:
    """An index, and a list of its documents."""

    def __init__(self, index, draw):
        self.index, self.draw = index, draw
        self.documents, self.following, self.turn = {}, 0, 0

    def work(self, kind):
        """What is to be done, and the documents behind it."""
        self.turn += 1
        if kind == "add":
            count, narrow = self.draw.randint(1, 600), self.draw.choice([40, 40, 9])
            points = [(self.draw.randint(-narrow, narrow), self.draw.randint(-narrow, narrow)) for _ in range(count)]
            keys = range(self.following, self.following + count)
            self.following += count
            after = self.documents | {key: [point] for key, point in zip(keys, points)}
            return lambda: self.index.add_many(points, keys, token=f"{self.turn}"), after
        if kind == "delete":
            gone = set(self.draw.sample(sorted(self.documents), len(self.documents) // 3))
            after = {key: points for key, points in self.documents.items() if key not in gone}
            return lambda: self.index.delete_many(sorted(gone), token=f"{self.turn}"), after
        return (self.index.rebalance if kind == "rebalance" else self.look), self.documents

    def look(self):
        low = self.draw.randint(-40, 0), self.draw.randint(-40, 0)
        high = low[0] + 30, low[1] + 30
        assert self.index.box(low, high).tolist() == box_of(self.documents, low, high)
        assert self.index.nearest(5, low) == nearest_of(self.documents, 5, low)

    def tried(self, work):
        """Does it again until it is done."""
        while True:
            try:
                return work()
            except bkd.WorkerLost:
                time.sleep(0.2)

    def whole(self):
        assert dict(self.index.export()) == {key: tuple(points) for key, points in self.documents.items()}
        self.look()


def killed(doomed, tmp_path, words, kinds, seed):
    """Kills a worker in each of these, and starts it again."""
    draw = random.Random(seed)
    shards.create(tmp_path / "layout.json", folders(tmp_path), by="cells", leaf=8)
    with shards.open(tmp_path / "layout.json", doomed.client, program=words) as index:
        beside = Beside(index, draw)
        work, beside.documents = beside.work("add")
        work()
        for kind, name in zip(kinds, itertools.cycle(doomed.workers)):
            work, after = beside.work(kind)
            dying = threading.Timer(draw.choice(_PAUSES), doomed.kill, [name])
            dying.start()
            beside.tried(work)
            beside.documents = after
            dying.join()
            beside.tried(beside.whole)
            doomed.start(name)
            doomed.client.wait_for_workers(2, timeout=PATIENCE)
        assert index.recover() == {} and not index.layout.left()
        assert sum(live for *_, live in index.about()) == len(beside.documents)


def test_killed_twice(doomed, words, tmp_path):
    """The quick form: in an addition, and in a deletion."""
    killed(doomed, tmp_path, words, KINDS[:2], 7)


@pytest.mark.slow
@pytest.mark.parametrize("part", range(-(-KILLS // PART)))
def test_killed_at_drawn_moments(doomed, words, tmp_path, part):
    seed = f"{os.environ.get('BKD_SEED', 7)} {part}"
    kinds = random.Random(seed).choices(KINDS, k=min(PART, KILLS - part * PART))
    killed(doomed, tmp_path, words, kinds, seed)
