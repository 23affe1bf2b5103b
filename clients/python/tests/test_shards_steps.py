"""An index over several folders at drawn steps of what is done to it: workers that die before and behind each call, and
a client that dies between any two. The workers' keepers are in this process; no cluster is needed."""
import contextlib
import os
import random

import pytest

numpy = pytest.importorskip("numpy")

import bkd
from bkd import shards
from bkd.shards.crew import _Gone
from bkd.shards.shards import Shards
from conftest import REAL
from plain import HIGH, LOW, box_of, nearest_of
from stepping import Client, Killed, Steps, created, drawn_call, opened, steps, stored_in, words  # noqa: F401

SEEDS = range(int(os.environ.get("BKD_KILL_SEEDS", 1)))
EVERYWHERE = (LOW, LOW), (HIGH, HIGH)


@pytest.mark.parametrize("who", ["worker", "client"])
@pytest.mark.parametrize("seed", SEEDS)
def test_killed_at_each_step(words, steps, tmp_path, who, seed):
    """A worker's death isn't seen; behind a client's, `recover` ends what it began: whole, or not at all."""
    draw = random.Random(f"{who} {seed}")
    created(tmp_path, by="cells", leaf=8)
    documents, following, kills = {}, 0, 0
    made = [opened(tmp_path, words, steps)]
    for turn in range(16):
        work, after = drawn_call(draw, lambda: made[0], documents, following, turn)
        following += max(0, len(after) - len(documents))
        steps.set(*((draw.randint(1, 5), _Gone("drawn")) if who == "worker" else (draw.randint(1, 12), Killed())))
        try:
            work()
        except Killed:
            kills += 1
            made[0] = opened(tmp_path, words, steps)
            found = made[0].recover()
            assert set(found) <= {f"{turn}"}
            told = stored_in(made[0])
            assert told in (documents, after)
            assert found != {f"{turn}": True} or told == after
            if draw.random() < 0.5:
                work()
            else:
                after = told
        kills += who == "worker" and steps.left <= 0
        steps.set(0, None)
        documents = after
        assert stored_in(made[0]) == documents
        assert made[0].nearest(5, (1, 2)) == nearest_of(documents, 5, (1, 2))
        assert made[0].box((-9, -9), (9, 9)).tolist() == box_of(documents, (-9, -9), (9, 9))
        assert not made[0].layout.left() and not list(tmp_path.glob("*.keys"))
    assert kills >= 5


def test_a_deletion_that_a_worker_leaves(words, steps, tmp_path):
    """It is told where it is done; the same call, the next change of that folder, or `recover` does the rest, once."""
    paths = [str(tmp_path / f"shard {i}") for i in range(2)]
    created(tmp_path, 2, workers={paths[0]: "w0", paths[1]: "w1"})
    index = opened(tmp_path, words, steps)
    index.add_many([(i, i) for i in range(40)])
    documents = {i: [(i, i)] for i in range(40)}
    for turn, ended in enumerate(["again", "recover", "add", "box"]):
        gone = list(range(10 * turn, 10 * turn + 6))
        index._crew.down = {"w1"}
        for delete in (lambda: index.delete_many(gone, token=f"{turn}"),) * 2:
            with pytest.raises(shards.WorkerLost) as told:
                delete()
            assert (told.value.committed, told.value.open) == ((paths[0],), (paths[1],))
            assert told.value.token == f"{turn}"
        with pytest.raises(ValueError, match="another deletion"):
            index.delete_many(gone[1:], token=f"{turn}")
        with pytest.raises(shards.Unfinished):
            index.rebalance()
        with pytest.raises(shards.Unfinished), index.snapshot():
            pass
        index._crew.down = set()
        index = opened(tmp_path, words, steps)
        # (a document of one of the keys that comes later stays)
        if ended == "add":
            index.add_many([(99, 99)] * 2, [gone[0], gone[1]])
            documents |= {gone[0]: [(99, 99)], gone[1]: [(99, 99)]}
            gone = gone[2:]
        elif ended == "box":
            assert index.delete_box((99, 99), (99, 99)) == 2
            documents = {key: points for key, points in documents.items() if points != [(99, 99)]}
        elif ended == "recover":
            assert index.recover() == {f"{turn}": True}
        for key in gone:
            documents.pop(key)
        if ended != "add":
            assert index.delete_many(gone, token=f"{turn}") == 6
        assert stored_in(index) == documents and not list(tmp_path.glob("*.keys"))


def test_what_lacks_a_deletion_gets_nothing_more(words, steps, tmp_path):
    """The folder that has done it takes more; what the other one would have got isn't begun, and comes when it is there
    again, behind the deletion."""
    created(tmp_path, 2, workers={str(tmp_path / f"shard {i}"): f"w{i}" for i in range(2)})
    index = opened(tmp_path, words, steps)
    index.add_many([(i, i) for i in range(40)])
    index._crew.down = {"w1"}
    with pytest.raises(shards.WorkerLost):
        index.delete_many(range(6), token="gone")
    assert index.add((7, 7), 100) == 100
    for change in (lambda: index.add((8, 8), 1), lambda: index.add_many([(8, 8)] * 2), lambda: index.delete_many([9])):
        with pytest.raises(shards.WorkerLost) as told:
            change()
        assert told.value.token == "gone" and index.layout.left() == ["gone"]
    index._crew.down = set()
    assert index.add((8, 8), 1) == 1 and index.layout.left() == []
    documents = {i: [(i, i)] for i in range(6, 40)} | {100: [(7, 7)], 1: [(8, 8)]}
    assert stored_in(index) == documents and index.delete_many(range(6), token="gone") == 6


def test_a_deletion_that_nobody_did(words, steps, tmp_path):
    """Nothing has happened, and nothing happens later."""
    created(tmp_path, 1)
    index = opened(tmp_path, words, steps)
    index.add_many([(i, i) for i in range(5)])
    os.rename(tmp_path / "shard 0", tmp_path / "moved")
    for call in (lambda: index.delete_many([3]), lambda: index.delete_box((0, 0), (9, 9))):
        with pytest.raises(bkd.NoIndex, match="shard 0"):
            call()
    os.rename(tmp_path / "moved", tmp_path / "shard 0")
    assert index.recover() == {} and index.box(*EVERYWHERE).tolist() == list(range(5))
    with contextlib.suppress(FileNotFoundError):
        (tmp_path / "layout.json.0123456789abcdef.keys").write_bytes(b"")
    index.recover()
    assert not list(tmp_path.glob("*.keys"))


def test_stream(words, steps, tmp_path):
    """Keys in order, in arrays, whatever is held at once; the same key in several folders, and twice in one."""
    draw = random.Random(4)
    created(tmp_path, 3, by="cells", leaf=8)
    index = opened(tmp_path, words, steps)
    assert list(index.stream(shards.box(*EVERYWHERE))) == []
    points = [(draw.randint(-40, 40), draw.randint(-40, 40)) for _ in range(400)]
    keys = [draw.randint(-90, 90) for _ in points]
    index.add_many(points, keys)
    for low, high in (EVERYWHERE, ((0, 0), (20, 40)), ((99, 99), (100, 100))):
        inside = sorted(key for key, (x, y) in zip(keys, points) if low[0] <= x <= high[0] and low[1] <= y <= high[1])
        for at_once in (1, 7, 1 << 16) if low == (0, 0) else (50, 400):
            parts = list(index.stream(shards.box(low, high), at_once))
            assert all(1 <= len(part) <= 3 * at_once for part in parts)
            assert [key for part in parts for key in part.tolist()] == inside
    square = [(-20, -20), (20, -20), (20, 20), (-20, 20), (-20, -20)]
    inside = index.polygon([square]).tolist()
    assert numpy.concatenate(list(index.stream(shards.polygon([square]), 9))).tolist() == inside
    for wrong in (lambda: index.stream(shards.nearest(1, (0, 0))), lambda: index.stream(shards.box(*EVERYWHERE), 0)):
        with pytest.raises(ValueError):
            next(wrong())
    begun = index.stream(shards.box(*EVERYWHERE), 3)
    assert len(next(begun))
    with pytest.raises(bkd.Locked):
        Shards(tmp_path / "layout.json", Client(), words, None, True, 0.1).add((1, 1))
    begun.close()
    index.add((1, 1))


@pytest.mark.skipif(REAL is None or "batch" not in REAL.commands, reason="no program with batch")
def test_batch(words, steps, tmp_path):
    """As `ask`, in one message a worker; the nearest of equally far ones too."""
    draw = random.Random(6)
    created(tmp_path, 3, by="cells", leaf=8)
    index = opened(tmp_path, words, steps)
    documents = {key: [(draw.randint(-40, 40), draw.randint(-40, 40))] for key in range(600, 0, -1)}
    index.add_many(list(documents.values()), list(documents))
    asked = [shards.box((x, -40), (x + 9, 20)) for x in range(-40, 40)]
    asked += [shards.nearest(4, (x, x)) for x in range(-40, 40)]
    asked.append(shards.polygon([[(0, 0), (9, 0), (9, 9), (0, 0)]]))
    calls = []
    each = index._crew._round
    index._crew._round = lambda method, *words: calls.append(method) or each(method, *words)
    found = index.batch(asked, forks=0)
    assert calls in (["batch"], ["batch"] * 2)
    for one, other in zip(found, index.ask(asked)):
        assert list(one) == list(other)
    assert list(found[0]) == box_of(documents, (-40, -40), (-31, 20))
    with pytest.raises(ValueError):
        index.batch(asked, forks=7)


def test_queries_go_on_while_cells_are_split(words, steps, tmp_path):
    """At each step of a rebalance another client asks, and finds all; one that writes waits."""
    draw = random.Random(8)
    created(tmp_path, 4, by="cells", leaf=8)
    index, other = (opened(tmp_path, words, Steps()) for _ in range(2))
    documents = {key: [(draw.randint(-40, 40), draw.randint(-40, 40))] for key in range(300)}
    documents |= {key: [(draw.randint(30, 40), draw.randint(30, 40))] for key in range(300, 900)}
    index.add_many([points[0] for key, points in documents.items() if key < 300], range(300))
    index.add_many([points[0] for key, points in documents.items() if key >= 300], range(300, 900))
    asked = []

    def ask():
        asked.append(other.box((25, 25), (35, 38)).tolist())
        assert asked[-1] == box_of(documents, (25, 25), (35, 38)) and len(other.box(*EVERYWHERE)) == 900
        late = Shards(tmp_path / "layout.json", Client(), words, None, True, 0.01)
        with pytest.raises(bkd.Locked):
            late.add((1, 1))

    index._crew._steps.hook = ask
    assert index.rebalance() > 0 and len(asked) >= 2
    index._crew._steps.hook = lambda: None
    assert stored_in(index) == documents


def test_rescue_is_refused(words, steps, tmp_path):
    created(tmp_path, 2)
    index = opened(tmp_path, words, steps)
    index.add((1, 1))
    with pytest.raises(bkd.Unsupported, match="has no command rescue"):
        index.rescue()
    assert index.box(*EVERYWHERE).tolist() == [0]
