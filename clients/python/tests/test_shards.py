"""An index over several folders, with a scheduler and workers as processes: as one list of documents, whoever writes it
and however it is spread. What goes wrong is in `test_shards_faults.py`."""
import functools
import json
import os
import random
import textwrap
import threading

import pytest

numpy = pytest.importorskip("numpy")
dask = pytest.importorskip("dask")
distributed = pytest.importorskip("distributed")

import bkd
from bkd import shards
from bkd.shards.layout import Layout, Place, cut
from clusters import HIGH, LOW, box_of, client, cluster, drawn, folders, nearest_of, words  # noqa: F401
from conftest import HERE, STAND_IN
from model import in_polygon

pytestmark = pytest.mark.slow


@pytest.mark.parametrize("by", ["number", "cells"])
def test_as_one_list(client, words, tmp_path, by):
    """Keys in no order, points that many share, documents of several points; added, deleted and asked in turns."""
    layout = shards.create(tmp_path / "layout.json", folders(tmp_path), leaf=7, by=by)
    assert Layout.read(tmp_path / "layout.json") == layout
    draw = random.Random(5)
    documents = {}
    square = [(-20, -20), (20, -20), (25, 15), (0, 30), (-20, -20)]
    for part in range(2):
        with shards.open(tmp_path / "layout.json", client, program=words) as index:
            points = drawn(150, part)
            keys = draw.sample(range(-10**12, 10**12), 150)
            assert index.add_many(points, keys).tolist() == keys
            documents |= dict(zip(keys, points))
            gone = draw.sample(sorted(documents), 20)
            assert index.delete_many([*gone, 7]) == 20
            inside = box_of(documents, (30, -40), (33, 40))
            for key in gone + inside:
                documents.pop(key, None)
            assert index.delete_box((30, -40), (33, 40)) == len(set(inside) - set(gone))
            for k, at in ((1, (0, 0)), (7, (3, 3)), (1000, (-40, 9))):
                assert index.nearest(k, at) == nearest_of(documents, k, at)
            for low, high in (((-9, -9), (9, 9)), ((LOW, LOW), (HIGH, HIGH)), ((5, 5), (0, 0)), ((0, 0), (0, 0))):
                assert index.box(low, high).tolist() == box_of(documents, low, high)
            wanted = sorted(key for key, points in documents.items() if any(in_polygon([square], p) for p in points))
            assert index.polygon([square]).tolist() == wanted
            index.merge()
    with shards.open(tmp_path / "layout.json", client, program=words) as index:
        asked = [shards.box((-5, -5), (5, 5)), shards.nearest(3, (1, 1)), shards.polygon([square])]
        found = index.ask(asked)
        assert found[0].tolist() == box_of(documents, (-5, -5), (5, 5)) and found[1] == nearest_of(documents, 3, (1, 1))
        given = index.about()
        assert [name for name, _, _ in given] == list(map(str, folders(tmp_path)))
        assert sum(count for _, count, _ in given) == 300
        assert words == STAND_IN or sum(live for _, _, live in given) == len(documents)
        if by == "number":
            assert {count for _, count, _ in given} == {100}


def test_ties_beyond_what_a_query_tells(client, words, tmp_path, monkeypatch):
    """All points are equally far, and keys descend while numbers ascend: the least keys are the last of each folder."""
    shards.create(tmp_path / "layout.json", folders(tmp_path, 2))
    with shards.open(tmp_path / "layout.json", client, program=words) as index:
        index.add_many(numpy.ones((400, 2), int), range(400, 0, -1))
        assert index.nearest(5, (0, 0)) == [(key, 2) for key in range(1, 6)]
        if words != STAND_IN:
            index.add_many(numpy.ones((24_000, 2), int), range(30_000, 6_000, -1))
            assert index.nearest(3, (0, 0)) == [(key, 2) for key in range(1, 4)]
            assert index.nearest(1000, (0, 0))[399:401] == [(400, 2), (6_001, 2)]


def test_keys_that_are_left_out(client, tmp_path):
    shards.create(tmp_path / "layout.json", folders(tmp_path, 2))
    with shards.open(tmp_path / "layout.json", client, program=STAND_IN) as index:
        assert index.box((0, 0), (9, 9)).tolist() == [] and index.nearest(1, (0, 0)) == []
        assert index.delete_many([1]) == 0 and index.delete_box((0, 0), (1, 1)) == 0
        assert index.add_many(numpy.array([[1, 1], [2, 2], [3, 3]])).tolist() == [0, 1, 2]
        assert index.add_many([(4, 4)]).tolist() == [3] and len(index.add_many([])) == 0
        assert index.box((2, 2), (4, 4)).tolist() == [1, 2, 3]


def test_what_is_refused(client, tmp_path):
    shards.create(tmp_path / "layout.json", folders(tmp_path, 2))
    with pytest.raises(FileExistsError):
        shards.create(tmp_path / "layout.json", folders(tmp_path, 2))
    for wrong in ({"folders": []}, {"folders": ["/a", "/a"]}, {"folders": ["/a", "/b/../a"]},
                  {"folders": ["/a"], "by": "x"}, {"folders": ["/a"], "dims": 9}):
        with pytest.raises(ValueError):
            shards.create(tmp_path / "other.json", **wrong)
    with shards.open(tmp_path / "layout.json", client, program=STAND_IN) as index:
        for documents, keys, error in [
            ([(1, 2, 3)], None, ValueError), ([(1, 1 << 31)], None, ValueError), ([[(1, 1)] * 17], None, ValueError),
            ([(1.5, 2)], None, TypeError), (numpy.zeros((2, 2)), None, TypeError),
            (numpy.zeros((2, 3), int), None, ValueError),
            ([(1, 1)], [1, 2], ValueError), ([(1, 1)], ["a"], TypeError), ([(1, 1)], [1 << 63], OverflowError),
        ]:
            with pytest.raises(error):
                index.add_many(documents, keys)
        index.add_many([(1, 1), (2, 2)])
        with pytest.raises(ValueError):
            index.nearest(0, (0, 0))
        with pytest.raises(bkd.Refused, match="not a polygon"):
            index.polygon({"type": "Point", "coordinates": [0, 0]})


def test_layouts_that_are_refused(client, words, tmp_path):
    with pytest.raises(ValueError, match="neither absolute nor bound"):
        shards.create(tmp_path / "layout.json", ["relative"])
    with pytest.raises(ValueError, match="none of the folders"):
        shards.create(tmp_path / "layout.json", [tmp_path / "a"], workers={"/b": "w0"})
    os.symlink(tmp_path / "a", tmp_path / "b")
    shards.create(tmp_path / "layout.json", [tmp_path / "a", tmp_path / "b"])
    with shards.open(tmp_path / "layout.json", client, program=words) as index:
        with pytest.raises((shards.Changed, bkd.FolderFault), match="/[ab]"):
            index.add_many([(1, 1), (2, 2)])
            index.add_many([(1, 1), (2, 2)])
    with open(tmp_path / "layout.json") as file:
        told = json.load(file)
    told["layout"]["given"] += 1
    with open(tmp_path / "layout.json", "w") as file:
        json.dump(told, file)
    with pytest.raises(shards.BadLayout, match="layout.json is damaged"):
        shards.open(tmp_path / "layout.json", client, program=words)
    (tmp_path / "layout.json").write_text("{")
    with pytest.raises(shards.BadLayout, match="no layout"):
        shards.open(tmp_path / "layout.json", client, program=words)


def test_two_clients(cluster, words, tmp_path):
    """Both write by turns; who asks meanwhile finds each call whole or not at all."""
    shards.create(tmp_path / "layout.json", folders(tmp_path, 3))

    def write(number, failed):
        try:
            with distributed.Client(scheduler_file=cluster.file) as other, \
                    shards.open(tmp_path / "layout.json", other, program=words) as index:
                for call in range(4):
                    index.add_many([(number, call)] * 30)
        except BaseException as error:
            failed.append(error)

    failed = []
    writers = [threading.Thread(target=write, args=(number, failed)) for number in range(2)]
    for writer in writers:
        writer.start()
    with shards.open(tmp_path / "layout.json", cluster.client, program=words) as index:
        while any(writer.is_alive() for writer in writers):
            found = index.ask([shards.box((0, 0), (0, 9)), shards.box((1, 0), (1, 9))])
            assert all(len(part) % 30 == 0 for part in found)
        for writer in writers:
            writer.join()
        assert failed == [] and index.box((0, 0), (9, 9)).tolist() == list(range(240))
        with index.snapshot() as then:
            assert then.count((0, 0), (9, 9)) == 240
            with pytest.raises(bkd.Locked):
                index.add((5, 5))
            with shards.open(tmp_path / "layout.json", cluster.client, program=words, wait=0.2) as other, \
                    pytest.raises(bkd.Locked, match="layout.json"):
                other.add((5, 5))
            assert then.nearest(1, (5, 5))[0][1] == 20
        assert index.add((5, 5)) == 240


def test_the_other_words(client, words, tmp_path):
    """count, grid, export, check and rebalance, beside a list."""
    shards.create(tmp_path / "layout.json", folders(tmp_path, 4), by="cells")
    with shards.open(tmp_path / "layout.json", client, program=words) as index:
        assert index.add_many([(0, 0)] * 5).tolist() == list(range(5))
        assert index.layout.cells is None and index.rebalance() == 0
        draw = random.Random(3)
        points = [(0, 0)] * 5 + [(draw.randint(-40, 40), draw.randint(-40, 40)) for _ in range(500)]
        index.add_many(points[5:])
        assert index.layout.cells is not None
        points += [(draw.randint(30, 40), draw.randint(30, 40)) for _ in range(1500)]
        index.add_many(points[505:])
        before = [live for _, _, live in index.about()]
        index.delete_box((-40, -40), (-10, 40))
        documents = {key: [point] for key, point in enumerate(points) if point[0] > -10}

        def same():
            assert dict(index.export()) == {key: tuple(found) for key, found in documents.items()}
            assert index.box((-20, -20), (35, 35)).tolist() == box_of(documents, (-20, -20), (35, 35))
            assert index.count((0, 0), (9, 35)) == len(box_of(documents, (0, 0), (9, 35)))
            wanted = {}
            for (x, y), in documents.values():
                if x >= 0 and y >= 0:
                    wanted[x // 7, y // 9] = wanted.get((x // 7, y // 9), 0) + 1
            assert index.grid(0, 7, 1, 9, (0, 0), (40, 40)) == [(*at, n) for at, n in sorted(wanted.items())]
            assert sum(one.live for _, one in index.check() if one) == len(documents)
            assert index.nearest(9, (33, 33)) == nearest_of(documents, 9, (33, 33))

        same()
        assert index.rebalance() > 0
        same()
        lives = [live for _, _, live in index.about()]
        assert max(lives) <= 2 * sum(lives) / len(lives) or max(lives) <= 128
        assert max(lives) < max(before) and index.rebalance() == 0
        assert sorted(map(str, tmp_path.glob("shard*"))) == sorted(index.layout.folders)
        more = index.add_many([(draw.randint(-40, 40), draw.randint(-40, 40)) for _ in range(50)])
        assert len(more) == 50 and sum(live for *_, live in index.about()) == len(documents) + 50


def test_a_token_is_done_once(client, words, tmp_path):
    shards.create(tmp_path / "layout.json", folders(tmp_path, 3), by="cells")
    points = [(i, i % 7) for i in range(300)]
    with shards.open(tmp_path / "layout.json", client, program=words) as index:
        first = index.add_many(points, token="monday")
        assert index.add_many(points, token="monday").tolist() == first.tolist()
        assert len(index.box((0, 0), (999, 9))) == 300
        with pytest.raises(ValueError, match="of 300 documents"):
            index.add_many(points[1:], token="monday")
        assert index.delete_many([1, 2, 3], token="tuesday") == 3
        assert index.delete_many([1, 2, 3], token="tuesday") == 3
        assert index.delete_many([1, 2, 3]) == 0


def test_the_first_use_of_the_readme(cluster, words, tmp_path, monkeypatch):
    monkeypatch.chdir(tmp_path)
    text = (HERE.parent / "README.md").read_text()
    lines = text[text.index("    from bkd import shards\n"):].split("\n\n")[0]
    where = cluster.client.scheduler.address
    code = textwrap.dedent(lines).replace("/data", str(tmp_path)).replace("tcp://localhost:8786", where)
    told = []
    monkeypatch.setattr(shards, "open", functools.partial(shards.open, program=words))
    exec(code, {"print": told.append})
    assert told == [[70, 80, 90]]
    with shards.open("points.json", cluster.client, program=words) as index, index.snapshot() as then:
        assert then.box((0, 0), (9, 9)).tolist() == [80] and then.nearest(1, (5, 50)) == [(90, 100)]
        assert list(then.export()) == [(80, ((3, 4),)), (90, ((5, 60),))]


def test_cells():
    """About as many points in each, whatever their number."""
    points = numpy.array(random.Random(1).choices(range(-1000, 1000), k=2000)).reshape(1000, 2)
    for count in (1, 2, 3, 5, 8):
        layout = Layout(2, [Place.new(f"/{i}") for i in range(count)], by="cells")
        places = layout.place(points, layout.begin("", points))
        counts = numpy.bincount(places, minlength=count)
        assert counts.sum() == 1000 and counts.min() >= 1000 // count - 40
    assert cut(points[:0], [0, 1]) == [0, 0, 0, 1]


def test_errors_go_whole_to_another_process():
    import pickle
    from bkd.damage import Damage
    for error in (bkd.Refused("add x", "wrong words", 3), bkd.Damaged(Damage("page", "commit.bkd", page=0), 5, "x"),
                  bkd.Died("was killed", 1, "add 1"), bkd.WorkerLost("a", "b"), bkd.Locked("x"),
                  shards.WorkerLost("a", "b", "c", ["d"], ["e"]), shards.Changed("a", "b")):
        again = pickle.loads(pickle.dumps(error))
        assert type(again) is type(error) and str(again) == str(error) and again.__dict__ == error.__dict__
