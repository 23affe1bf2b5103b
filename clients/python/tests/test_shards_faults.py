"""An index over several folders where something goes wrong: a folder that isn't what was stored, a full disk, a worker
or a client that dies. (Workers are killed in `test_shards_kills.py`.) Nothing is lost, nothing is there twice, and no
answer is wrong."""
import os
import random
import shutil
import subprocess
import time

import pytest

numpy = pytest.importorskip("numpy")
dask = pytest.importorskip("dask")
distributed = pytest.importorskip("distributed")

import bkd
from bkd import lock, shards
from clusters import HIGH, KILLS, LOW, PATIENCE, client, cluster, doomed, folders, words  # noqa: F401
from conftest import HERE

pytestmark = pytest.mark.slow


def test_a_folder_that_is_not_what_was_stored(client, words, tmp_path):
    """Missing, of another index, damaged, or changed by something else: each call says so and names it, and where it is
    again as it was all is as it was."""
    shards.create(tmp_path / "layout.json", folders(tmp_path, 2))
    where = str(folders(tmp_path, 2)[1])
    everywhere = (LOW, LOW), (HIGH, HIGH)
    with shards.open(tmp_path / "layout.json", client, program=words) as index:
        index.add_many([(i, i) for i in range(20)])
        calls = [lambda: index.box(*everywhere), lambda: index.nearest(3, (0, 0)), lambda: index.delete_many([3]),
                 lambda: index.add_many([(1, 1), (2, 2)]), lambda: index.count(*everywhere), lambda: index.about(),
                 lambda: index.check(), lambda: list(index.export())]
        os.rename(where, where + ".moved")
        for call in calls:
            with pytest.raises((bkd.NoIndex, shards.Unfinished), match="shard 1"):
                call()
        shutil.copytree(tmp_path / "shard 0", where)
        for call in calls:
            with pytest.raises((shards.Changed, shards.Unfinished), match="shard 1.*another place"):
                call()
        shutil.rmtree(where)
        os.rename(where + ".moved", where)
        index.recover()
        assert index.box(*everywhere).tolist() == list(range(20))
        commit = os.path.join(where, "commit.bkd")
        with open(commit, "rb") as file:
            whole = file.read()
        with open(commit, "wb") as file:
            file.write(whole[:100] + b"?" + whole[101:])
        for call in calls:
            with pytest.raises((bkd.Damaged, shards.Unfinished), match="commit.bkd page 0"):
                call()
        with open(commit, "wb") as file:
            file.write(whole)
        # a damaged folder can't say whether it did the deletion: that was told as not finished, and is finished now
        index.recover()
        assert index.box(*everywhere).tolist() == [key for key in range(20) if key != 3]
        with bkd.open(where, wait=60, program=words) as plain:
            plain.delete(2)  # (which waits until the worker's session has ended)
        with pytest.raises(shards.Changed, match="shard 1"):
            index.box(*everywhere)


def test_a_folder_whose_worker_is_gone(doomed, words, tmp_path):
    """What is stored is told; the same call does the rest when the worker is there again, or it is taken back."""
    paths = [str(folder) for folder in folders(tmp_path, 2)]
    shards.create(tmp_path / "layout.json", paths, workers={paths[0]: "w0", paths[1]: "w1"})
    with shards.open(tmp_path / "layout.json", doomed.client, program=words) as index:
        index.add_many([(i, i) for i in range(10)])
        doomed.kill("w1")
        with pytest.raises(bkd.WorkerLost, match="w1") as told:
            index.box((0, 0), (5, 5))
        assert told.value.folder == paths[1] and told.value.committed == ()
        lost = {}
        for token in ("kept", "given up"):
            with pytest.raises(shards.WorkerLost) as told:
                index.add_many([(i, 50) for i in range(6)], token=token)
            lost[token] = told.value
            assert told.value.committed == (paths[0],) and told.value.open == (paths[1],)
            assert told.value.token == token
        doomed.start("w1")
        doomed.client.wait_for_workers(2, timeout=PATIENCE)
        keys = index.add_many([(i, 50) for i in range(6)], token="kept").tolist()
        assert keys == list(range(10, 16))
        assert index.recover() == {"given up": False}
        assert index.box((0, 50), (9, 50)).tolist() == keys
        # it was taken back, so it may be made again
        assert index.add_many([(i, 50) for i in range(6)], token="given up").tolist() == list(range(22, 28))
        assert len(index.box((0, 50), (9, 50))) == 12


def test_a_full_disk_on_one(client, words, tmp_path):
    """What is stored elsewhere is told, all answers stay what they were, and with room the same call does the rest."""
    small = tmp_path / "small"
    small.mkdir()
    if subprocess.run(["mount", "-t", "tmpfs", "-o", "size=200k", "tmpfs", small], capture_output=True).returncode:
        pytest.skip("no file system can be mounted here")
    try:
        shards.create(tmp_path / "layout.json", [tmp_path / "large", small / "index"])
        points = numpy.random.default_rng(1).integers(-9999, 9999, size=(30_000, 2))
        with shards.open(tmp_path / "layout.json", client, program=words) as index:
            index.add_many(points[:200])
            with pytest.raises(shards.Unfinished, match="small") as told:
                index.add_many(points[200:], token="more")
            assert told.value.committed == (str(tmp_path / "large"),)
            assert index.delete_many([0, 1]) == 2
            subprocess.run(["mount", "-o", "remount,size=64m", small], check=True)
            assert len(index.add_many(points[200:], token="more")) == 29_800
            assert index.box((LOW, LOW), (HIGH, HIGH)).tolist() == list(range(2, 30_000))
            with lock.locked(str(small / "index"), wait=60):
                pass  # the worker's session has ended
    finally:
        subprocess.run(["umount", "-l", small], check=True)


def test_a_client_that_is_killed(cluster, words, tmp_path):
    """In the middle of adding: `recover` ends what it began, whole or not at all."""
    shards.create(tmp_path / "layout.json", folders(tmp_path, 3))
    code = f"""import distributed, sys
from bkd import shards
with shards.open({str(tmp_path / "layout.json")!r}, distributed.Client(scheduler_file={cluster.file!r}),
                 program={words!r}) as index:
    print("open", flush=True)
    for call in range(1000):
        index.add_many([(i, call) for i in range(60)], token=str(call))
"""
    draw = random.Random(2)
    for _ in range(max(1, KILLS // 2)):
        dying = subprocess.Popen([shutil.which("python3", path="/usr/bin"), "-c", code], stdout=subprocess.PIPE,
                                 env=os.environ | {"PYTHONPATH": str(HERE.parent)})
        assert dying.stdout.readline() == b"open\n"
        time.sleep(draw.uniform(0.2, 2))
        dying.kill()
        dying.communicate()
        with shards.open(tmp_path / "layout.json", cluster.client, program=words) as index:
            index.recover()
            found = index.box((0, 0), (99, 9999))
            assert len(found) % 60 == 0 and len(set(found.tolist())) == len(found)
            points = [points for _, points in index.export()]
            assert len(points) == len(found) and len(set(points)) == len(points)
