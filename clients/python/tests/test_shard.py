"""A folder of an index over many, killed at drawn steps of what is done to it: beside a plain list it is as if each
change was done once. No cluster is needed."""
import contextlib
import os
import random
import shutil
import signal
import subprocess
import uuid

import pytest

numpy = pytest.importorskip("numpy")

import bkd
from bkd import lock, requests, shards
from bkd.shards import journal
from bkd.shards.documents import documents_of
from bkd.shards.shard import Shard
from bkd.shards.state import Known
from conftest import REAL, STAND_IN

# the seeds of the drawn kills, and how many there are of each
SEEDS = range(int(os.environ.get("BKD_KILL_SEEDS", 1)))
KILLS = 24
LOW, HIGH = (-1000, -1000), (1000, 1000)


@pytest.fixture
def program(monkeypatch):
    monkeypatch.setenv("STAND_IN_FILES", "1")
    return REAL or bkd.find(STAND_IN)


class Folder:
    """A folder and what is known of it, as a layout would."""

    def __init__(self, path, program):
        self.path, self.program = str(path), program
        self.layout, self.place = uuid.uuid4().hex, uuid.uuid4().hex
        self.order, self.mark = 0, None

    def known(self, is_exact=False):
        return Known(self.layout, self.place, self.order, self.mark, is_exact)

    def do(self, method, *words):
        """Has it done by a new process's `Shard`, as after a fault."""
        shard = Shard(self.path, self.program)
        try:
            told = getattr(shard, method)(self.known(), *words)
        finally:
            shard.close()
        if hasattr(told, "state"):
            self.order, self.mark = told.state.order, told.state.mark
        return told

    def keys(self):
        from bkd.shards import box
        return self.do("ask", [box(LOW, HIGH)]).keys.tolist()


def killed_within(work, steps):
    """Does work in a process that kills itself at its n-th step, and answers whether it did."""
    child = os.fork()
    if child == 0:
        left = [steps]

        def step():
            left[0] -= 1
            if left[0] == 0:
                os.kill(os.getpid(), signal.SIGKILL)

        def wrapped(call):
            def work(*words, **named):
                step()
                told = call(*words, **named)
                step()
                return told
            return work

        # what a change calls on its way: it may be killed before and behind each
        os.fsync, os.truncate = wrapped(os.fsync), wrapped(os.truncate)
        journal.Journal.append = wrapped(journal.Journal.append)
        subprocess.Popen.__init__ = wrapped(subprocess.Popen.__init__)
        subprocess.Popen.wait = wrapped(subprocess.Popen.wait)
        lock.take = wrapped(lock.take)
        with contextlib.suppress(BaseException):
            work()
        os._exit(0)
    _, status = os.waitpid(child, 0)
    return os.WIFSIGNALED(status)


def drawn_change(draw, token, model, following):
    """A change of this token: its kind, its words, and the points that it adds."""
    kind, points = draw.choice(["add", "add", "delete", "box", "back"]), []
    if kind in ("add", "back"):
        count = draw.randint(1, 40)
        points = [(draw.randint(-9, 9), draw.randint(-9, 9)) for _ in range(count)]
        words = "add", token, documents_of(points, 2), numpy.arange(following, following + count)
    elif kind == "delete":
        words = "delete", token, numpy.array(sorted(draw.sample(sorted(model), len(model) // 3)), dtype=int)
    else:
        words = "change", token, requests.delete_box((0, 0), (5, 5))
    return kind, words, points


@pytest.mark.parametrize("seed", SEEDS)
def test_killed_at_drawn_steps(program, tmp_path, seed):
    """Each change is tried by processes that are killed, then done by one that isn't; what is stored is the model's."""
    draw = random.Random(seed)
    kills, turn = 0, 0
    while kills < KILLS:
        folder = Folder(tmp_path / f"{turn}", program)
        model, following = {}, 0
        for tries in range(draw.randint(0, 2)):
            kills += killed_within(lambda: folder.do("make", 2, 4), draw.randint(1, 16))
        folder.do("make", 2, 4)
        for _ in range(5):
            token, turn = uuid.uuid4().hex, turn + 1
            kind, words, points = drawn_change(draw, token, model, following)
            following += len(points)
            for _ in range(draw.randint(0, 3)):
                kills += killed_within(lambda: folder.do(*words), draw.randint(1, 16))
                found = folder.keys()
                assert found in (sorted(model), sorted(after(model, kind, words, points)))
            if kind == "back":
                for _ in range(draw.randint(0, 2)):
                    kills += killed_within(lambda: folder.do("take_back", token), draw.randint(1, 20))
                folder.do("take_back", token)
                with pytest.raises(shards.Changed, match="taken back"):
                    folder.do(*words)
            else:
                wanted = after(model, kind, words, points)
                told = folder.do(*words)
                assert told.gone == (len(model) - len(wanted) if kind != "add" else 0)
                assert folder.do(*words).gone == told.gone
                model = wanted
            assert folder.keys() == sorted(model)
        assert folder.do("check")[1].live == len(model)
        shutil.rmtree(folder.path)


def after(model, kind, words, points):
    """The model behind a change."""
    if kind in ("add", "back"):
        return model | dict(zip(words[3].tolist(), points))
    if kind == "delete":
        return {key: point for key, point in model.items() if key not in set(words[2].tolist())}
    return {key: (x, y) for key, (x, y) in model.items() if not (0 <= x <= 5 and 0 <= y <= 5)}


def test_what_is_not_as_it_was(program, tmp_path):
    """A folder that isn't there, of another place, older, changed by something else, or damaged: never an answer."""
    folder = Folder(tmp_path / "a", program)
    folder.do("make", 2, None)
    folder.do("add", "one", documents_of([(1, 1), (2, 2), (3, 3)], 2), numpy.arange(3))
    shutil.copytree(folder.path, tmp_path / "older")
    shard = Shard(folder.path, program)
    assert len(shard.ask(folder.known(), [shards.box(LOW, HIGH)]).keys) == 3
    shard.close_idle(0)
    other = Folder(folder.path, program)
    with pytest.raises(shards.Changed, match="another layout"):
        other.do("make", 2, None)
    folder.do("delete", "two", numpy.array([1]))
    os.rename(folder.path, tmp_path / "moved")
    for asked in (lambda: folder.keys(), lambda: shard.ask(folder.known(), [shards.box(LOW, HIGH)]),
                  lambda: folder.do("add", "three", documents_of([(1, 1)], 2), numpy.array([7]))):
        with pytest.raises(bkd.NoIndex, match="/a"):
            asked()
    shutil.copytree(tmp_path / "older", folder.path)
    with pytest.raises(shards.Changed, match="at change 1, and not at 2"):
        shard.ask(folder.known(), [shards.box(LOW, HIGH)])
    shutil.rmtree(folder.path)
    os.rename(tmp_path / "moved", folder.path)
    assert folder.keys() == [0, 2]
    shard.close()
    with bkd.open(folder.path, program=program) as index:
        index.delete(0)
    with pytest.raises(shards.Changed, match="its commit is another one"):
        folder.keys()


@pytest.mark.parametrize("most", [1, 5])
def test_every_coordinate_goes_over(program, tmp_path, most):
    """Documents of one point go as a table, others as lines; whatever digits they have."""
    edges = [0, *(sign * (10 ** d + off) for sign in (1, -1) for d in range(10) for off in (-1, 0, 1)),
             -(1 << 31), (1 << 31) - 1]
    draw = random.Random(most)
    documents = [[tuple(draw.choice(edges) for _ in range(3)) for _ in range(draw.randint(1, most))]
                 for _ in range(9000 if REAL else 900)]
    folder = Folder(tmp_path / "a", program)
    folder.do("make", 3, None)
    found = documents_of(documents, 3)
    assert (found.counts is None) == (most == 1)
    folder.do("add", "one", found, numpy.arange(len(documents)))
    keys, stored = folder.do("export")
    begins = stored.begins().tolist()
    points = [stored.points[a:b].tolist() for a, b in zip(begins, [*begins[1:], len(stored.points)])]
    assert keys.tolist() == list(range(len(documents)))
    assert points == [sorted(map(list, set(document))) for document in documents]
    rows = numpy.array(draw.sample(range(len(documents)), 50))
    assert found.chosen(rows).points.tolist() == [list(point) for row in rows for point in documents[row]]


@pytest.mark.parametrize("line", ["add 9 9", "merge"])
def test_something_else_writes(program, tmp_path, line):
    folder = Folder(tmp_path / "a", program)
    folder.do("make", 2, None)
    for at in range(2):
        folder.do("add", f"{at}", documents_of([(at, at)], 2), numpy.array([at]))
    with bkd.open(folder.path, program=program) as index:
        index.ask([requests.MERGE if line == "merge" else requests.add((9, 9))])
    with pytest.raises(shards.Changed):
        folder.keys()


def test_each_byte_of_the_journal(program, tmp_path):
    """A bit that flips, and an end that lacks: refused, or, behind the last whole record, as it was."""
    folder = Folder(tmp_path / "a", program)
    folder.do("make", 2, None)
    folder.do("add", "one", documents_of([(1, 1), (2, 2)], 2), numpy.array([5, 6]))
    folder.do("delete", "two", numpy.array([5]))
    path = os.path.join(folder.path, journal.NAME)
    with open(path, "rb") as file:
        whole = file.read()
    for at in range(len(whole)):
        for text in (whole[:at] + bytes([whole[at] ^ 1 << at % 8]) + whole[at + 1:], whole[:at]):
            with open(path, "wb") as file:
                file.write(text)
            with pytest.raises((shards.Changed, bkd.NoIndex, bkd.Error)):
                shards_read(folder)
    with open(path, "wb") as file:
        file.write(whole + whole[-50:])
    assert folder.keys() == [6]


def shards_read(folder):
    from bkd.shards.state import look_at
    look_at(folder.path, journal.read(folder.path), folder.known())
