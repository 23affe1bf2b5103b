"""Two workers in this process: calls of them, and writings of the layout, are counted down to where they die."""
import pytest

from bkd import shards
from bkd.shards.crew import Crew, _Gone
from bkd.shards.keeper import Keeper
from bkd.shards.layout import Layout
from bkd.shards.shards import Shards
from conftest import REAL, STAND_IN
from plain import box_of


class Killed(BaseException):
    """The client is killed."""


class Steps:
    """Where something is to happen: before the step that it counts down to."""

    def __init__(self):
        self.left, self.what, self.hook = 0, None, lambda: None

    def set(self, left, what):
        self.left, self.what = left, what

    def step(self):
        self.left -= 1
        if self.left == 0:
            raise self.what


class Local(Crew):
    """Two workers in this process, `w0` and `w1`; `down` are those that aren't there."""

    keepers = {}

    def __init__(self, program, steps):
        super().__init__(None, program, {})
        self._steps = steps
        self.down = set()

    def _look(self):
        self._names = {name: name for name in ("w0", "w1") if name not in self.down}

    def _keeper(self, address):
        keeper = self.keepers.setdefault((address, self._program), Keeper(self._program))
        return Calls(keeper)

    def _result(self, call, address):
        if address in self.down:
            raise _Gone(address)
        self._steps.hook()
        self._steps.step()
        told = call()
        self._steps.step()
        return told

    def _wait_for_change(self):
        self._look()


class Calls:
    """A keeper whose calls are done when they are waited for."""

    def __init__(self, keeper):
        self._keeper = keeper

    def __getattr__(self, method):
        return lambda *words: lambda: getattr(self._keeper, method)(*words)


class Client:
    def close(self):
        pass


@pytest.fixture
def words(monkeypatch):
    monkeypatch.setenv("STAND_IN_FILES", "1")
    monkeypatch.delenv("STAND_IN_COMMANDS", raising=False)
    return tuple(REAL.words if REAL else STAND_IN)


@pytest.fixture
def steps(monkeypatch):
    """Steps that calls of folders and writings of the layout count down."""
    made, write = Steps(), Layout.write

    def stepped(*words, **named):
        if isinstance(made.what, Killed):
            made.step()
        write(*words, **named)
        if isinstance(made.what, Killed):
            made.step()

    monkeypatch.setattr(Layout, "write", stepped)
    return made


def opened(tmp_path, words, steps):
    index = Shards(tmp_path / "layout.json", Client(), words, None, True, 5)
    index._crew = Local(words, steps)
    index._additions._crew = index._deletions._crew = index._crew
    return index


def created(tmp_path, count=3, **how):
    shards.create(tmp_path / "layout.json", [tmp_path / f"shard {i}" for i in range(count)], **how)


def drawn_call(draw, index, documents, following, turn):
    """A call that changes the index, and the documents behind it."""
    kind = draw.choice(["add", "add", "delete", "box", "rebalance"])
    if kind == "add":
        points = [(draw.randint(-40, 40), draw.randint(-40, 40)) for _ in range(draw.randint(1, 120))]
        keys = list(range(following, following + len(points)))
        after = documents | {key: [point] for key, point in zip(keys, points)}
        return lambda: index().add_many(points, keys, token=f"{turn}"), after
    if kind == "delete":
        gone = set(draw.sample(sorted(documents), len(documents) // 4))
        after = {key: found for key, found in documents.items() if key not in gone}
        return lambda: index().delete_many(sorted(gone), token=f"{turn}"), after
    if kind == "box":
        x, y = draw.randint(-40, 30), draw.randint(-40, 30)
        gone = set(box_of(documents, (x, y), (x + 20, y + 20)))
        after = {key: found for key, found in documents.items() if key not in gone}
        return lambda: index().delete_box((x, y), (x + 20, y + 20), token=f"{turn}"), after
    return lambda: index().rebalance(), documents


def stored_in(index):
    return {key: list(points) for key, points in index.export()}
