"""Which folders an index is spread over, which document goes where, and what each folder last held: a file of JSON."""
from __future__ import annotations

import hashlib
import json
import os
import uuid
from collections.abc import Iterator, Mapping, Sequence
from dataclasses import asdict, dataclass, field
from typing import Any, cast

import numpy

from ..commands import Folder
from ..kept import sync_names
from .documents import Array
from .errors import BadLayout

# a split (dimension, value, below, from it on), or the number of a place
Cells = list[Any] | int
# how many points are drawn to cut cells by, how many a folder have to have come before, and how many calls that are
# done are remembered by their tokens
_SAMPLE = 1 << 16
_LEAST = 64
_TOKENS = 1000


@dataclass
class Place:
    """A folder: an absolute path, or one of the worker that it is bound to by name or address.

    `bounds` are the least and the greatest coordinates that it was ever given. `order` and `mark`, the fingerprint of
    its commit, say what it held when the layout was written; `mark` is None until it is made, which is before
    its first documents.
    """

    folder: str
    name: str
    worker: str | None = None
    bounds: list[list[int]] | None = None
    live: int = 0
    order: int = 0
    mark: str | None = None

    @classmethod
    def new(cls, folder: str, worker: str | None = None) -> Place:
        return cls(folder, uuid.uuid4().hex, worker)

    def widen(self, points: Array) -> None:
        """Takes points as given to the folder."""
        if len(points):
            low, high = points.min(axis=0).tolist(), points.max(axis=0).tolist()
            if self.bounds is not None:
                low, high = list(map(min, low, self.bounds[0])), list(map(max, high, self.bounds[1]))
            self.bounds = [low, high]

    def meets(self, low: Sequence[int], high: Sequence[int]) -> bool:
        """Whether the folder may have points in a box."""
        known = self.bounds
        return known is not None and all(a <= d and b <= c for a, b, c, d in zip(low, known[0], high, known[1]))

    def distance(self, at: Sequence[int]) -> int:
        """The least squared distance that a point of the folder may have."""
        assert self.bounds is not None
        return sum(max(low - c, 0, c - high) ** 2 for c, low, high in zip(at, *self.bounds))


@dataclass
class Call:
    """A call that adds: the number of its first document among all ever added, how many it has, whether there were
    cells, and whether all of it is stored."""

    first: int
    count: int
    is_cut: bool
    is_done: bool = False


@dataclass
class Deletion:
    """A call that deletes: the line that does it, or None where keys do, whose digest is `sum`; the places that it
    is asked of, those of them that haven't done it yet, and how many documents the others have deleted."""

    line: str | None
    sum: str
    places: list[int]
    open: list[int]
    gone: int = 0


@dataclass
class Layout:
    """The folders of an index, its dimensions, and how documents are spread.

    `by` is `"number"`, the documents in turn, or `"cells"`: a sample of the first points is cut into as many cells as
    there are folders, each with as many of them, and a document goes where its first point lies; until enough points
    have come for that, all go to the first folder. `given` counts the documents ever added. `calls` are the calls
    that aren't done, and the last thousand that are, by their tokens; so are `deletions`. `leaving` are folders that
    are to be removed.
    """

    dims: int
    places: list[Place]
    leaf: int | None = None
    by: str = "number"
    name: str = field(default_factory=lambda: uuid.uuid4().hex)
    generation: int = 0
    cells: Cells | None = None
    sample: list[list[int]] = field(default_factory=list)
    given: int = 0
    calls: dict[str, Call] = field(default_factory=dict)
    leaving: list[Place] = field(default_factory=list)
    deletions: dict[str, Deletion] = field(default_factory=dict)

    def __post_init__(self) -> None:
        paths = [(os.path.normpath(place.folder), place.worker) for place in self.places]
        if not paths or len(set(paths)) != len(paths):
            raise ValueError("an index is spread over one or more different folders")
        if not 1 <= self.dims <= 8 or self.by not in ("number", "cells"):
            raise ValueError(f"no layout by {self.by!r} in {self.dims} dimensions")
        for place in self.places:
            if place.worker is None and not os.path.isabs(place.folder):
                raise ValueError(f"{place.folder} is neither absolute nor bound to a worker")

    @property
    def folders(self) -> list[str]:
        """The folders of all places."""
        return [place.folder for place in self.places]

    # ---- the file

    @classmethod
    def read(cls, path: Folder) -> Layout:
        """The layout of a file. Raises FileNotFoundError, or `BadLayout` where it isn't whole."""
        with open(path, "rb") as file:
            text = file.read()
        try:
            told = json.loads(text)
            body = told["layout"]
            if told["sha256"] != _sum(body):
                raise BadLayout(f"{os.fspath(path)} is damaged: its digest is another one")
            for name in ("places", "leaving"):
                body[name] = [Place(**place) for place in body[name]]
            body["calls"] = {token: Call(**call) for token, call in body["calls"].items()}
            body["deletions"] = {token: Deletion(**one) for token, one in body.get("deletions", {}).items()}
            return cls(**body)
        except (ValueError, KeyError, TypeError) as error:
            raise BadLayout(f"{os.fspath(path)} is no layout: {error}") from error

    def write(self, path: Folder, is_new: bool = False) -> None:
        """Written aside, synced and renamed, so that one layout or the other is there; the generation rises.
        A new one raises FileExistsError where a file is there."""
        self.generation += 1
        body = asdict(self)
        aside = f"{os.fspath(path)}.new"
        with open(aside, "w") as file:
            json.dump({"layout": body, "sha256": _sum(body)}, file)
            file.flush()
            os.fsync(file.fileno())
        if is_new:
            os.link(aside, path)
            os.remove(aside)
        else:
            os.rename(aside, path)
        sync_names(os.path.dirname(os.fspath(path)))

    # ---- where documents go

    def begin(self, token: str, firsts: Array) -> Call:
        """Notes a call that adds documents of these first points, and cuts cells where it is time."""
        if self.by == "cells" and self.cells is None:
            self._sample(firsts)
        call = Call(self.given, len(firsts), self.cells is not None)
        self.given += len(firsts)
        self.calls[token] = call
        return call

    def done(self, token: str) -> None:
        """Notes that all of a call is stored, and forgets the oldest ones."""
        self.calls[token].is_done = True
        self.forget()

    def forget(self) -> None:
        """Forgets the oldest calls that are done."""
        for name in [name for name, call in self.calls.items() if call.is_done][:-_TOKENS]:
            del self.calls[name]
        for name in [name for name, one in self.deletions.items() if not one.open][:-_TOKENS]:
            del self.deletions[name]

    def left(self) -> list[str]:
        """The tokens of the calls that aren't done to their end."""
        return ([name for name, call in self.calls.items() if not call.is_done]
                + [name for name, deletion in self.deletions.items() if deletion.open])

    def _sample(self, firsts: Array) -> None:
        drawn = sample(firsts, self.given)
        points = numpy.concatenate([numpy.array(self.sample, dtype=numpy.int64).reshape(-1, self.dims), drawn])
        if len(points) >= _LEAST * len(self.places):
            self.cells, self.sample = cut(points, list(range(len(self.places)))), []
        else:
            self.sample = points.tolist()

    def place(self, firsts: Array, call: Call) -> Array:
        """The number of the place for each document of a call, by its first point; always the same one."""
        if self.by == "number":
            return cast(Array, (call.first + numpy.arange(len(firsts))) % len(self.places))
        places = numpy.zeros(len(firsts), dtype=numpy.int64)
        if call.is_cut and self.cells is not None:
            walk(self.cells, firsts, numpy.arange(len(firsts)), places)
        return places

    def holding(self) -> Iterator[int]:
        """The numbers of the places that may have documents."""
        return (at for at, place in enumerate(self.places) if place.bounds is not None)


def _sum(body: Mapping[str, Any]) -> str:
    return hashlib.sha256(json.dumps(body, sort_keys=True, separators=(",", ":")).encode()).hexdigest()


def sample(points: Array, seed: int) -> Array:
    """Some of many points, drawn; all of few."""
    if len(points) <= _SAMPLE:
        return points
    rows = numpy.random.default_rng(seed).choice(len(points), _SAMPLE, replace=False, shuffle=False)
    return cast(Array, points[rows])


def cut(points: Array, places: list[int]) -> Cells:
    """Cells over these places with about as many of the points each: the widest dimension is cut, again and again."""
    if len(places) == 1:
        return places[0]
    half = len(places) // 2
    d = int((points.max(axis=0).astype(numpy.int64) - points.min(axis=0)).argmax()) if len(points) else 0
    points = points[points[:, d].argsort(kind="stable")]
    at = len(points) * half // len(places)
    value = int(points[at, d]) if len(points) else 0
    return [d, value, cut(points[:at], places[:half]), cut(points[at:], places[half:])]


def walk(cells: Cells, points: Array, rows: Array, places: Array) -> None:
    """Sets the place of each of these rows."""
    if isinstance(cells, int):
        places[rows] = cells
        return
    d, value, below, above = cells
    is_below = points[rows, d] < value
    walk(below, points, rows[is_below], places)
    walk(above, points, rows[~is_below], places)


def create(path: Folder, folders: Sequence[Folder], dims: int = 2, leaf: int | None = None, by: str = "number",
           workers: Mapping[str, str] | None = None) -> Layout:
    """Writes the layout of a new index, and answers it. A file that is there raises FileExistsError.

    The folders are absolute paths that every worker sees; `workers` gives those that only one sees, each with its
    worker's name or address. Each folder is made before its first documents.
    """
    bound = {os.fspath(folder): worker for folder, worker in (workers or {}).items()}
    paths = [os.fspath(folder) for folder in folders]
    if unknown := set(bound) - set(paths):
        raise ValueError(f"{min(unknown)} is none of the folders")
    layout = Layout(dims, [Place.new(folder, bound.get(folder)) for folder in paths], leaf, by)
    layout.write(path, is_new=True)
    return layout
