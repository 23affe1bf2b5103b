"""What is asked of an open index beyond its program's session: documents and counts, and the commands over its folder.

Documents and counts are of all that was done, committed or not: what is stored comes from the program's commands in the
folder that the session holds, which of it is still live from the session, and what isn't stored from what was sent.
"""
from __future__ import annotations

import operator
from bisect import bisect_left
from collections import Counter
from collections.abc import Iterable, Iterator, Sequence
from itertools import chain
from typing import Any, SupportsIndex

from . import commands
from . import requests as _queries
from .answers import HITS, HOW_MANY, Answer, Explained
from .commands import Checked, Info
from .errors import Refused, Uncommitted, unrefused
from .exporting import Document, export, to_arrays
from .lock import Held
from .program import Program
from .requests import Point, Request, coordinates
from .scale import GREATEST, LEAST, Scale
from .spelling import Place, corners
from .transport import Session

# so many documents the session lists before a command of the program's has counted them
_FEW = 50_000


class Stored:
    """The documents, counts, and commands over what an index has stored."""

    _program: Program
    _folder: str
    _session: Session
    _scale: Scale | None
    _counted: int | None = None
    dims: int

    # ---- documents

    def __iter__(self) -> Iterator[Document]:
        return self.export()

    def export(self) -> Iterator[Document]:
        """All live documents as (number, points), by ascending number; points ascend, and are whole numbers.

        They are those of the moment of the call. Raises `Uncommitted` where the points of one aren't known here: where
        a call that added it was interrupted, and nothing was committed since.
        """
        with self._session.still() as held:
            if not self._session.is_dirty:
                return export(self._folder, program=self._program, held=held)
            return self._documents(self._hits(*self._every()), held)

    def __contains__(self, number: object) -> bool:
        """Whether the document of this number is live."""
        try:
            wanted = b"\n%d\n" % operator.index(number)  # type: ignore[arg-type]
        except TypeError:
            return False
        has = Answer(HITS.word, True, lambda words, text: wanted in b"\n" + text)
        return unrefused([self._session.query(Request(_queries.box(*self._every()).line, has))])[0]

    def get(self, number: SupportsIndex, default: Any = None) -> Any:
        """The points of the document of this number as `export` has them, or `default` where it isn't live."""
        wanted = operator.index(number)
        with self._session.still() as held:
            found = self._documents([wanted], held) if wanted in self else iter(())
        return next((points for number, points in found), default)

    def items(self, lo: Place, hi: Place) -> Iterator[Document]:
        """The documents that have a point in the box as (number, points), by ascending number, as `export` has them,
        and raises as it does, before the first one."""
        with self._session.still() as held:
            hits = self._hits(*corners(self._scale, lo, hi))
            return self._documents(hits, held) if hits else iter(())

    def to_arrays(self) -> tuple[Any, Any]:
        """The same as `export` as two arrays, a row for each point: numbers, uint32, and points, int32 of shape
        (n, dims); wants numpy."""
        with self._session.still() as held:
            live = self._hits(*self._every()) if self._session.is_dirty else None
            stored = to_arrays(self._folder, program=self._program, held=held)
            if live is None:
                return stored
            import numpy
            rest = [(number, *point) for number, points in self._fresh(live) for point in points]
            rows = numpy.array(rest, dtype=numpy.int64).reshape(-1, 1 + self.dims)
            of_live = numpy.isin(stored[0], numpy.array(live, dtype=numpy.uint32))
            return (numpy.concatenate([stored[0][of_live], rows[:, 0].astype(numpy.uint32)]),
                    numpy.concatenate([stored[1][of_live], rows[:, 1:].astype(numpy.int32)]))

    def _every(self) -> tuple[Point, Point]:
        """The corners of the box that has all points."""
        return (LEAST,) * self.dims, (GREATEST,) * self.dims

    def _hits(self, lo: Point, hi: Point) -> list[int]:
        """The numbers of the live documents that have a point in a box."""
        return unrefused([self._session.query(_queries.box(lo, hi))])[0]

    def _documents(self, numbers: Sequence[int], held: Held) -> Iterator[Document]:
        """The documents of these ascending numbers, which are live."""
        fresh = self._fresh(numbers)
        wanted = numbers[:bisect_left(numbers, self._session.stored().next)]
        stored = _chosen(export(self._folder, program=self._program, held=held), wanted) if wanted else iter(())
        return chain(stored, fresh)

    def _fresh(self, numbers: Sequence[int]) -> Iterator[Document]:
        """Those of live documents that aren't stored."""
        first = bisect_left(numbers, self._session.stored().next)
        return self._session.unstored.documents(numbers[first:], self.dims)

    # ---- counts

    def count(self, lo: Place, hi: Place) -> int:
        """How many live points lie in the box; a document of several points counts for each.

        Where each document has one point the session counts them, but for many that are all stored.
        """
        low, high = corners(self._scale, lo, hi)
        with self._session.still() as held:
            if self._session.is_single() and (self._session.is_dirty or self._may_be_few()):
                found = self._session.query(_queries.box(low, high)._replace(answer=HOW_MANY))
                if not isinstance(found, Refused):  # (else the program's command says why)
                    self._counted = found
                    return found
            stored = self._asked(commands.points_in(low, high), held)
            if not self._session.is_dirty:
                self._counted = stored
                return stored
            return stored + sum(sign * len(points) for sign, points in self._changed(low, high, held))

    def _may_be_few(self) -> bool:
        """Whether a count may be small: as the last one was, and at first as the index is."""
        counted = self._counted
        if counted is None:
            counted = sum(one.live for one in self._session.stored().listed)
        return counted <= _FEW

    def grid(self, x: int, step_x: int, y: int, step_y: int, lo: Point, hi: Point) -> list[tuple[int, int, int]]:
        """The buckets (i, j, points) of the box that have points, cut in steps along the dimensions `x` and `y`.

        Steps and corners are whole numbers, whatever the scale.
        """
        with self._session.still() as held:
            stored = self._asked(commands.grid_over(x, step_x, y, step_y, lo, hi), held)
            if not self._session.is_dirty:
                return stored
            found, low = Counter({(i, j): points for i, j, points in stored}), coordinates(lo)
            for sign, points in self._changed(lo, hi, held):
                for point in points:
                    found[(point[x] - low[x]) // step_x, (point[y] - low[y]) // step_y] += sign
            return sorted((i, j, points) for (i, j), points in found.items() if points)

    def _asked(self, request: Request, held: Held) -> Any:
        """What the program's `count` says of what is stored."""
        return unrefused(commands.count(self._folder, [request], program=self._program, held=held))[0]

    def _changed(self, lo: Point, hi: Point, held: Held) -> Iterator[tuple[int, list[tuple[int, ...]]]]:
        """The points in a box of documents that came since the last commit, with 1, and of those that went, with -1."""
        low, high = coordinates(lo), coordinates(hi)
        live = self._hits(lo, hi)

        def within(points: Iterable[tuple[int, ...]]) -> list[tuple[int, ...]]:
            return [point for point in points if all(a <= c <= b for a, c, b in zip(low, point, high))]

        for _, points in self._fresh(live):
            yield 1, within(points)
        if self._session.book.has_deleted:
            kept = set(live)
            for number, points in export(self._folder, program=self._program, held=held):
                if number not in kept:
                    yield -1, within(points)

    # ---- commands over what is stored

    def info(self) -> Info:
        """What is stored, in numbers; see `bkd.info`."""
        with self._session.still() as held:
            return commands.info(self._folder, program=self._program, held=held)

    def explain(self, queries: Iterable[Request]) -> list[Explained | Refused]:
        """What queries of `bkd.requests` read in the segments that are stored; see `bkd.explain`."""
        with self._session.still() as held:
            return commands.explain(self._folder, queries, program=self._program, held=held)

    def check(self) -> Checked | None:
        """Reads all that is stored, and nothing else: `Damaged` where it isn't whole."""
        with self._session.still() as held:
            return commands.check(self._folder, program=self._program, held=held)

    def batch(self, queries: Iterable[Request], forks: int = 1) -> list[Any]:
        """The answers to queries over what is stored, by several threads; see `bkd.batch`.

        Raises `Uncommitted` where something isn't committed.
        """
        with self._session.still() as held:
            if self._session.is_dirty:
                raise Uncommitted("this asks what is stored, and something isn't committed: commit first")
            return commands.batch(self._folder, queries, forks, program=self._program, held=held)


def _chosen(documents: Iterator[Document], numbers: Sequence[int]) -> Iterator[Document]:
    """Those of documents that have these numbers; both ascend."""
    at = 0
    for document in documents:
        at = bisect_left(numbers, document[0], at)
        if at == len(numbers):
            return
        if numbers[at] == document[0]:
            yield document
