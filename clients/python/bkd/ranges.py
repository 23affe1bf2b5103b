"""Documents that have ranges.

Ranges of R dimensions are held as points of 2R: the lower ends, then the upper ends. The three queries are boxes over
these, so that a session answers them; the program's own command `ranges` reads the same folders.
"""
from __future__ import annotations

import os
from collections.abc import Iterable, Iterator
from types import TracebackType
from typing import Any, SupportsIndex

from . import kept, options, requests
from .commands import Folder, Info, Which
from .errors import Refused
from .index import Index
from .kept import Kept
from .opening import Opening
from .options import WAIT
from .queries import Numbers, Snapshot
from .requests import Point, Request, coordinates
from .scale import GREATEST, LEAST

MOST_DIMS = 4
Range = tuple[Point, Point]


def _ends(lo: Point, hi: Point) -> tuple[tuple[int, ...], tuple[int, ...]]:
    """The ends of a range; `Refused` where an upper one is below its lower one."""
    low, high = coordinates(lo), coordinates(hi)
    if len(low) != len(high) or any(a > b for a, b in zip(low, high)):
        raise Refused(" ".join(map(str, low + high)), "not a range", 0)
    return low, high


def add(*ranges: Range) -> Request:
    """Adds a document of these ranges, each (lower ends, upper ends); answered by its number."""
    return requests.add([low + high for low, high in (_ends(*one) for one in ranges)])


def intersects(lo: Point, hi: Point, of: str | None = None) -> Request:
    """Asks for the documents of which a range has a point in common with this one; answered by their numbers."""
    low, high = _ends(lo, hi)
    return requests.box((LEAST,) * len(low) + low, high + (GREATEST,) * len(low), of)


def within(lo: Point, hi: Point, of: str | None = None) -> Request:
    """Asks for the documents of which a range lies in this one; answered by their numbers."""
    low, high = _ends(lo, hi)
    return requests.box(low + low, high + high, of)


def contains(lo: Point, hi: Point, of: str | None = None) -> Request:
    """Asks for the documents of which a range has all points of this one; answered by their numbers."""
    low, high = _ends(lo, hi)
    return requests.box((LEAST,) * len(low) + high, low + (GREATEST,) * len(low), of)


class RangeQueries:
    """The three queries over ranges."""

    _of: str | None = None

    def _query(self, request: Request) -> Any:
        raise NotImplementedError

    def intersects(self, lo: Point, hi: Point) -> Numbers:
        """The numbers of the documents of which a range has a point in common with this one."""
        return self._query(intersects(lo, hi, self._of))

    def within(self, lo: Point, hi: Point) -> Numbers:
        """The numbers of the documents of which a range lies in this one."""
        return self._query(within(lo, hi, self._of))

    def contains(self, lo: Point, hi: Point) -> Numbers:
        """The numbers of the documents of which a range has all points of this one."""
        return self._query(contains(lo, hi, self._of))


class RangeSnapshot(RangeQueries):
    """The documents as they were when it was taken; a context manager that releases it."""

    def __init__(self, snapshot: Snapshot) -> None:
        self._snapshot = snapshot
        self._of = self.name = snapshot.name

    def _query(self, request: Request) -> Any:
        return self._snapshot._query(request)

    def release(self) -> None:
        """Lets the snapshot go; its name may be taken again."""
        self._snapshot.release()

    def __enter__(self) -> RangeSnapshot:
        return self

    def __exit__(self, kind: type[BaseException] | None, error: BaseException | None, at: TracebackType | None) -> None:
        self._snapshot.__exit__(kind, error, at)


class Ranges(RangeQueries):
    """Documents of 1 to 16 ranges of `dims` dimensions, 1 to 4; made by `open_ranges`.

    What is said of `Index` holds here: of commits, exceptions, threads and forks. A range is its lower ends and its
    upper ends, both in it; one whose upper end is below its lower one raises `Refused`, with 0 as its number.
    """

    def __init__(self, index: Index) -> None:
        self._index = index
        self.dims = index.dims // 2

    def __enter__(self) -> Ranges:
        return self

    def __exit__(self, kind: type[BaseException] | None, error: BaseException | None, at: TracebackType | None) -> None:
        self._index.__exit__(kind, error, at)

    def __len__(self) -> int:
        return len(self._index)

    def __bool__(self) -> bool:
        return True

    def _query(self, request: Request) -> Any:
        return self._index._query(request)

    def close(self) -> None:
        """Commits what isn't committed and ends the program."""
        self._index.close()

    def abandon(self) -> None:
        """Ends the program at once. What wasn't committed is undone."""
        self._index.abandon()

    def add(self, *ranges: Range) -> int:
        """Adds a document of these ranges, each (lower ends, upper ends), and answers its number."""
        return self._index.add([low + high for low, high in (_ends(*one) for one in ranges)])

    def add_many(self, documents: Any) -> Numbers:
        """Adds documents and answers their numbers, as `Index.add_many` does.

        `documents` is an iterable of documents, each a sequence of ranges; or an array of whole numbers of shape
        (n, 2 * dims), lower ends first, a document of one range each.
        """
        if hasattr(documents, "dtype"):
            if (documents[:, :self.dims] > documents[:, self.dims:]).any():
                raise Refused("add", "not a range", 0)
            return self._index.add_many(documents)
        return self._index.add_many([low + high for low, high in (_ends(*one) for one in ranges)]
                                    for ranges in documents)

    @property
    def given(self) -> range:
        """The numbers that the last `add_many` has given, also where it didn't come to its end."""
        return self._index.given

    def delete(self, number: SupportsIndex) -> bool:
        """Deletes the document of this number; False where it wasn't live."""
        return self._index.delete(number)

    def delete_many(self, numbers: Any) -> int:
        """Deletes the documents of these numbers, and answers how many were live."""
        return self._index.delete_many(numbers)

    def ask(self, asked: Iterable[Request]) -> list[Any]:
        """Has requests of `bkd.ranges` done, as `Index.ask` does."""
        return self._index.ask(asked)

    def snapshot(self, name: str) -> RangeSnapshot:
        """Keeps the documents as they are under a name, as `Index.snapshot` does."""
        return RangeSnapshot(self._index.snapshot(name))

    def merge(self) -> None:
        """Merges all segments into one, without the deleted documents."""
        self._index.merge()

    def commit(self) -> None:
        """Stores all that was done."""
        self._index.commit()

    def begin(self) -> None:
        """From here on nothing is stored until `commit`."""
        self._index.begin()

    def rollback(self) -> None:
        """Undoes all that isn't committed."""
        self._index.rollback()

    def info(self) -> Info:
        """What is stored, in numbers; `dims` are those of the points that hold the ranges."""
        return self._index.info()

    def to_arrays(self) -> tuple[Any, Any]:
        """All live documents as two arrays, a row for each range: numbers, and ends, the lower ones first; see
        `Index.to_arrays`."""
        return self._index.to_arrays()

    def export(self) -> Iterator[tuple[int, tuple[Range, ...]]]:
        """All live documents as (number, ranges), by ascending number; see `Index.export`."""
        half = self.dims
        for number, points in self._index.export():
            yield number, tuple((point[:half], point[half:]) for point in points)

    __iter__ = export


def open_ranges(folder: Folder, dims: int | None = None, leaf: int | None = None, cache: int = 1024, forks: int = 1, *,
                create: bool = False, read: bool = False, wait: float = WAIT, autocommit: bool = False,
                program: Which = None, timeout: float | None = 600.0, arrays: bool = False) -> Ranges:
    """Opens an index of ranges of `dims` dimensions, 1 to 4, 1 for a new one where it is left out.

    The options, and what is raised, are those of `bkd.open`; `OtherKind` where the folder holds points.
    """
    if create and read:
        raise ValueError("read=True makes no index")
    asked = None if dims is None else options.dims(dims, MOST_DIMS)
    opened = Opening(folder, None if asked is None else 2 * asked, leaf, Kept(kept.RANGES), cache, forks, create=create,
                     read=read, wait=wait, program=program, timeout=timeout)
    with opened as session:
        if opened.dims % 2 != 0:
            raise ValueError(f"{os.fspath(folder)} has points of {opened.dims} dimensions, which are no ranges")
        return Ranges(Index(opened.program, opened.path, session, opened.dims, arrays=arrays, autocommit=autocommit,
                            read=read))
