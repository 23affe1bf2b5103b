"""Documents and queries in the form that goes to workers."""
from __future__ import annotations

import json
from collections.abc import Iterable, Iterator, Sequence
from dataclasses import dataclass
from itertools import chain
from typing import Any

import numpy

from .. import requests
from ..answers import HITS_ARRAY
from ..errors import Refused
from ..requests import Request
from ..scale import GREATEST, LEAST, held

Array = numpy.ndarray[Any, Any]


@dataclass(frozen=True)
class Documents:
    """Documents as the array of all their points, of shape (m, dims) and type int32, and how many points each has.

    `counts` is None where each has one.
    """

    points: Array
    counts: Array | None = None

    def __len__(self) -> int:
        return len(self.points) if self.counts is None else len(self.counts)

    def begins(self) -> Array:
        """Where each document's points begin."""
        if self.counts is None:
            return numpy.arange(len(self.points))
        return (self.counts.cumsum() - self.counts).astype(numpy.int64)

    def chosen(self, rows: Array) -> Documents:
        """Some of the documents."""
        if self.counts is None:
            return Documents(self.points[rows])
        counts = self.counts[rows]
        ends = counts.cumsum()
        # each point's row: where its document begins, and its place in that
        places = numpy.repeat(self.begins()[rows] - ends + counts, counts) + numpy.arange(counts.sum())
        return Documents(self.points[places], counts)

    def firsts(self) -> Array:
        """Each document's first point."""
        return self.points if self.counts is None else self.points[self.begins()]

    def part(self, of: slice) -> Documents:
        """Some documents that follow each other."""
        return Documents(self.points[of]) if self.counts is None else self.chosen(numpy.arange(len(self))[of])


def documents_of(given: Any, dims: int) -> Documents:
    """Documents of an array of shape (n, dims), a point each, or of an iterable of what `Index.add` takes.

    What has a coordinate beyond 32 bits, or not 1 to 16 points, raises ValueError, and what is no whole number
    TypeError.
    """
    if hasattr(given, "dtype"):
        if given.dtype.kind not in "iu":
            raise TypeError(f"an array of {given.dtype} has no whole numbers")
        points = given.reshape(-1, 1) if dims == 1 and given.ndim == 1 else given
        counts = None
    else:
        listed = [requests.points_of(document) for document in given]
        if not all(1 <= len(document) <= 16 for document in listed):
            raise ValueError("a document has 1 to 16 points")
        if not all(len(point) == dims for document in listed for point in document):
            raise ValueError(f"a point has {dims} coordinates")
        points = numpy.array(list(chain.from_iterable(listed)), dtype=object).reshape(-1, dims)
        counts = numpy.array([len(document) for document in listed]) if len(points) > len(listed) else None
    if points.ndim != 2 or points.shape[1] != dims:
        raise ValueError(f"an array of shape {points.shape} has no points of {dims} dimensions")
    if len(points) and not (-(1 << 31) <= points.min() and points.max() < 1 << 31):
        raise ValueError("a coordinate is beyond 32 bits")
    return Documents(points.astype(numpy.int32), counts)


def keys_of(given: Iterable[int] | Array) -> Array:
    """Keys as an array of int64. What is no whole number of 64 bits raises TypeError or OverflowError."""
    keys = numpy.asarray(given if hasattr(given, "dtype") else list(given))
    if len(keys) and keys.dtype.kind not in "iu":
        raise TypeError(f"keys of {keys.dtype} are no whole numbers")
    if keys.dtype.kind == "u" and len(keys) and int(keys.max()) >= 1 << 63:
        raise OverflowError("a key is beyond 64 bits")
    return keys.astype(numpy.int64)


@dataclass(frozen=True)
class Query:
    """A query: of a box its ends, of a polygon its text, of the nearest `k` (0 of all others) and the point."""

    box: tuple[tuple[int, ...], tuple[int, ...]] | None = None
    polygon: str | None = None
    k: int = 0
    at: tuple[int, ...] = ()

    def request(self) -> Request:
        if self.box is not None:
            return Request(requests.box(*self.box).line, HITS_ARRAY)
        if self.polygon is not None:
            return Request("polygon " + self.polygon, HITS_ARRAY)
        return requests.nearest(self.k, self.at)

    def check(self, dims: int) -> None:
        """Raises `Refused` where the program would refuse it for its form in every folder."""
        points = self.box if self.box is not None else () if self.polygon is not None else (self.at,)
        if any(len(point) != dims for point in points):
            raise Refused(self.request().line, "wrong words", 1)
        for place, c in enumerate(chain.from_iterable(points)):
            if not LEAST <= c <= GREATEST:
                raise Refused(self.request().line, f"bad number in word {place + (3 if self.k else 2)}", 1)
        if self.polygon is not None and dims != 2:
            raise Refused(self.request().line, "not two dimensions", 1)

    def bounds(self) -> tuple[Sequence[int], Sequence[int]]:
        """The least and the greatest coordinates of what it may find, or what holds these; all where that can't be
        told."""
        if self.box is not None:
            return self.box
        try:
            positions = [position for ring in json.loads(self.polygon or "")["coordinates"] for position in ring]
            across, up = [held(x) for x, _ in positions], [held(y) for _, y in positions]
            return (min(across), min(up)), (max(across), max(up))
        except (ValueError, KeyError, TypeError, OverflowError):
            return (LEAST,) * 2, (GREATEST,) * 2


@dataclass(frozen=True)
class Packed:
    """Answers to queries as they go between processes: the keys of all that answer by keys in one array, which goes
    much quicker than many."""

    values: list[Any]
    counts: list[int]
    keys: Array

    def unpacked(self) -> Iterator[Any]:
        """The answers, in order."""
        at, counts = 0, iter(self.counts)
        for value in self.values:
            if value is None:
                count = next(counts)
                value, at = self.keys[at:at + count], at + count
            yield value


def packed(answers: Sequence[Any]) -> Packed:
    """Answers, arrays of keys or lists."""
    arrays = [answer for answer in answers if isinstance(answer, numpy.ndarray)]
    values = [None if isinstance(answer, numpy.ndarray) else answer for answer in answers]
    return Packed(values, list(map(len, arrays)), numpy.concatenate([numpy.empty(0, dtype=numpy.int64), *arrays]))
