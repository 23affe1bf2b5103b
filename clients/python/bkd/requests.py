"""Requests: lines of the program's language, each with the form of its answer.

A request is made by a function here and answered by `Index.ask`. A point is a sequence of D whole numbers of 32 bits
signed, or a single one where D is 1; a document is a point or a sequence of 1 to 16 points. `of` is the name of a
snapshot, None for the documents as they are.
"""
from __future__ import annotations

import json
import operator
import re
from collections.abc import Iterable, Sequence
from itertools import chain
from typing import Any, NamedTuple, SupportsIndex

from .answers import DELETED, DOC, HITS, NEAR, OK, Answer
from .scale import polygons_of

Point = Sequence[SupportsIndex] | SupportsIndex
_NAME = re.compile(r"[A-Za-z0-9_-]{1,32}", re.ASCII)


class Request(NamedTuple):
    """A line without its end, and the form of its answer."""

    line: str
    answer: Answer


def coordinates(point: Point) -> tuple[int, ...]:
    """The coordinates of a point. What is no whole number raises TypeError."""
    if type(point) in (tuple, list):
        return tuple(map(operator.index, point))  # type: ignore[arg-type]
    try:
        return (operator.index(point),)  # type: ignore[arg-type]
    except TypeError:
        if isinstance(point, (str, bytes)):
            raise
        return tuple(operator.index(c) for c in point)  # type: ignore[union-attr]


def points_of(document: Any) -> list[tuple[int, ...]]:
    """The points of a document: a point, or a sequence of points."""
    try:
        return [coordinates(document)]
    except TypeError:
        if isinstance(document, (str, bytes)) or not hasattr(document, "__iter__"):
            raise
        return [coordinates(point) for point in document]


def _words(numbers: tuple[int, ...]) -> str:
    return " %d" * len(numbers) % numbers


def name_of(text: str) -> str:
    """A snapshot's name: 1 to 32 ASCII letters, digits, `_` or `-`. Another text raises ValueError."""
    if not isinstance(text, str) or not _NAME.fullmatch(text):
        raise ValueError(f"no name of a snapshot: {text!r}")
    return text


def _viewed(of: str | None) -> str:
    return "" if of is None else f" @{name_of(of)}"


def create(dims: int, leaf: int | None = None) -> Request:
    """Makes an index of `dims` dimensions, 1 to 8, with `leaf` entries a leaf."""
    return Request(f"create {dims:d}" + ("" if leaf is None else f" leaf {leaf:d}"), OK)


def add(document: Any) -> Request:
    """Adds a document; answered by its number."""
    return Request("add" + _words(tuple(chain.from_iterable(points_of(document)))), DOC)


def delete(number: SupportsIndex) -> Request:
    """Deletes the document of this number; answered by 1, or by 0 where it isn't live."""
    return Request(f"delete {operator.index(number)}", DELETED)


def delete_box(lo: Point, hi: Point) -> Request:
    """Deletes the documents that have a point in the box; answered by how many."""
    return Request("delete box" + _words(coordinates(lo) + coordinates(hi)), DELETED)


def box(lo: Point, hi: Point, of: str | None = None) -> Request:
    """Asks for the documents that have a point from `lo` to `hi`, both among them; answered by their numbers,
    ascending."""
    return Request(("box" if of is None else "box" + _viewed(of)) + _words(coordinates(lo) + coordinates(hi)), HITS)


def polygon(shape: Any, of: str | None = None) -> Request:
    """Asks for the documents that have a point in a polygon; answered by their numbers, ascending."""
    return Request(f"polygon{_viewed(of)} {geojson(shape)}", HITS)


def nearest(k: SupportsIndex, at: Point, of: str | None = None) -> Request:
    """Asks for the `k` nearest documents; answered by pairs of number and squared distance, ascending by distance,
    number."""
    return Request(f"nearest{_viewed(of)} {operator.index(k)}" + _words(coordinates(at)), NEAR)


def snapshot(name: str) -> Request:
    """Keeps the documents as they are under a name."""
    return Request(f"snapshot {name_of(name)}", OK)


def release(name: str) -> Request:
    """Lets a snapshot go."""
    return Request(f"release {name_of(name)}", OK)


def merge_begin(positions: Iterable[SupportsIndex] = ()) -> Request:
    """Begins a merge of the segments at these positions, counted from 0 by ascending id."""
    return Request("merge begin" + "".join(f" {operator.index(p)}" for p in positions), OK)


FLUSH, MERGE, MERGE_END, COMMIT, REOPEN = (Request(w, OK) for w in ("flush", "merge", "merge end", "commit", "reopen"))


def _plain(value: Any) -> Any:
    """Of what `json` doesn't know: arrays as lists, other whole numbers as int."""
    return value.tolist() if hasattr(value, "tolist") else operator.index(value)


def polygons(shape: Any, of: str | None = None) -> list[Request]:
    """A request for each polygon in a shape, which may be of many kinds: see `bkd.scale.polygons_of`.

    What is no shape of polygons is one request, so that the program says what is wrong with it.
    """
    try:
        return [polygon(rings, of) for rings in polygons_of(shape)]
    except ValueError:
        return [polygon(shape, of)]


def geojson(shape: Any) -> str:
    """The text of a polygon: a GeoJSON dict, a list of closed rings, or what has `__geo_interface__`.

    A Feature stands for its geometry. Whether it is a polygon of whole numbers is the program's to say; a text that
    can't be JSON raises TypeError or ValueError.
    """
    found = getattr(shape, "__geo_interface__", shape)
    if isinstance(found, dict) and found.get("type") == "Feature":
        found = found.get("geometry")
    if not isinstance(found, dict):
        found = {"type": "Polygon", "coordinates": found}
    return json.dumps(found, separators=(",", ":"), allow_nan=False, default=_plain)
