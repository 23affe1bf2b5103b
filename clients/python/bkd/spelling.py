"""Lines of many documents at once, as texts of some thousand lines."""
from __future__ import annotations

import operator
from collections.abc import Iterable, Iterator, Sequence
from itertools import chain, islice
from typing import Any, SupportsIndex

from . import requests
from .requests import Point
from .scale import GREATEST, LEAST, Scale, Value

_LINES = 8192
# a point of whole numbers, or of values at an index's scale
Place = Sequence[SupportsIndex | Value] | SupportsIndex | Value


def corners(scale: Scale | None, lo: Place, hi: Place) -> tuple[Point, Point]:
    """The corners of a box in whole numbers."""
    return (lo, hi) if scale is None else scale.box(lo, hi)  # type: ignore[return-value]


def _is_array(value: Any) -> bool:
    return hasattr(value, "dtype") and hasattr(value, "shape") and hasattr(value, "tolist")


def _whole(array: Any) -> Any:
    if array.dtype.kind not in "iu":
        raise TypeError(f"an array of {array.dtype} has no whole numbers")
    return array


def scaled(document: Any, scale: Scale) -> list[tuple[int, ...]]:
    """The points of a document of values at a scale, each rounded to the nearest."""
    if isinstance(document, (str, bytes)):
        raise TypeError(f"no document: {document!r}")
    try:
        return [scale.point(document, "nearest")]
    except (TypeError, ValueError):
        if not _has_points(document):
            raise
        return [scale.point(point, "nearest") for point in document]


def _has_points(document: Any) -> bool:
    """Whether a document is a sequence of points, and not a point."""
    return hasattr(document, "__iter__") and any(hasattr(point, "__iter__") and not isinstance(point, (str, bytes))
                                                 for point in document)


def added(documents: Any, dims: int, scale: Scale | None = None) -> Iterator[tuple[bytes, int]]:
    """Lines that add documents, as pairs of a text and its number of lines.

    `documents` is an array of whole numbers of shape (n, dims), or (n,) where `dims` is 1, a document of one point
    each; or any iterable of what `requests.add` takes. At a scale they are values, rounded to the nearest.
    """
    if _is_array(documents):
        yield from _added_rows(_whole(documents) if scale is None else scale.array(documents, "nearest"), dims)
        return
    rest = iter(documents) if scale is None else (scaled(document, scale) for document in documents)
    while some := list(islice(rest, _LINES)):
        yield _added_points(some, dims) or _lines(requests.add(document).line for document in some), len(some)


def _added_rows(array: Any, dims: int) -> Iterator[tuple[bytes, int]]:
    if array.shape != (len(array), dims) and not (dims == 1 and array.ndim == 1):
        raise ValueError(f"an array of shape {array.shape} has no points of {dims} dimensions")
    from . import digits
    for at in range(0, len(array), _LINES):
        part = array[at:at + _LINES].reshape(-1, dims)
        if part.min() < LEAST or part.max() > GREATEST:  # the program refuses it
            yield _spelled("add" + " %d" * dims + "\n", len(part), part.ravel().tolist()), len(part)
        else:
            yield digits.lines(b"add", part), len(part)


def _added_points(documents: Sequence[Any], dims: int) -> bytes | None:
    """The lines of documents of one point each, or None where some document is of another form."""
    try:
        if any(len(point) != dims for point in documents):
            return None
        return _spelled("add" + " %d" * dims + "\n", len(documents),
                        map(operator.index, chain.from_iterable(documents)))
    except TypeError:
        return None


def deleted(numbers: Any) -> Iterator[tuple[bytes, int]]:
    """Lines that delete documents, as pairs of a text and its number of lines.
    An array has whole numbers in one row."""
    rest: Iterator[SupportsIndex] = iter(_whole(numbers).ravel().tolist() if _is_array(numbers) else numbers)
    while some := list(islice(rest, _LINES)):
        yield _spelled("delete %d\n", len(some), map(operator.index, some)), len(some)


def _spelled(line: str, count: int, numbers: Iterable[int]) -> bytes:
    return (line * count % tuple(numbers)).encode()


def _lines(lines: Iterable[str]) -> bytes:
    return "".join(line + "\n" for line in lines).encode()
