"""The three queries, over the documents as they are or as a snapshot kept them."""
from __future__ import annotations

import contextlib
from collections.abc import Sequence
from types import TracebackType
from typing import TYPE_CHECKING, Any, SupportsIndex

from . import requests
from .answers import HITS, HITS_ARRAY, NEAR, NEAR_ARRAYS
from .errors import Closed
from .requests import Request
from .scale import Scale, polygons_of
from .spelling import Place, corners

if TYPE_CHECKING:
    from .index import Index

Numbers = Sequence[int]
Near = Sequence[tuple[int, int]]
_ARRAYS = {HITS: HITS_ARRAY, NEAR: NEAR_ARRAYS}


def as_array(request: Request) -> Request:
    """The same request, answered as arrays."""
    return Request(request.line, _ARRAYS.get(request.answer, request.answer))


class Queries:
    """The three queries. Coordinates are whole numbers, or values at the index's scale where it has one."""

    _of: str | None = None
    _scale: Scale | None = None
    _arrays = False

    def _query(self, request: Request) -> Any:
        """The answer to one request, as an array where that is wanted; what is refused is raised."""
        raise NotImplementedError

    def box(self, lo: Place, hi: Place) -> Numbers:
        """The numbers, ascending, of the documents that have a point `p` with `lo[i] <= p[i] <=
        hi[i]` in each dimension."""
        return self._query(requests.box(*corners(self._scale, lo, hi), self._of))

    def polygon(self, shape: Any) -> Numbers:
        """The numbers, ascending, of the documents that have a point in a polygon of a shape, its edges among it.

        `shape` is a GeoJSON Polygon, MultiPolygon, Feature, FeatureCollection or GeometryCollection as a dict, a list
        of closed rings of positions, or what has `__geo_interface__`. A point is in a polygon where it lies on an edge,
        or by the even-odd rule over all of its rings. Values at a scale are rounded to the nearest.
        """
        if self._scale is not None:
            asked = [requests.polygon(self._scale.polygon(rings, "nearest"), self._of) for rings in polygons_of(shape)]
        else:
            asked = requests.polygons(shape, self._of)
        return self._united([self._query(one) for one in asked])

    def _united(self, found: list[Any]) -> Any:
        if len(found) == 1:
            return found[0]
        if self._arrays:
            import numpy
            return numpy.unique(numpy.concatenate([numpy.empty(0, dtype=numpy.uint32), *found]))
        return sorted(set().union(*found))

    def nearest(self, k: SupportsIndex, at: Place) -> Near:
        """The `k` nearest documents, 1 to 10,000, as (number, squared distance), ascending by distance, then number.

        Distances are on the plane, of whole numbers, whatever the scale. With `arrays` two arrays are answered: numbers
        as uint32, and squared distances as uint64, or as Python's numbers where one is beyond.
        """
        if self._scale is not None:
            at = self._scale.point(at, "nearest")
        return self._query(requests.nearest(k, at, self._of))  # type: ignore[arg-type]


class Snapshot(Queries):
    """The documents as they were when it was taken; a context manager that releases it."""

    def __init__(self, index: Index, name: str) -> None:
        self._index = index
        self._of = self.name = name
        self._scale, self._arrays = index._scale, index._arrays
        self._session = index._session_number

    def _query(self, request: Request) -> Any:
        if self._session != self._index._session_number:
            raise Closed("the snapshot ended with a rollback")
        return self._index._query(request)

    def release(self) -> None:
        """Lets the snapshot go; its name may be taken again."""
        self._query(requests.release(self.name))

    def __enter__(self) -> Snapshot:
        return self

    def __exit__(self, kind: type[BaseException] | None, error: BaseException | None, at: TracebackType | None) -> None:
        # an index that is closed or was rolled back has no snapshots left
        with contextlib.suppress(Closed):
            self.release()
