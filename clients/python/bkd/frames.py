"""An index beside a data frame of pandas or geopandas: document i is the frame's row i.

    import bkd.frames
    places.bkd.query((0, 45, 15, 55))             # the rows of a GeoDataFrame in a box, or in a polygon
    places.bkd.nearest((12, 42), k=3, on_globe=True)
    index = bkd.frames.from_dataframe(table, "folder", x="lon", y="lat")

The words are those of geopandas' `sindex`, as far as points go, and rows are answered as arrays of their places. Values
are held to 7 decimals, each rounded to the nearest: what lies nearer than that to an edge may fall on its other side.
"""
from __future__ import annotations

import shutil
import tempfile
import weakref
from typing import Any

import numpy
import pandas

from .commands import Folder
from .ways import DECIMALS, cap, great_circle
from .index import Index
from .opening import open
from .options import whole
from .scale import MOST_DECIMALS, Scale, polygons_of

Array = Any
_MOST_NEAR = 10_000
_NAMES = (("lon", "lat"), ("longitude", "latitude"), ("lng", "lat"), ("x", "y"))


def coordinates(frame: Any, x: str | None = None, y: str | None = None) -> Array:
    """The points of a frame's rows as an array of shape (rows, 2).

    Those of the columns `x` and `y`, else those of a GeoDataFrame's geometry, which must be points, else of columns
    `lon` and `lat`, `longitude` and `latitude`, `lng` and `lat`, or `x` and `y`. What isn't there raises ValueError.
    """
    if x is None and y is None:
        geometry = getattr(frame, "geometry", None)
        if geometry is not None and hasattr(geometry, "geom_type"):
            return _of_geometry(geometry)
        named = [pair for pair in _NAMES if set(pair) <= set(frame.columns)]
        if not named:
            raise ValueError(f"no geometry, and none of the columns {', '.join(' and '.join(p) for p in _NAMES)}")
        x, y = named[0]
    if x not in frame.columns or y not in frame.columns:
        raise ValueError(f"no columns {x!r} and {y!r}")
    return numpy.column_stack([frame[x].to_numpy(dtype=float), frame[y].to_numpy(dtype=float)])


def _of_geometry(geometry: Any) -> Array:
    if not (geometry.geom_type == "Point").all() or geometry.is_empty.any():
        raise ValueError("a geometry is no point")
    return numpy.column_stack([geometry.x.to_numpy(), geometry.y.to_numpy()])


def from_dataframe(frame: Any, folder: Folder, x: str | None = None, y: str | None = None, *,
                   decimals: int = DECIMALS, **options: Any) -> Index:
    """Makes an index of a frame's rows in a folder where none is, stores it, and answers it open.

    Document i is row i. `x` and `y` name the columns as in `coordinates`; values that aren't finite, or are beyond 32
    bits at so many decimals, raise ValueError. `options` are those of `bkd.open`.
    """
    points = coordinates(frame, x, y)
    Scale(whole("decimals", decimals, 0, MOST_DECIMALS)).array(points, "nearest")  # (before anything is made)
    index = open(folder, 2, create=True, decimals=decimals, **options)
    try:
        if index.info().next:
            raise ValueError(f"{folder} holds documents already")
        index.add_many(points)
        index.commit()
    except BaseException:
        index.abandon()
        raise
    return index


@pandas.api.extensions.register_dataframe_accessor("bkd")
class Rows:
    """The accessor `frame.bkd`: an index of the frame's rows, made in a folder of its own when it is first asked.

    It is of the frame as it was then; a frame that was changed has to be copied.
    """

    def __init__(self, frame: Any) -> None:
        self._frame = frame
        self._columns: tuple[str | None, str | None] = (None, None)
        self._index: Index | None = None
        self._points: Array = None

    def on(self, x: str, y: str) -> Rows:
        """The same over these columns."""
        rows = Rows(self._frame)
        rows._columns = (x, y)
        return rows

    @property
    def index(self) -> Any:
        """The `Index`, open, which answers by arrays."""
        if self._index is None:
            folder = tempfile.mkdtemp(prefix="bkd-")
            try:
                self._points = coordinates(self._frame, *self._columns)
                self._index = open(folder, 2, create=True, decimals=DECIMALS, arrays=True)
                self._index.add_many(self._points)
                self._index.commit()
            except BaseException:
                shutil.rmtree(folder, ignore_errors=True)
                raise
            weakref.finalize(self, _gone, self._index, folder)
        return self._index

    def __len__(self) -> int:
        return len(self._frame)

    @property
    def size(self) -> int:
        """How many rows there are."""
        return len(self._frame)

    @property
    def is_empty(self) -> bool:
        """Whether there are no rows."""
        return len(self._frame) == 0

    def intersection(self, bounds: tuple[float, float, float, float]) -> Array:
        """The places of the rows in a box (west, south, east, north), ascending; over the date line where west is
        greater than east."""
        west, south, east, north = bounds
        if west <= east:
            return self.index.box((west, south), (east, north))
        return numpy.union1d(self.index.box((west, south), (180, north)), self.index.box((-180, south), (east, north)))

    def query(self, geometry: Any, predicate: str | None = None) -> Array:
        """The places of the rows in a shape, ascending.

        `geometry` is a box (west, south, east, north), or a shape as `Index.polygon` takes it. Without `predicate` rows
        are found whose points lie in the box round it; with `"intersects"` or `"covers"` those in the shape itself, its
        edges among it. Other predicates raise ValueError.
        """
        if predicate not in (None, "intersects", "covers"):
            raise ValueError(f"predicate is None, 'intersects' or 'covers', not {predicate!r}")
        if _is_box(geometry):
            return self.intersection(geometry)
        if predicate is None:
            return self.intersection(_bounds(geometry))
        return self.index.polygon(geometry)

    def nearest(self, at: Any, k: int = 1, *, on_globe: bool = False, return_distance: bool = False) -> Any:
        """The places of the `k` nearest rows to a point, the nearest first, the least place first on ties.

        `at` is (x, y), or a point as shapely has it. With `on_globe` they are nearest by great circle, and distances
        are metres; else on the plane, of values rounded to 7 decimals.
        """
        x, y = (at.x, at.y) if hasattr(at, "x") else at
        if on_globe:
            places, distances = self._nearest_on_globe(float(x), float(y), k)
        else:
            places, squares = self.index.nearest(k, (x, y))
            distances = numpy.sqrt(squares.astype(float)) / 10 ** DECIMALS
        return (places, distances) if return_distance else places

    def _nearest_on_globe(self, lon: float, lat: float, k: int) -> tuple[Array, Array]:
        """Candidates by the plane bound how far the nearest are at most; all rows so near are ranked."""
        if not len(self._frame):
            return numpy.empty(0, dtype=numpy.uint32), numpy.empty(0)
        first, _ = self.index.nearest(min(k, _MOST_NEAR), (lon, lat))
        metres = self._metres(lon, lat, first).max() if len(first) == min(k, len(self._frame)) else None
        places = numpy.arange(len(self._frame)) if metres is None else self._in_cap(lon, lat, metres)
        distances = self._metres(lon, lat, places)
        order = numpy.lexsort((places, distances))[:k]
        return places[order], distances[order]

    def radius(self, lon: float, lat: float, metres: float) -> Array:
        """The places of the rows not farther than so many metres by great circle, ascending."""
        places = self._in_cap(lon, lat, metres)
        return places[self._metres(lon, lat, places) <= metres]

    def _in_cap(self, lon: float, lat: float, metres: float) -> Array:
        """Rows among which all are that are so near."""
        index = self.index
        low_high = [((west, south), (east, north)) for west, south, east, north in cap(lon, lat, metres)]
        found = [index.box((west - _STEP, south - _STEP), (east + _STEP, north + _STEP))
                 for (west, south), (east, north) in low_high]
        return found[0] if len(found) == 1 else numpy.union1d(*found)

    def _metres(self, lon: float, lat: float, places: Array) -> Array:
        points = self._points[places]
        return numpy.asarray(great_circle(lon, lat, points[:, 0], points[:, 1]))


# a step of the scale: a row's value is off by half of one in the index
_STEP = 10.0 ** -DECIMALS


def _gone(index: Index, folder: str) -> None:
    index.abandon()
    shutil.rmtree(folder, ignore_errors=True)


def _is_box(geometry: Any) -> bool:
    return isinstance(geometry, (tuple, list, numpy.ndarray)) and len(geometry) == 4 and \
        all(isinstance(side, (int, float, numpy.number)) for side in geometry)


def _bounds(shape: Any) -> tuple[float, float, float, float]:
    """The box round a shape."""
    if hasattr(shape, "bounds"):
        west, south, east, north = shape.bounds
        return west, south, east, north
    positions = [position for rings in polygons_of(shape) for ring in rings for position in ring]
    if not positions:
        raise ValueError("a shape without positions")
    xs, ys = zip(*(position[:2] for position in positions))
    return min(xs), min(ys), max(xs), max(ys)


def to_geodataframe(index: Index, crs: Any = "EPSG:4326") -> Any:
    """The stored documents of an index of two dimensions as a GeoDataFrame, a row for each; wants geopandas.

    The frame's index is the document's number. A document of several points has a MultiPoint.
    """
    import geopandas
    from shapely.geometry import MultiPoint, Point
    if index.dims != 2:
        raise ValueError(f"an index of {index.dims} dimensions")
    unit = 1 if index.decimals is None else 10 ** index.decimals
    numbers, shapes = [], []
    for number, points in index.export():
        values = [(x / unit, y / unit) for x, y in points]
        numbers.append(number)
        shapes.append(Point(values[0]) if len(values) == 1 else MultiPoint(values))
    return geopandas.GeoDataFrame(index=pandas.Index(numbers, name="document"), geometry=shapes, crs=crs)
