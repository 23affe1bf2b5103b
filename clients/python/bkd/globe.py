"""Documents near a place on the globe, in an index on the plane of longitude and latitude.

The index tells which documents have a point in a box, and no points. So a box is cut in four as long as something in it
may be nearer or farther than it has to be, down to single places, whose way is told by `great_circle`. What is found is
what a look at each point would find.
"""
from __future__ import annotations

import math
from collections.abc import Iterable, Iterator
from typing import NamedTuple

from . import requests
from .errors import unrefused
from .index import Index
from .scale import held
from .ways import DECIMALS, RADIUS, DegreesBox, cap, farthest_in, great_circle, nearest_in

# metres of room for what floats are off, which are less by far
_SLACK = 1.0
_HALF_ROUND = math.pi * RADIUS
# from this latitude on, and so many degrees apart, the plane is asked at other longitudes too
_HIGH, _APART = 45, 45
Corner = tuple[int, int]


def nearest(index: Index, k: int, lon: float, lat: float) -> list[tuple[int, float]]:
    """The `k` nearest documents, 1 to 10,000, to a place in degrees by great circle, as (number, metres), ascending by
    metres, then number; over the date line and the poles.

    `index` is one of longitudes and latitudes, of two dimensions, with decimals, or whole numbers at 10^-7. Points
    beyond 180 degrees of longitude or 90 of latitude aren't places on the globe, and never found.
    """
    with index._session.still():
        return _Search(index, lon, lat).nearest(k)


def radius(index: Index, lon: float, lat: float, metres: float) -> list[int]:
    """The numbers, ascending, of the documents not farther than so many metres by great circle from a place in degrees;
    see `nearest`."""
    if not metres >= 0:
        raise ValueError(f"metres are 0 or more, not {metres!r}")
    with index._session.still():
        return sorted(_Search(index, lon, lat).within(metres))


class Cell(NamedTuple):
    """A box, the documents that have a point in it, and how near and how far its places may be."""

    low: Corner
    high: Corner
    hits: list[int]
    least: float
    most: float

    @property
    def is_place(self) -> bool:
        return self.low == self.high

    def parts(self) -> Iterator[tuple[Corner, Corner]]:
        """The box cut in the middle of each side."""
        for west, east in _halves(self.low[0], self.high[0]):
            for south, north in _halves(self.low[1], self.high[1]):
                yield (west, south), (east, north)


def _halves(low: int, high: int) -> list[tuple[int, int]]:
    middle = (low + high) // 2
    return [(low, high)] if low == high else [(low, middle), (middle + 1, high)]


class _Search:
    """Asks an index for documents round a place."""

    def __init__(self, index: Index, lon: float, lat: float) -> None:
        if index.dims != 2:
            raise ValueError(f"an index of {index.dims} dimensions, not of longitude and latitude")
        if not (math.isfinite(lon) and -90 <= lat <= 90):
            raise ValueError(f"no place on the globe: {lon!r}, {lat!r}")
        self._index = index
        self._unit = 10 ** (DECIMALS if index.decimals is None else index.decimals)
        self._lon, self._lat = math.remainder(lon, 360), float(lat)

    def _cells(self, boxes: Iterable[tuple[Corner, Corner]]) -> list[Cell]:
        """Those of boxes that have documents."""
        asked = list(boxes)
        told = unrefused(self._index.ask([requests.box(low, high) for low, high in asked])) if asked else []
        found = []
        for (low, high), hits in zip(asked, told):
            if hits:
                sides: DegreesBox = (low[0] / self._unit, low[1] / self._unit, high[0] / self._unit,
                                     high[1] / self._unit)
                found.append(Cell(low, high, hits, nearest_in(self._lon, self._lat, sides) - _SLACK,
                                  farthest_in(self._lon, self._lat, sides) + _SLACK))
        return found

    def _round_it(self, metres: float) -> list[tuple[Corner, Corner]]:
        """One or two boxes of all places that are so near."""
        if metres >= _HALF_ROUND:
            sides = [(-180.0, -90.0, 180.0, 90.0)]
        else:
            sides = cap(self._lon, self._lat, metres + _SLACK)
        most, unit = (180 * self._unit, 90 * self._unit), self._unit
        return [((held(max(math.floor(west * unit), -most[0])), held(max(math.floor(south * unit), -most[1]))),
                 (held(min(math.ceil(east * unit), most[0])), held(min(math.ceil(north * unit), most[1]))))
                for west, south, east, north in sides]

    def _way(self, place: Corner) -> float:
        return great_circle(self._lon, self._lat, place[0] / self._unit, place[1] / self._unit)

    def within(self, metres: float) -> set[int]:
        """The documents that are so near."""
        found: set[int] = set()
        cells = self._cells(self._round_it(metres))
        while cells:
            cut: list[tuple[Corner, Corner]] = []
            for cell in cells:
                if cell.most <= metres or (cell.is_place and self._way(cell.low) <= metres):
                    found.update(cell.hits)
                elif cell.least <= metres and not cell.is_place and not found.issuperset(cell.hits):
                    cut += cell.parts()
            cells = self._cells(cut)
        return found

    def nearest(self, k: int) -> list[tuple[int, float]]:
        """The nearest by a look within a bound, or within a larger one where they aren't all so near."""
        metres = self._bound(k)
        while True:
            found = self._nearest_within(k, metres)
            if len(found) == k or metres >= _HALF_ROUND:
                return found
            metres = 4 * metres + _SLACK

    def _nearest_within(self, k: int, metres: float) -> list[tuple[int, float]]:
        ways: dict[int, float] = {}
        cells = self._cells(self._round_it(metres))
        while cells:
            # each document is no farther than this, and so the first k are no farther than the k-th of them
            most = dict(ways)
            for cell in cells:
                for number in cell.hits:
                    most[number] = min(cell.most, most.get(number, math.inf))
            limit = min(metres, sorted(most.values())[k - 1] if len(most) >= k else math.inf)
            cut: list[tuple[Corner, Corner]] = []
            for cell in cells:
                if cell.is_place:
                    way = self._way(cell.low)
                    ways |= {number: min(way, ways.get(number, way)) for number in cell.hits}
                elif cell.least <= limit:
                    cut += cell.parts()
            cells = self._cells(cut)
        first = sorted((way, number) for number, way in ways.items() if way <= metres)[:k]
        return [(number, way) for way, number in first]

    def _bound(self, k: int) -> float:
        """How far the `k` nearest are at most, as the plane has it, on which no way is shorter: from the place, from
        the same place beyond the date line, and near the poles by way of others on its parallel."""
        unit, lon, lat = self._unit, self._lon, self._lat
        around = range(-180, 181, _APART) if abs(lat) >= _HIGH else ()
        places = {(held(x * unit), held(lat * unit)) for x in (lon, lon - 360, lon + 360, *around)}
        told = unrefused(self._index.ask([requests.nearest(k, place) for place in places]))
        most: dict[int, float] = {}
        for place, found in zip(places, told):
            before = self._way(place)
            for number, square in found:
                way = before + RADIUS * math.radians(math.sqrt(square) / unit) + _SLACK
                most[number] = min(way, most.get(number, math.inf))
        return sorted(most.values())[k - 1] if len(most) >= k else _HALF_ROUND
