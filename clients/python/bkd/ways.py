"""Ways over the globe, in metres on a sphere of the Earth's mean radius, between places in degrees."""
from __future__ import annotations

import math
from typing import Any

# degrees that are whole numbers have so many decimals, where an index says nothing else
DECIMALS = 7
# the mean radius of the Earth by the International Union of Geodesy and Geophysics, in metres
RADIUS = 6_371_008.8
DegreesBox = tuple[float, float, float, float]


def great_circle(lon: Any, lat: Any, to_lon: Any, to_lat: Any) -> Any:
    """The way over the globe, in metres, between places in degrees; numbers or arrays of them, which want numpy.

    Half a chord's square by the haversine formula, on a sphere of the mean radius.
    """
    if all(isinstance(value, (int, float)) for value in (lon, lat, to_lon, to_lat)):
        half = _haversine(math, lon, lat, to_lon, to_lat)
        return 2 * RADIUS * math.asin(min(1.0, math.sqrt(half)))
    import numpy
    half = _haversine(numpy, lon, lat, to_lon, to_lat)
    return 2 * RADIUS * numpy.arcsin(numpy.minimum(1.0, numpy.sqrt(half)))


def _haversine(by: Any, lon: Any, lat: Any, to_lon: Any, to_lat: Any) -> Any:
    across = by.sin(by.radians(to_lon - lon) / 2) ** 2
    up = by.sin(by.radians(to_lat - lat) / 2) ** 2
    return up + by.cos(by.radians(lat)) * by.cos(by.radians(to_lat)) * across


def cap(lon: float, lat: float, metres: float) -> list[DegreesBox]:
    """One or two boxes (west, south, east, north) that hold all places so near; a little larger than they must be."""
    angle = math.degrees(metres / RADIUS) * (1 + 1e-9) + 1e-9
    south, north = max(-90.0, lat - angle), min(90.0, lat + angle)
    if lat - angle <= -90 or lat + angle >= 90:
        return [(-180.0, south, 180.0, north)]
    side = math.sin(math.radians(angle)) / math.cos(math.radians(lat))
    wide = math.degrees(math.asin(min(1.0, side))) * (1 + 1e-9) + 1e-9
    west, east = lon - wide, lon + wide
    if west < -180:
        return [(west + 360, south, 180.0, north), (-180.0, south, east, north)]
    if east > 180:
        return [(west, south, 180.0, north), (-180.0, south, east - 360, north)]
    return [(west, south, east, north)]


def nearest_in(lon: float, lat: float, box: DegreesBox) -> float:
    """The least way to a place of a box (west, south, east, north) that doesn't go over the date line.

    Of each parallel the nearest place is the one of the least difference in longitude, so where the place's own
    meridian misses the box its nearest place is on one of its sides.
    """
    west, south, east, north = box
    if west <= lon <= east:
        return RADIUS * math.radians(max(south - lat, 0.0, lat - north))
    return min(_to_meridian(lon, lat, side, south, north) for side in (west, east))


def _to_meridian(lon: float, lat: float, side: float, south: float, north: float) -> float:
    """The least way to a part of a meridian: to where the way meets it upright, or to one of the ends."""
    ends = [south, north]
    along = math.cos(math.radians(lat)) * math.cos(math.radians(side - lon))
    if along > 0:
        ends.append(min(max(math.degrees(math.atan2(math.sin(math.radians(lat)), along)), south), north))
    return min(great_circle(lon, lat, side, end) for end in ends)


def farthest_in(lon: float, lat: float, box: DegreesBox) -> float:
    """The greatest way to a place of such a box: half way round, less the least one from the opposite place."""
    return math.pi * RADIUS - nearest_in(lon - 180 if lon > 0 else lon + 180, -lat, box)
