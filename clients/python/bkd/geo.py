"""Decimal degrees as whole numbers at 10^-7 of a degree, and back; and the globe.

The whole numbers of 32 bits signed reach from -214.7483648 to 214.7483647 degrees. What is said of rounding in
`bkd.scale` holds here. Distances of an index of such points are in these units squared, on the plane of longitude and
latitude; on the globe they are what `great_circle` says, in metres, by which `nearest` and `radius` find.
"""
from __future__ import annotations

from decimal import Decimal
from typing import Any

from . import requests
from .globe import nearest, radius
from .scale import GREATEST, LEAST, Scale, Value, polygons_of
from .ways import DECIMALS, RADIUS, cap, great_circle

SCALE = Scale(DECIMALS)
UNIT = SCALE.unit
Degrees = Value
WholeBox = tuple[tuple[int, int], tuple[int, int]]

__all__ = ["DECIMALS", "GREATEST", "LEAST", "RADIUS", "SCALE", "UNIT", "box", "boxes", "cap", "degrees",
           "exact_degrees", "great_circle", "nearest", "point", "points", "polygon", "polygons", "radius",
           "whole", "within"]


def whole(degrees: Degrees, rounding: str | None = None) -> int:
    """The whole number of 10^-7 degrees that this is. What can't be held raises ValueError."""
    return SCALE.whole(degrees, rounding)


def degrees(number: int) -> float:
    """The float next to a whole number of 10^-7 degrees; `whole` gives the number again."""
    return SCALE.value(number)


def exact_degrees(number: int) -> Decimal:
    """The degrees of a whole number, exactly."""
    return SCALE.exact(number)


def point(lon: Degrees, lat: Degrees, rounding: str | None = None) -> tuple[int, int]:
    """A point of an index of longitude and latitude."""
    return whole(lon, rounding), whole(lat, rounding)


def box(west: Degrees, south: Degrees, east: Degrees, north: Degrees) -> WholeBox:
    """The corners `lo`, `hi` of a box: the whole numbers in it,
    so its lower sides are rounded up and its upper ones down."""
    return (whole(west, "up"), whole(south, "up")), (whole(east, "down"), whole(north, "down"))


def boxes(west: Degrees, south: Degrees, east: Degrees, north: Degrees) -> list[WholeBox]:
    """The same as one box, or as two where the box goes over the date line: where `west` is greater than `east`."""
    if whole(west, "nearest") <= whole(east, "nearest"):
        return [box(west, south, east, north)]
    return [box(west, south, 180, north), box(-180, south, east, north)]


def within(index: Any, west: Degrees, south: Degrees, east: Degrees, north: Degrees) -> list[int]:
    """The documents of an index of points by this module that have a point in a box, over the date line too."""
    found = index.ask([requests.box(low, high) for low, high in boxes(west, south, east, north)])
    return found[0] if len(found) == 1 else sorted(set().union(*found))


def points(table: Any, rounding: str | None = None) -> Any:
    """An array of degrees, of any shape and a float type of 64 bits, as an array of int32 of that shape;
    wants numpy."""
    return SCALE.array(table, rounding)


def polygon(shape: Any, rounding: str | None = None) -> dict[str, Any]:
    """The one polygon in a shape of degrees as a GeoJSON polygon of whole numbers; see `polygons`.

    A shape with none or several raises ValueError.
    """
    found = polygons(shape, rounding)
    if len(found) != 1:
        raise ValueError(f"a shape of {len(found)} polygons")
    return found[0]


def polygons(shape: Any, rounding: str | None = None) -> list[dict[str, Any]]:
    """The polygons in a shape of degrees as GeoJSON polygons of whole numbers.

    A shape is a GeoJSON Polygon, MultiPolygon, Feature, FeatureCollection or GeometryCollection as a dict, what has
    `__geo_interface__`, or a list of rings. Another type, or a position that isn't two numbers (or three: heights are
    left out), raises ValueError.
    """
    return [SCALE.polygon(rings, rounding) for rings in polygons_of(shape)]
