"""Decimal values as whole numbers at a power of ten, and back; and the polygons in shapes of many kinds.

The whole numbers of 32 bits signed are what an index holds. Without a word on rounding only what is a whole number at
the scale is taken, and all else raises ValueError; `rounding` is `"nearest"` (ties to even), `"down"` or `"up"`, and
what is given is then rounded once, from what it stands for: a float stands for the shortest decimal that reads as it,
as text shows it.
"""
from __future__ import annotations

import decimal
from collections.abc import Callable, Iterable, Iterator, Sequence
from dataclasses import dataclass
from decimal import Decimal
from fractions import Fraction
from math import ceil, floor
from typing import Any

LEAST, GREATEST = -(1 << 31), (1 << 31) - 1
MOST_DECIMALS = 9
Value = float | int | str | Decimal | Fraction
_ROUNDINGS: dict[str, Callable[[Fraction], int]] = {"nearest": round, "down": floor, "up": ceil}
# more than a float's product with the unit, and its shortest decimal, are off at 32 bits
_DOUBT = 1e-6
_LARGE = 1e10


def held(c: float) -> int:
    """The whole number of 32 bits next to a number."""
    return min(max(round(c), LEAST), GREATEST)


@dataclass(frozen=True)
class Scale:
    """So many decimals, 0 to 9: a value v is held as the whole number v * 10^decimals."""

    decimals: int

    @property
    def unit(self) -> int:
        """What the value 1 is held as."""
        return 10 ** self.decimals

    def whole(self, value: Value, rounding: str | None = None) -> int:
        """The whole number that this value is held as. What can't be held raises ValueError."""
        if rounding is not None:
            _rounding(rounding)
        if type(value) is float and abs(value) < _LARGE:
            near = round(value * self.unit)
            if near / self.unit == value and LEAST <= near <= GREATEST:
                return near
        exact = _fraction(value) * self.unit
        if rounding is None:
            if exact.denominator != 1:
                raise ValueError(f"not a whole number of 10^-{self.decimals}: {value!r}")
            number = exact.numerator
        else:
            number = _rounding(rounding)(exact)
        if not LEAST <= number <= GREATEST:
            raise ValueError(f"beyond 32 bits at {self.decimals} decimals: {value!r}")
        return number

    def value(self, number: int) -> float:
        """The float next to what is held as this number; `whole` gives the number again."""
        return number / self.unit

    def exact(self, number: int) -> Decimal:
        """What is held as this number, exactly."""
        return Decimal(number).scaleb(-self.decimals, decimal.Context(prec=12))

    def point(self, values: Any, rounding: str | None = None) -> tuple[int, ...]:
        """A point of these values; a single one is a point of one dimension."""
        if isinstance(values, (str, float, int, Decimal, Fraction)):
            return (self.whole(values, rounding),)
        return tuple(self.whole(value, rounding) for value in values)

    def box(self, low: Any, high: Any) -> tuple[tuple[int, ...], tuple[int, ...]]:
        """The corners of the whole numbers in a box: the lower ones are rounded up and the upper ones down."""
        return self.point(low, "up"), self.point(high, "down")

    def array(self, table: Any, rounding: str | None = None) -> Any:
        """An array of values, of any shape, as an array of int32 of that shape; wants numpy."""
        import numpy
        given = numpy.asarray(table, dtype=numpy.float64)
        if not numpy.isfinite(given).all():
            raise ValueError("some values are no numbers")
        scaled = given * self.unit
        numbers = numpy.rint(scaled)
        # a float stands for a whole number exactly where it is the float next to that number's value
        unclear = numbers / self.unit != given
        if rounding is None and unclear.any():
            self.whole(float(given[unclear][0]))
        elif rounding is not None:
            _rounding(rounding)
            rounded, unclear = _rounded(scaled, numbers, unclear, rounding)
            for place in numpy.argwhere(unclear):
                rounded[tuple(place)] = self.whole(float(given[tuple(place)]), rounding)
            numbers = rounded
        if ((numbers < LEAST) | (numbers > GREATEST)).any():
            raise ValueError(f"some values can't be held in 32 bits at {self.decimals} decimals")
        return numbers.astype(numpy.int32)

    def polygon(self, rings: Iterable[Iterable[Any]], rounding: str | None = None) -> dict[str, Any]:
        """The rings of a polygon of values as a GeoJSON polygon of whole numbers."""
        return {"type": "Polygon", "coordinates": [[self._position(p, rounding) for p in ring] for ring in rings]}

    def _position(self, position: Sequence[Value], rounding: str | None) -> list[int]:
        if len(position) not in (2, 3):
            raise ValueError(f"a position of {len(position)} numbers")
        return [self.whole(position[0], rounding), self.whole(position[1], rounding)]


def _fraction(value: Value) -> Fraction:
    try:
        return Fraction(repr(value) if type(value) is float else value)
    except (ValueError, OverflowError, TypeError):
        pass
    try:
        return Fraction(repr(float(value)))  # of numpy's floats and the like
    except (ValueError, OverflowError, TypeError):
        raise ValueError(f"no number: {value!r}") from None


def _rounding(name: str) -> Callable[[Fraction], int]:
    if name not in _ROUNDINGS:
        raise ValueError(f"no rounding: {name!r}")
    return _ROUNDINGS[name]


def _rounded(scaled: Any, nearest: Any, inexact: Any, rounding: str) -> tuple[Any, Any]:
    """Arrays of rounded numbers, and of where that is in doubt."""
    import numpy
    if rounding == "nearest":
        return nearest, inexact & (abs(abs(scaled - numpy.floor(scaled)) - 0.5) < _DOUBT)
    found = numpy.where(inexact, numpy.floor(scaled) if rounding == "down" else numpy.ceil(scaled), nearest)
    return found, inexact & (abs(scaled - nearest) < _DOUBT)


def polygons_of(shape: Any) -> Iterator[Any]:
    """The rings of each polygon in a shape.

    A shape is a GeoJSON Polygon, MultiPolygon, Feature, FeatureCollection or GeometryCollection as a dict, what has
    `__geo_interface__`, or a list of rings. Another type raises ValueError.
    """
    found = getattr(shape, "__geo_interface__", shape)
    if not isinstance(found, dict):
        if not isinstance(found, Iterable) or isinstance(found, (str, bytes)):
            raise ValueError(f"no shape: {shape!r}")
        yield found
        return
    kind = found.get("type")
    if kind in _PARTS:
        for part in found.get(_PARTS[kind]) or ():
            yield from polygons_of(part)
    elif kind == "Feature":
        if found.get("geometry") is not None:
            yield from polygons_of(found["geometry"])
    elif kind in ("Polygon", "MultiPolygon"):
        parts = found.get("coordinates")
        if not isinstance(parts, Iterable) or isinstance(parts, (str, bytes)):
            raise ValueError(f"a {kind} without coordinates")
        yield from (parts if kind == "MultiPolygon" else (parts,))
    else:
        raise ValueError(f"not a polygon: {kind!r}")


_PARTS = {"FeatureCollection": "features", "GeometryCollection": "geometries"}
