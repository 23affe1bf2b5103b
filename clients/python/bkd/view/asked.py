"""What a request of the page asks for, read from its words; what is wrong in them raises ValueError with a line."""
from __future__ import annotations

import math
from collections.abc import Mapping
from dataclasses import dataclass
from typing import Any

from ..scale import GREATEST, LEAST, held

_FAR = 1 << 40
_MOST_CORNERS = 1000
Sides = tuple[int, int, int, int]


@dataclass(frozen=True)
class Axes:
    """The two dimensions that are drawn. `y` is None where the index has one dimension; all points are then at 0."""

    dims: int
    x: int
    y: int | None

    def box(self, sides: Sides) -> tuple[list[int], list[int]]:
        """The corners of a box of the index that has these sides in the plane, and all of the other dimensions."""
        low, high = [LEAST] * self.dims, [GREATEST] * self.dims
        low[self.x], high[self.x] = sides[0], sides[2]
        if self.y is not None:
            low[self.y], high[self.y] = sides[1], sides[3]
        return low, high


def number(asked: Mapping[str, Any], name: str, least: int, greatest: int) -> int:
    """A whole number of the request."""
    try:
        found = int(asked[name])
    except (KeyError, TypeError, ValueError):
        raise ValueError(f"{name} is not a whole number") from None
    if not least <= found <= greatest:
        raise ValueError(f"{name} is {least} to {greatest}, not {found}")
    return found


def axes(asked: Mapping[str, Any], dims: int) -> Axes:
    """The axes of a request. Dimensions that are one, or that the index lacks, raise ValueError."""
    x, y = number(asked, "x", 0, dims - 1), number(asked, "y", 0, dims - 1)
    if x == y and dims > 1:
        raise ValueError("x and y are one dimension")
    return Axes(dims, x, y if dims > 1 else None)


def place(asked: Any, name: str = "at") -> tuple[float, float]:
    """A place of the plane."""
    if not isinstance(asked, (list, tuple)) or len(asked) != 2:
        raise ValueError(f"{name} is not two numbers")
    try:
        x, y = map(float, asked)
    except (TypeError, ValueError):
        raise ValueError(f"{name} is not two numbers") from None
    if not (math.isfinite(x) and math.isfinite(y) and abs(x) < _FAR and abs(y) < _FAR):
        raise ValueError(f"{name} is too far away")
    return x, y


def frame(asked: Any) -> Sides:
    """The whole coordinates in a part of the plane, left, bottom, right and top, text parted by commas or a list."""
    sides = asked.split(",") if isinstance(asked, str) else asked
    if not isinstance(sides, (list, tuple)) or len(sides) != 4:
        raise ValueError("frame is not four numbers")
    (left, bottom), (right, top) = place(sides[:2], "frame"), place(sides[2:], "frame")
    if left > right or bottom > top:
        raise ValueError("frame has no inside")
    low = [min(max(math.ceil(c), LEAST), GREATEST) for c in (left, bottom)]
    high = [min(max(math.floor(c), LEAST), GREATEST) for c in (right, top)]
    return low[0], low[1], high[0], high[1]


def ring(asked: Any) -> list[tuple[int, int]]:
    """The corners of a polygon, not closed: 3 to a thousand whole places."""
    if not isinstance(asked, list) or not 3 <= len(asked) <= _MOST_CORNERS:
        raise ValueError(f"ring is not 3 to {_MOST_CORNERS} corners")
    return [(held(x), held(y)) for x, y in (place(corner, "corner") for corner in asked)]
