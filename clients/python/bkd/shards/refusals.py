"""What the program would refuse, told where no folder is made yet that it could be asked of."""
from __future__ import annotations

import json
from typing import Any

from ..errors import Refused
from ..requests import Point, Request, coordinates
from ..scale import GREATEST, LEAST

_BUCKETS, _GREATEST_STEP, _POSITIONS = 65_536, (1 << 32) - 1, 65_536


def check_box(request: Request, dims: int, lo: Point, hi: Point) -> None:
    """Raises `Refused` for corners, the last words of a request, of other dimensions or beyond 32 bits."""
    low, high = coordinates(lo), coordinates(hi)
    if not len(low) == len(high) == dims:
        raise Refused(request.line, "wrong words", 1)
    for word, c in enumerate(low + high, len(request.line.split()) + 1 - 2 * dims):
        if not LEAST <= c <= GREATEST:
            raise Refused(request.line, f"bad number in word {word}", 1)


def check_grid(request: Request, dims: int, axes: tuple[int, int], steps: tuple[int, int], lo: Point,
               hi: Point) -> None:
    """Raises `Refused` for a grid over the same dimension twice, or one that isn't there, without steps, or with too
    many buckets."""
    if axes[0] == axes[1] or not all(0 <= axis < dims for axis in axes) or not all(steps):
        raise Refused(request.line, "bad grid", 1)
    low, high, buckets = coordinates(lo), coordinates(hi), 1
    for word, (axis, step) in enumerate(zip(axes, steps)):
        if not 0 < step <= _GREATEST_STEP:
            raise Refused(request.line, f"bad number in word {3 + 2 * word}", 1)
        buckets *= max(0, (high[axis] - low[axis]) // step + 1)
    if buckets > _BUCKETS:
        raise Refused(request.line, "too many buckets", 1)


def check_polygon(request: Request) -> None:
    """Raises `Refused` for what is no polygon of closed rings of whole numbers."""
    shape = json.loads(request.line.partition(" ")[2])
    rings = shape.get("coordinates") if shape.get("type") == "Polygon" else None
    if not isinstance(rings, list) or not all(isinstance(ring, list) for ring in rings):
        raise Refused(request.line, "not a polygon", 1)
    if sum(map(len, rings)) > _POSITIONS:
        raise Refused(request.line, "polygon has too many positions", 1)
    for r, ring in enumerate(rings):
        for p, position in enumerate(ring):
            if not _is_position(position):
                raise Refused(request.line, f"polygon ring {r} position {p} is not whole", 1)
        if len(ring) < 4:
            raise Refused(request.line, f"polygon ring {r} has too few positions", 1)
        if ring[0] != ring[-1]:
            raise Refused(request.line, f"polygon ring {r} is not closed", 1)


def _is_position(value: Any) -> bool:
    return isinstance(value, list) and len(value) == 2 and \
        all(type(c) is int and LEAST <= c <= GREATEST for c in value)
