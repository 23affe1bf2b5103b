"""What is drawn of an index: counts by squares, down to single coordinates where points are few."""
from __future__ import annotations

from collections.abc import Callable, Iterable
from dataclasses import dataclass, field
from typing import Any

from .. import commands
from ..requests import Request
from .asked import Axes, Sides

# squares of one grid at most, points that are drawn one by one at most, and the sides of a square that is looked
# at more closely
MOST_SQUARES = 60_000
MOST_POINTS = 1_500
_FINER = 6
Square = tuple[int, int, int]
Count = Callable[[list[Request]], list[Any]]


@dataclass
class Drawn:
    """Live points by squares whose sides are `across` and `up` coordinates: of each its least coordinates, and how many
    points it has. `partly` has squares of which only some points may be meant."""

    across: int
    up: int
    squares: list[Square]
    partly: list[Square] = field(default_factory=list)

    @property
    def is_exact(self) -> bool:
        """Whether each square is one coordinate."""
        return self.across == self.up == 1

    def told(self) -> dict[str, Any]:
        """As the page gets it."""
        return {"across": self.across, "up": self.up, "squares": self.squares, "partly": self.partly,
                "points": sum(n for *_, n in self.squares), "most": max((n for *_, n in self.squares), default=0)}


def step_for(width: int, squares: int) -> int:
    """The least power of two that parts a width into so many squares at most."""
    step = 1
    while -(-width // step) > squares - 1:
        step *= 2
    return step


def squares_in(count: Count, axes: Axes, sides: Sides, columns: int, rows: int) -> Drawn:
    """The filled squares of a grid over a box, which begin at multiples of their sides, so that they stay where they
    are when the frame moves."""
    columns, rows = max(2, columns), max(2, rows)
    while columns * rows > MOST_SQUARES:
        columns, rows = max(2, columns * 9 // 10), max(2, rows * 9 // 10)
    left, bottom, right, top = sides
    across = step_for(right - left + 1, columns)
    up = step_for(top - bottom + 1, rows) if axes.y is not None else 1
    if axes.y is None:
        return Drawn(across, up, _counted_one_by_one(count, axes, sides, across))
    return Drawn(across, up, _grids(count, axes, [sides], across, up))


def points_in(count: Count, axes: Axes, sides: Sides, columns: int, rows: int) -> Drawn:
    """The same, but single coordinates where there are no more than `MOST_POINTS` points."""
    found = squares_in(count, axes, sides, columns, rows)
    if sum(n for *_, n in found.squares) > MOST_POINTS:
        return found
    while not found.is_exact:
        across, up = max(1, found.across >> _FINER), max(1, found.up >> _FINER)
        parts = [_within(square, found, sides) for square in found.squares]
        if axes.y is None:
            squares = [square for part in parts for square in _counted_one_by_one(count, axes, part, across)]
        else:
            squares = _grids(count, axes, parts, across, up)
        found = Drawn(across, up, squares)
    return found


def _within(square: Square, of: Drawn, sides: Sides) -> Sides:
    """The part of a square that lies in a box."""
    x, y, _ = square
    left, bottom, right, top = sides
    return max(x, left), max(y, bottom), min(x + of.across - 1, right), min(y + of.up - 1, top)


def _grids(count: Count, axes: Axes, parts: Iterable[Sides], across: int, up: int) -> list[Square]:
    """The filled squares of grids of these sides over boxes. Grids begin at multiples of the sides, and what lies
    outside the box is in none."""
    assert axes.y is not None
    asked, begins = [], []
    for part in parts:
        for left, bottom, right, top in _aligned(part, across, up):
            asked.append(commands.grid_over(axes.x, across, axes.y, up, *axes.box((left, bottom, right, top))))
            begins.append((left // across * across, bottom // up * up))
    told = count(asked) if asked else []
    joined: dict[tuple[int, int], int] = {}
    for (x, y), squares in zip(begins, told):
        for i, j, n in squares:
            at = x + i * across, y + j * up
            joined[at] = joined.get(at, 0) + n
    return [(x, y, n) for (x, y), n in sorted(joined.items())]


def _aligned(part: Sides, across: int, up: int) -> Iterable[Sides]:
    """A box in up to four parts: the first column and the first row, where they aren't whole, and the rest.

    A grid is counted from its box's lower corner, so each part begins at a multiple of the sides or has one square."""
    left, bottom, right, top = part
    for x, x2 in _cut(left, right, across):
        for y, y2 in _cut(bottom, top, up):
            yield x, y, x2, y2


def _cut(low: int, high: int, step: int) -> list[tuple[int, int]]:
    first = -(-low // step) * step
    if first == low or first > high:
        return [(low, high)] if low <= high else []
    return [(low, first - 1), (first, high)]


def _counted_one_by_one(count: Count, axes: Axes, sides: Sides, across: int) -> list[Square]:
    """The same over one dimension, which the program has no grids of."""
    left, _, right, _ = sides
    begins = range(left // across * across, right + 1, across)
    asked = [commands.points_in(*axes.box((max(x, left), 0, min(x + across - 1, right), 0))) for x in begins]
    return [(x, 0, n) for x, n in zip(begins, count(asked) if asked else []) if n]


# ---- what of it is found

def in_circle(drawn: Drawn, at: tuple[int, int], most: int) -> Drawn:
    """The squares that have coordinates no farther than this squared distance; partly where they have others too."""
    inside, partly = [], []
    for x, y, n in drawn.squares:
        x2, y2 = x + drawn.across - 1, y + drawn.up - 1
        near = max(x - at[0], 0, at[0] - x2) ** 2 + max(y - at[1], 0, at[1] - y2) ** 2
        far = max(abs(x - at[0]), abs(x2 - at[0])) ** 2 + max(abs(y - at[1]), abs(y2 - at[1])) ** 2
        if far <= most:
            inside.append((x, y, n))
        elif near <= most:
            partly.append((x, y, n))
    return Drawn(drawn.across, drawn.up, inside, partly)


def in_ring(drawn: Drawn, ring: list[tuple[int, int]]) -> Drawn:
    """The squares that lie in a polygon, by the even-odd rule, edges in it; partly those that an edge meets."""
    edges = list(zip(ring, [*ring[1:], ring[0]]))
    inside, partly = [], []
    for x, y, n in drawn.squares:
        if drawn.is_exact:
            if any(_on(edge, x, y) for edge in edges) or _is_odd(edges, x, y):
                inside.append((x, y, n))
        elif any(_meets(edge, x, y, x + drawn.across - 1, y + drawn.up - 1) for edge in edges):
            partly.append((x, y, n))
        elif _is_odd(edges, x, y):
            inside.append((x, y, n))
    return Drawn(drawn.across, drawn.up, inside, partly)


Edge = tuple[tuple[int, int], tuple[int, int]]


def _side(edge: Edge, x: int, y: int) -> int:
    """On which side of an edge's line a place lies, 0 on it."""
    (ax, ay), (bx, by) = edge
    return (bx - ax) * (y - ay) - (by - ay) * (x - ax)


def _on(edge: Edge, x: int, y: int) -> bool:
    (ax, ay), (bx, by) = edge
    return _side(edge, x, y) == 0 and min(ax, bx) <= x <= max(ax, bx) and min(ay, by) <= y <= max(ay, by)


def _is_odd(edges: list[Edge], x: int, y: int) -> bool:
    """Whether a ray to the right crosses an odd number of edges."""
    crossed = 0
    for edge in edges:
        (_, ay), (_, by) = edge
        if (ay > y) != (by > y):
            crossed += (_side(edge, x, y) > 0) == (by > ay)
    return crossed % 2 == 1


def _meets(edge: Edge, left: int, bottom: int, right: int, top: int) -> bool:
    """Whether an edge has a place in a box."""
    (ax, ay), (bx, by) = edge
    if max(ax, bx) < left or min(ax, bx) > right or max(ay, by) < bottom or min(ay, by) > top:
        return False
    sides = [_side(edge, x, y) for x in (left, right) for y in (bottom, top)]
    return min(sides) <= 0 <= max(sides)
