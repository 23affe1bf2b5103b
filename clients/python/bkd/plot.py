"""Pictures of an index in two of its dimensions, by matplotlib: the cells of its leaves, its points, and a query.

Folders are read by `bkd.formats`; each function draws into `axes`, and answers them.
"""
from __future__ import annotations

import os
from collections.abc import Iterable, Sequence
from itertools import chain
from typing import Any

import matplotlib
from matplotlib.axes import Axes
from matplotlib.collections import PatchCollection
from matplotlib.figure import Figure
from matplotlib.patches import Circle, PathPatch, Rectangle
from matplotlib.path import Path

from .commands import Folder
from .formats import Stored, open_stored

Side = tuple[int, int]
_LIVE, _DEAD, _FOUND, _QUERY = "#27509b", "#c8c8c8", "#d1495b", "#d1495b"


def _values(leaf: Any, places: Sequence[int], d: int) -> list[int]:
    """Coordinate `d` of some entries; 0 in a dimension that the index hasn't."""
    return [leaf.columns[d][i] for i in places] if d < len(leaf.columns) else [0] * len(places)


def cells(axes: Axes, folder: Folder | Stored, dims: Side = (0, 1)) -> Axes:
    """The own cells of all leaves, each segment in a colour of its own."""
    stored = folder if isinstance(folder, Stored) else open_stored(folder)
    colours = matplotlib.colormaps["tab10"]
    for at, part in enumerate(stored.parts):
        sides = [_sides(cell, dims) for _, cell in part.segment.tree.leaves()]
        frames = [Rectangle((x, y), width, height) for x, y, width, height in sides]
        axes.add_collection(PatchCollection(frames, facecolor="none", edgecolor=colours(at % 10), linewidth=0.6))
    axes.autoscale_view()
    return axes


def _sides(cell: Any, dims: Side) -> tuple[int, int, int, int]:
    low, high = cell
    x, y = dims
    bottom, top = (low[y], high[y]) if y < len(low) else (0, 0)
    return low[x], bottom, high[x] - low[x], top - bottom


def points(axes: Axes, folder: Folder | Stored, dims: Side = (0, 1), dead: bool = True, size: float = 1.0) -> Axes:
    """All live points, and in grey the entries of deleted documents that still stand in the files."""
    stored = folder if isinstance(folder, Stored) else open_stored(folder)
    drawn: dict[str, tuple[list[int], list[int]]] = {_DEAD: ([], []), _LIVE: ([], [])}
    for _, leaf, places in stored.entries():
        live = set(places)
        gone = [i for i in range(len(leaf.numbers)) if i not in live] if dead else []
        for colour, some in ((_LIVE, places), (_DEAD, gone)):
            drawn[colour][0].extend(_values(leaf, some, dims[0]))
            drawn[colour][1].extend(_values(leaf, some, dims[1]))
    for colour, (xs, ys) in drawn.items():
        axes.scatter(xs, ys, s=size, c=colour, linewidths=0)
    return axes


def found(axes: Axes, folder: Folder | Stored, numbers: Iterable[int], dims: Side = (0, 1), size: float = 6.0) -> Axes:
    """All points of these documents, which a query found."""
    stored = folder if isinstance(folder, Stored) else open_stored(folder)
    wanted = set(numbers)
    xs: list[int] = []
    ys: list[int] = []
    for _, leaf, places in stored.entries():
        some = [i for i in places if leaf.numbers[i] in wanted]
        xs += _values(leaf, some, dims[0])
        ys += _values(leaf, some, dims[1])
    axes.scatter(xs, ys, s=size, c=_FOUND, linewidths=0, zorder=3)
    return axes


def box(axes: Axes, low: Sequence[int], high: Sequence[int], dims: Side = (0, 1)) -> Axes:
    """The frame of a box."""
    x, y, width, height = _sides((tuple(low), tuple(high)), dims)
    axes.add_patch(Rectangle((x, y), width, height, fill=False, edgecolor=_QUERY, linewidth=1.5, zorder=4))
    return axes


def polygon(axes: Axes, rings: Iterable[Sequence[Sequence[int]]]) -> Axes:
    """The edges of a polygon's rings."""
    closed = [list(ring) for ring in rings]
    codes = chain.from_iterable([Path.MOVETO] + [Path.LINETO] * (len(ring) - 1) for ring in closed)
    path = Path([tuple(p) for ring in closed for p in ring], list(codes))
    axes.add_patch(PathPatch(path, fill=False, edgecolor=_QUERY, linewidth=1.5, zorder=4))
    return axes


def nearest(axes: Axes, at: Sequence[int], near: Sequence[tuple[int, int]]) -> Axes:
    """The point of a query for the nearest, and the circle through the farthest of what it answered."""
    axes.scatter([at[0]], [at[1]], marker="+", c=_QUERY, zorder=4)
    if near:
        axes.add_patch(Circle((at[0], at[1]), near[-1][1] ** 0.5, fill=False, edgecolor=_QUERY, linewidth=1.5,
                              zorder=4))
    return axes


def picture(folder: Folder, path: str | os.PathLike[str], dims: Side = (0, 1), *,
            query: tuple[Sequence[int], Sequence[int]] | None = None, hits: Iterable[int] = ()) -> None:
    """Writes a picture of an index: cells, points, a box `query` as (lo, hi) and its `hits`.
    The path's ending is the format."""
    stored = open_stored(folder)
    figure = Figure(figsize=(8, 8), layout="constrained")
    axes = figure.add_subplot()
    axes.set_aspect("equal", adjustable="datalim")
    axes.tick_params(labelsize=7)
    points(axes, stored, dims)
    cells(axes, stored, dims)
    if query is not None:
        box(axes, *query, dims)
        found(axes, stored, hits, dims)
    figure.savefig(path, dpi=120)
