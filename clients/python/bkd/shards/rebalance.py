"""Cells that grew are split, and those that have few documents merged, while queries go on."""
from __future__ import annotations

import copy
from dataclasses import dataclass
from typing import Any

from .crew import Crew, known
from .errors import Unfinished
from .layout import Cells, Layout, Place
from .locks import Locks

_MOST_ROUNDS = 64
# a cell is split that has so many times as many documents as cells have, and no fewer than these;
# neighbours are merged that together have less than this share of it
_GROWN, _LEAST, _SMALL = 2.0, 128, 0.5


@dataclass
class _Step:
    """Places whose documents go into `count` new ones."""

    places: list[int]
    count: int


class Rebalancing:
    """Of the layout of this path; the caller has the lock of who writes."""

    def __init__(self, path: str, crew: Crew, locks: Locks) -> None:
        self._path = path
        self._crew = crew
        self._locks = locks

    def run(self) -> int:
        """Does step after step until none is wanted, and answers how many places are new."""
        new = 0
        for _ in range(_MOST_ROUNDS):
            layout = Layout.read(self._path)
            if left := layout.left():
                raise Unfinished("a change isn't done to its end", left[0], (), ())
            self.remove_left(layout)
            step = _next_step(layout)
            if step is None:
                break
            new += self._do(layout, step)
            if not all(place.live for place in layout.places[-step.count:]):
                break  # of equal points, which no cut parts
        return new

    def _do(self, layout: Layout, step: _Step) -> int:
        """Copies, then has the layout name the copies, alone; then removes what was copied."""
        old = [layout.places[at] for at in step.places]
        new = [Place.new(f"{old[0].folder.split('~')[0]}~{layout.generation}{'ab'[i]}", old[0].worker)
               for i in range(step.count)]
        layout.leaving += new
        layout.write(self._path)
        sources, targets = ([(place.folder, known(layout, place)) for place in places] for places in (old, new))
        cells, told = self._crew.call(old[0], step.places[0], "rebuild", sources, targets, layout.dims, layout.leaf)
        for place, (outcome, bounds) in zip(new, told):
            place.order, place.mark, place.live = outcome.state.order, outcome.state.mark, outcome.state.live
            place.bounds = bounds
        with self._locks.alone():
            layout.leaving = [place for place in layout.leaving if place not in new] + old
            _exchange(layout, step.places, new, cells)
            layout.write(self._path)
        self.remove_left(layout)
        return step.count

    def remove_left(self, layout: Layout) -> None:
        """Removes the folders that the layout has left; nobody knows of them any more."""
        if layout.leaving:
            for place in layout.leaving:
                self._crew.call(place, 0, "remove", [(place.folder, known(layout, place))])
            layout.leaving = []
            layout.write(self._path)


def _next_step(layout: Layout) -> _Step | None:
    """The greatest cell where it has grown, else the first two neighbours that have few."""
    if layout.cells is None:
        return None
    mean = sum(place.live for place in layout.places) / len(layout.places)
    greatest = max(range(len(layout.places)), key=lambda at: layout.places[at].live)
    if layout.places[greatest].live > max(_GROWN * mean, _LEAST) and _is_wide(layout.places[greatest]):
        return _Step([greatest], 2)
    for a, b in _neighbours(layout.cells):
        one, other = layout.places[a], layout.places[b]
        few = one.live + other.live < _SMALL * mean or (not (one.live and other.live) and len(layout.places) > 2)
        if few and one.mark is not None and other.mark is not None and one.worker == other.worker:
            return _Step([a, b], 1)
    return None


def _is_wide(place: Place) -> bool:
    """Whether its points can be parted."""
    return place.bounds is not None and place.bounds[0] != place.bounds[1]


def _neighbours(cells: Cells) -> list[tuple[int, int]]:
    """The pairs of places that one split parts."""
    if isinstance(cells, int):
        return []
    _, _, below, above = cells
    if isinstance(below, int) and isinstance(above, int):
        return [(below, above)]
    return _neighbours(below) + _neighbours(above)


def _exchange(layout: Layout, old: list[int], new: list[Place], cells: Cells) -> None:
    """Puts new places, cut into these cells, where the old ones are; the others are numbered anew."""
    places = [place for at, place in enumerate(layout.places) if at not in old]
    numbers = {at: places.index(place) for at, place in enumerate(layout.places) if at not in old}
    placed = _numbered(cells, {i: len(places) + i for i in range(len(new))})
    layout.places = places + new
    layout.cells = _replaced(layout.cells, old, numbers, placed)


def _numbered(cells: Cells, numbers: dict[int, int]) -> Cells:
    if isinstance(cells, int):
        return numbers[cells]
    return [*cells[:2], _numbered(cells[2], numbers), _numbered(cells[3], numbers)]


def _replaced(cells: Any, old: list[int], numbers: dict[int, int], placed: Cells) -> Cells:
    if isinstance(cells, int):
        return copy.deepcopy(placed) if cells in old else numbers[cells]
    if cells[2:] == old:
        return placed
    return [*cells[:2], _replaced(cells[2], old, numbers, placed), _replaced(cells[3], old, numbers, placed)]
