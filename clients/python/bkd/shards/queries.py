"""What an index over folders is asked, and how the folders' answers become one."""
from __future__ import annotations

import contextlib
from collections.abc import Iterator, Mapping, Sequence
from typing import Any, SupportsIndex

import numpy

from .. import commands, options, requests
from ..requests import Point, Request, coordinates
from ..scale import polygons_of
from .crew import Crew
from .documents import Array, Query
from .layout import Layout
from .refusals import check_box, check_grid, check_polygon


def box(lo: Point, hi: Point) -> Query:
    """A query for `ask`: the documents that have a point in a box."""
    return Query(box=(coordinates(lo), coordinates(hi)))


def polygon(shape: Any) -> Query:
    """A query for `ask`: the documents that have a point in a polygon, a GeoJSON Polygon or a list of its rings."""
    return Query(polygon=requests.geojson(shape))


def nearest(k: SupportsIndex, at: Point) -> Query:
    """A query for `ask`: the `k` nearest documents, 1 to 10,000."""
    if not 1 <= int(k) <= 10_000:
        raise ValueError(f"k is 1 to 10,000, not {k}")
    return Query(k=int(k), at=coordinates(at))


_NONE = numpy.empty(0, dtype=numpy.int64)


class Asking:
    """The queries, over a layout that stays while they are answered."""

    def __init__(self, crew: Crew) -> None:
        self._crew = crew

    def _asking(self) -> Any:
        """A context in which nothing changes; it gives the layout, and whether folders are to be just at it."""
        raise NotImplementedError

    def box(self, lo: Point, hi: Point) -> Array:
        """The keys, ascending, of the documents that have a point in the box."""
        return self.ask([box(lo, hi)])[0]

    def polygon(self, shape: Any) -> Array:
        """The keys, ascending, of the documents that have a point in a polygon of a shape, as `Index.polygon` takes it.
        Of a shape of several polygons each key is told once."""
        try:
            parts = list(polygons_of(shape))
        except ValueError:  # the program says what is wrong with it
            parts = [shape]
        found = self.ask([polygon(one) for one in parts])
        return found[0] if len(found) == 1 else numpy.unique(numpy.concatenate([_NONE, *found]))

    def nearest(self, k: SupportsIndex, at: Point) -> list[tuple[int, int]]:
        """The `k` nearest documents as (key, squared distance), ascending by distance, then key."""
        return self.ask([nearest(k, at)])[0]

    def ask(self, queries: Sequence[Query]) -> list[Any]:
        """What many queries of `box`, `polygon` and `nearest` of `bkd.shards` find, all at one moment.

        Only folders whose bounds meet a query are asked it, all of a worker's in one message; of the nearest first the
        folders that lie nearest, then those that may have nearer ones than were found there.
        """
        return self._answers(queries, "ask")

    def batch(self, queries: Sequence[Query], forks: int = 1) -> list[Any]:
        """The same by the program's `batch`, which reads each folder into memory and answers by `forks` levels of two
        threads each: quicker for very many queries."""
        return self._answers(queries, "batch", options.forks(forks))

    def _answers(self, queries: Sequence[Query], method: str, *words: Any) -> list[Any]:
        with self._asking() as (layout, is_exact):
            for query in queries:
                query.check(layout.dims)
            found: list[list[Any]] = [[] for _ in queries]
            first = _first(layout, queries)
            self._gather(layout, queries, first, found, is_exact, method, words)
            rest = {i: _rest(layout, query, first[i], found[i]) for i, query in enumerate(queries) if query.k}
            self._gather(layout, queries, rest, found, is_exact, method, words)
        return [_joined(query, parts) for query, parts in zip(queries, found)]

    def stream(self, query: Query, at_once: int = 1 << 16) -> Iterator[Array]:
        """The keys that a box or a polygon finds, ascending, in arrays; of each folder no more than `at_once` are held
        here. All are of one moment: nothing is written until the last array is taken."""
        if query.k or at_once < 1:
            raise ValueError("what is streamed are the keys of a box or a polygon, one or more at once")
        with self._asking() as (layout, is_exact):
            query.check(layout.dims)
            begins = dict.fromkeys(_first(layout, [query])[0], 0)
            held: dict[int, Array] = {}
            while begins or held:
                asked = {at: (query, begin, at_once) for at, begin in begins.items() if at not in held}
                for at, keys in self._crew.each("page", layout, asked, is_exact).items():
                    begins[at] += len(keys)
                    held |= {at: keys} if len(keys) else {}
                    if len(keys) < at_once:
                        del begins[at]
                if held:
                    yield _least(held, begins)

    def _gather(self, layout: Layout, queries: Sequence[Query], where: Mapping[int, Sequence[int]],
                found: list[list[Any]], is_exact: bool, method: str, words: Sequence[Any]) -> None:
        """Asks places queries, by the queries' numbers, and puts what they answer behind what was found."""
        rows: dict[int, list[int]] = {}
        for i, places in where.items():
            for place in places:
                rows.setdefault(place, []).append(i)
        asked = {place: ([queries[i] for i in some], *words) for place, some in rows.items()}
        for place, values in self._crew.each(method, layout, asked, is_exact).items():
            for i, value in zip(rows[place], values.unpacked()):
                found[i].append(value)

    def count(self, lo: Point, hi: Point) -> int:
        """How many live points lie in the box; a document of several points counts for each."""
        with self._asking() as (layout, is_exact):
            return sum(self._counted(layout, is_exact, commands.points_in(lo, hi), lo, hi))

    def grid(self, x: int, step_x: int, y: int, step_y: int, lo: Point, hi: Point) -> list[tuple[int, int, int]]:
        """The buckets (i, j, points) of the box that have points, cut in steps along the dimensions `x` and `y`."""
        request, total = commands.grid_over(x, step_x, y, step_y, lo, hi), dict[tuple[int, int], int]()
        with self._asking() as (layout, is_exact):
            parts = self._counted(layout, is_exact, request, lo, hi)
            if not parts:
                check_grid(request, layout.dims, (x, y), (step_x, step_y), lo, hi)
        for part in parts:
            for i, j, count in part:
                total[i, j] = total.get((i, j), 0) + count
        return [(i, j, count) for (i, j), count in sorted(total.items())]

    def _counted(self, layout: Layout, is_exact: bool, request: Request, lo: Point, hi: Point) -> list[Any]:
        """What the folders count that the box meets; where there are none another one is asked, which tells what is
        wrong with the request. Nothing where no folder is made."""
        low, high, made = coordinates(lo), coordinates(hi), _made(layout)
        if len(low) == len(high) == layout.dims:
            made = [at for at in layout.holding() if layout.places[at].meets(low, high)] or made[:1]
        if not made:
            check_box(request, layout.dims, lo, hi)
        told = self._crew.each("count", layout, {at: ([request],) for at in made}, is_exact)
        return [values[0] for values in told.values()]

    def about(self) -> list[tuple[str, int, int]]:
        """Of each folder its path, how many documents it was given, and how many are live."""
        with self._asking() as (layout, is_exact):
            found = self._crew.each("about", layout, {at: () for at in _made(layout)}, is_exact)
            return [(place.folder, found[at].next, found[at].live) if at in found else (place.folder, 0, 0)
                    for at, place in enumerate(layout.places)]

    def check(self) -> list[tuple[str, Any]]:
        """Reads all that is stored in each folder, and answers what `bkd.check` says of it, None of one that isn't made
        yet. Raises `Damaged`, `NoIndex` or `Changed`."""
        with self._asking() as (layout, is_exact):
            found = self._crew.each("check", layout, {at: () for at in _made(layout)}, is_exact)
            return [(place.folder, found[at][1] if at in found else None) for at, place in enumerate(layout.places)]

    def export(self) -> Iterator[tuple[int, tuple[tuple[int, ...], ...]]]:
        """All documents as (key, points), ascending by key, at one moment. Each folder's are held here meanwhile, as
        arrays; nothing is written until the last one is taken."""
        with self._asking() as (layout, is_exact):
            told = self._crew.each("export", layout, {at: () for at in layout.holding()}, is_exact)
            keys = numpy.concatenate([_NONE, *(keys for keys, _ in told.values())])
            rows = [(documents.points, begin, end) for _, documents in told.values()
                    for begin, end in zip(documents.begins(), [*documents.begins()[1:], len(documents.points)])]
        for row in numpy.argsort(keys, kind="stable").tolist():
            points, begin, end = rows[row]
            yield int(keys[row]), tuple(sorted(map(tuple, points[begin:end].tolist())))


class Moment(Asking):
    """The documents as they were when it was taken, by `Shards.snapshot`. What differs by now raises `Changed`."""

    def __init__(self, crew: Crew, layout: Layout) -> None:
        super().__init__(crew)
        self._layout = layout

    @contextlib.contextmanager
    def _asking(self) -> Iterator[tuple[Layout, bool]]:
        yield self._layout, True


def _made(layout: Layout) -> list[int]:
    return [at for at, place in enumerate(layout.places) if place.mark is not None]


def _first(layout: Layout, queries: Sequence[Query]) -> dict[int, list[int]]:
    """The places that each query is asked first: all that may have what it finds, of the nearest those nearest to
    it."""
    first = {i: _nearest_places(layout, query) if query.k else [] for i, query in enumerate(queries)}
    holding, boxes, made = list(layout.holding()), [i for i, query in enumerate(queries) if not query.k], _made(layout)
    if holding and boxes:
        low, high = numpy.array([queries[i].bounds() for i in boxes]).transpose(1, 0, 2)
        least, greatest = numpy.array([layout.places[at].bounds for at in holding]).transpose(1, 0, 2)
        meet = ((low[:, None] <= greatest) & (least <= high[:, None])).all(axis=2)
        for row, column in numpy.argwhere(meet).tolist():
            first[boxes[row]].append(holding[column])
    for i in boxes:
        if queries[i].polygon is not None and not first[i]:  # one folder tells whether it is a polygon
            first[i] = made[:1]
            if not made:
                check_polygon(queries[i].request())
    return first


def _nearest_places(layout: Layout, query: Query) -> list[int]:
    away = {at: layout.places[at].distance(query.at) for at in layout.holding()}
    return [at for at, distance in away.items() if distance == min(away.values())]


def _rest(layout: Layout, query: Query, asked: Sequence[int], found: Sequence[Any]) -> list[int]:
    """The places that weren't asked and may have documents among the nearest."""
    near = sorted(distance for part in found for distance, _ in part)
    farthest = near[query.k - 1] if len(near) >= query.k else None
    return [at for at in layout.holding() if at not in asked
            and (farthest is None or layout.places[at].distance(query.at) <= farthest)]


def _least(held: dict[int, Array], begins: Mapping[int, int]) -> Array:
    """Takes out of what is held of each place the keys that none which is still to come is below."""
    last = min((keys[-1] for at, keys in held.items() if at in begins), default=None)
    parts = []
    for at, keys in list(held.items()):
        count = len(keys) if last is None else int(numpy.searchsorted(keys, last, "right"))
        parts.append(keys[:count])
        held[at] = keys[count:]
        if count == len(keys):
            del held[at]
    return numpy.sort(numpy.concatenate(parts))


def _joined(query: Query, parts: list[Any]) -> Any:
    """The answers of all folders as one."""
    if query.k:
        return [(key, distance) for distance, key in sorted(near for part in parts for near in part)[:query.k]]
    if len(parts) == 1:
        return parts[0]
    return numpy.sort(numpy.concatenate([_NONE, *parts]))
