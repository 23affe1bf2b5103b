"""Additions of many documents: each folder's part of one, and how one ends that wasn't done to its end."""
from __future__ import annotations

from collections.abc import Iterable, Mapping

import numpy

from .crew import Crew
from .documents import Array, Documents
from .layout import Call, Layout
from .outcomes import is_lost, take, unfinished
from .rebuild import parts_of


class Additions:
    """Of the layout of this path; the caller has it alone."""

    def __init__(self, path: str, crew: Crew) -> None:
        self._path = path
        self._crew = crew

    def add(self, layout: Layout, name: str, call: Call, documents: Documents, keys: Array, places: Array) -> None:
        """Adds what isn't stored yet of a call's documents, each to its place. Raises why not all is."""
        used = numpy.flatnonzero(numpy.bincount(places)).tolist()
        rows = {place: numpy.flatnonzero(places == place) for place in used}
        mine = {place: (documents.chosen(some), keys[some]) for place, some in rows.items()}
        self._make(layout, rows)
        for place, (some, _) in mine.items():
            layout.places[place].widen(some.points)
        # before the documents are there, so that bounds are never too small, and the call is known
        layout.write(self._path)
        failed: dict[int, BaseException] = {}
        for part, of in parts_of(max(map(len, rows.values()), default=0)):
            asked = {place: (_piece(name, call, part), some.part(of), its[of]) for place, (some, its) in mine.items()
                     if len(its[of]) and place not in failed}
            take(layout, self._crew.each("add", layout, asked, failed=failed))
        if failed:
            self._fail(layout, name, call, list(rows), failed)
        layout.done(name)
        layout.write(self._path)

    def _make(self, layout: Layout, places: Iterable[int]) -> None:
        """Makes the folders that aren't made."""
        new = {at: (layout.dims, layout.leaf) for at in places if layout.places[at].mark is None}
        failed: dict[int, BaseException] = {}
        take(layout, self._crew.each("make", layout, new, failed=failed))
        if failed:
            raise failed[min(failed)]

    def _fail(self, layout: Layout, name: str, call: Call, places: list[int],
              failed: Mapping[int, BaseException]) -> None:
        """Notes what of an addition is stored, and raises why not all is."""
        stored = self._stored(layout, name, call, places)
        is_nothing = stored is not None and not any(stored.values()) and not is_lost(failed)
        if is_nothing:
            self._forget(layout, name)
        layout.write(self._path)
        raise failed[min(failed)] if is_nothing else unfinished(layout, name, places, failed)

    def _stored(self, layout: Layout, name: str, call: Call, places: Iterable[int]) -> dict[int, int] | None:
        """How many documents of a call places have stored; None where that can't be told."""
        tokens = [_piece(name, call, part) for part, _ in parts_of(call.count)]
        unknown: dict[int, BaseException] = {}
        told = self._crew.each("stored", layout, {at: (tokens,) for at in places}, failed=unknown)
        return None if unknown else {at: sum(counts) for at, counts in told.items()}

    def end(self, layout: Layout, name: str, call: Call) -> bool:
        """Ends a call that wasn't done to its end, and answers whether it is stored; else it is taken back."""
        made = [at for at, place in enumerate(layout.places) if place.mark is not None]
        stored = self._stored(layout, name, call, made)
        if stored is not None and sum(stored.values()) == call.count:
            layout.done(name)
            return True
        for part, _ in parts_of(call.count):
            asked = {at: (_piece(name, call, part),) for at in made}
            take(layout, self._crew.each("take_back", layout, asked))
        self._forget(layout, name)
        return False

    def _forget(self, layout: Layout, name: str) -> None:
        """Forgets a call that stored nothing. Its documents stay counted, so that its parts have other tokens when it
        is made again."""
        del layout.calls[name]


def _piece(name: str, call: Call, part: int) -> str:
    """The token of a folder's part of a call."""
    return f"{name}/{call.first}/{part}"
