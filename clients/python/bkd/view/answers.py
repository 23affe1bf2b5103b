"""What a page's questions are answered by: a view of a part of the plane, and queries with how they were answered."""
from __future__ import annotations

import math
import threading
import time
from collections import OrderedDict
from collections.abc import Mapping
from dataclasses import dataclass
from typing import Any

from .. import requests
from ..answers import rows_after
from ..errors import BadAnswer, Refused
from ..requests import Request
from ..scale import held
from ..sending import Silence
from ..talk import refusal_of, sent
from .asked import Axes, Sides, axes, frame, number, place, ring
from .drawn import Drawn, in_circle, in_ring, points_in
from .folder import Shown

# how many numbers are shown, and how many nearest asked for at most; of how many documents numbers are asked for; how
# many views are kept, how often a polygon's edges are compared with a square, and the squares along a side
_SHOWN, _MOST = 500, 10_000
_LISTED = 200_000
_KEPT = 16
_COMPARED = 2_000_000
_SQUARES = 200


class First(Silence):
    """A talk of one query whose answer may be long: how many lines it has, and the first of them."""

    def __init__(self, request: Request, most: int) -> None:
        super().__init__()
        self._request = request
        self._most = most
        self._left: int | None = None
        self.is_sent = False
        self.refused: Refused | None = None
        self.rows: list[bytes] = []

    def piece(self) -> tuple[bytes, int]:
        if self.is_sent:
            return b"", 0
        self.is_sent = True
        return sent(self._request.line), 1

    def look(self) -> int:
        *lines, rest = b"".join(self.inbox).split(b"\n")
        self.inbox = [rest]
        if self._left is None and lines:
            head = lines.pop(0)
            self.refused = refusal_of(head, self._request.line, 1)
            self._left = 0 if self.refused else rows_after(self._request.answer, head)
        if self._left is None:
            return 0
        self._left -= len(lines)
        self.rows += lines[:self._most - len(self.rows)]
        if self._left < 0:
            raise BadAnswer(f"wrote {lines[-1][:100]!r} without being asked")
        return int(self._left == 0)

    def line(self, place: int) -> str | None:
        return self._request.line


@dataclass
class _Asked:
    """A query of the page: its line, its axes, the box that it can find something in, and what it is made of."""

    kind: str
    request: Request
    axes: Axes
    sides: Sides | None
    at: tuple[int, int] = (0, 0)
    ring: list[tuple[int, int]] | None = None


class Viewer:
    """Answers for the page of a folder. Nothing but a few views is kept; each answer is of one commit."""

    def __init__(self, shown: Shown) -> None:
        self.shown = shown
        self._turn = threading.Lock()
        self._views: OrderedDict[tuple[Any, ...], dict[str, Any]] = OrderedDict()

    def view(self, asked: Mapping[str, Any]) -> dict[str, Any]:
        """The live points of a frame, by squares or by single coordinates."""
        dims = self.shown.commit().dims
        where, sides = axes(asked, dims), frame(asked.get("frame"))
        columns, rows = number(asked, "columns", 1, 4096), number(asked, "rows", 1, 4096)
        with self.shown.reading():
            mark = self.shown.mark()
            key = mark, where, sides, columns, rows
            with self._turn:
                found = self._views.get(key)
            if found is None:
                drawn = points_in(self.shown.count, where, sides, columns, rows)
                found = {"mark": mark, **drawn.told()}
        with self._turn:
            self._views[key] = found
            while len(self._views) > _KEPT:
                self._views.popitem(last=False)
        return found

    def ask(self, asked: Mapping[str, Any]) -> dict[str, Any]:
        """What the program answers to a box, a polygon or the nearest, how it was answered, and where what it found
        lies."""
        query = self._query(asked)
        with self.shown.reading():
            explained = self.shown.explain(query.request)
            talk, begun = First(query.request, _MOST if query.kind == "nearest" else _SHOWN), time.perf_counter()
            if query.kind == "nearest" or explained.found <= _LISTED:
                self.shown.run(talk)
                if talk.refused:
                    raise talk.refused
            spent = time.perf_counter() - begun
            drawn = self._found(query, talk)
            mark = self.shown.mark()
        line = query.request.line
        is_near = query.kind == "nearest"
        pairs = [tuple(map(int, row.split(b" "))) for row in talk.rows[:_SHOWN]] if is_near else None
        return {
            "mark": mark, "kind": query.kind, "line": line if len(line) < 400 else line[:400] + " ..",
            "count": explained.found, "numbers": None if is_near or not talk.is_sent else list(map(int, talk.rows)),
            "near": pairs, "milliseconds": spent * 1000 if talk.is_sent else None,
            "drawn": None if drawn is None else drawn.told(),
            "explained": {"tested": explained.tested, "touched": explained.touched},
        }

    def _query(self, asked: Mapping[str, Any]) -> _Asked:
        dims = self.shown.commit().dims
        where, kind = axes(asked, dims), asked.get("kind")
        if kind == "box":
            sides = frame(asked.get("frame"))
            return _Asked("box", requests.box(*where.box(sides)), where, sides)
        if kind == "nearest":
            x, y = place(asked.get("at"))
            at = held(x), held(y)
            point = [0] * dims
            point[where.x] = at[0]
            if where.y is not None:
                point[where.y] = at[1]
            return _Asked("nearest", requests.nearest(number(asked, "k", 1, 10_000), point), where, None, at)
        if kind == "polygon":
            corners = ring(asked.get("ring"))
            order = -1 if where.x > (where.y or 0) else 1
            shape = [[corner[::order] for corner in [*corners, corners[0]]]]
            across, up = [x for x, _ in corners], [y for _, y in corners]
            return _Asked("polygon", requests.polygon(shape), where, (min(across), min(up), max(across), max(up)),
                          ring=corners)
        raise ValueError("kind is not box, polygon or nearest")

    def _found(self, query: _Asked, talk: First) -> Drawn | None:
        """Where the points lie that were found; None where that can't be told: of the nearest in other than one or two
        dimensions."""
        def drawn(sides: Sides, squares: int = _SQUARES) -> Drawn:
            return points_in(self.shown.count, query.axes, sides, squares, squares)

        if query.kind == "box" and query.sides is not None:
            return drawn(query.sides)
        if query.ring is not None and query.sides is not None:
            most = _COMPARED // len(query.ring)
            return in_ring(drawn(query.sides, min(_SQUARES, math.isqrt(most))), query.ring)
        if query.axes.dims > 2 or not talk.rows:
            return None
        farthest = int(talk.rows[-1].split(b" ")[1])
        reach = math.isqrt(farthest)
        x, y = query.at if query.axes.y is not None else (query.at[0], 0)
        sides = held(x - reach), held(y - reach), held(x + reach), held(y + reach)
        return in_circle(drawn(sides), (x, y), farthest)
