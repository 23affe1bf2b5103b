"""The script's language over a plain list of documents: what each line answers, by README and docs/MODEL.md.

It is what the client's answers are compared with, and `stand_in.py` is a program that talks like this.
"""
from __future__ import annotations

import json
import re
from dataclasses import dataclass, field

LINE = 4_194_304
POINTS = 1 << 24
_NUMBER = re.compile(r"[0-9]+", re.ASCII)
_COORDINATE = re.compile(r"-?[0-9]+", re.ASCII)
_NAME = re.compile(r"[A-Za-z0-9_-]{1,32}", re.ASCII)
VERBS = ("create", "add", "delete", "box", "polygon", "nearest", "flush", "merge", "snapshot", "release", "commit",
         "reopen")


class Fault(Exception):
    """A line is refused with this text."""


@dataclass
class State:
    """An index: its documents' points by number, ascending, and its snapshots by name."""

    dims: int
    leaf: int
    next: int = 0
    given: int = 0
    docs: dict[int, list[tuple[int, ...]]] = field(default_factory=dict)
    snapshots: dict[str, dict[int, list[tuple[int, ...]]]] = field(default_factory=dict)
    begun: bool = False


def number(word: str, place: int) -> int:
    if not _NUMBER.fullmatch(word) or int(word) >= 1 << 32:
        raise Fault(f"bad number in word {place}")
    return int(word)


def coordinates(words: list[str], place: int) -> list[int]:
    found = []
    for at, word in enumerate(words):
        if not _COORDINATE.fullmatch(word) or not -(1 << 31) <= int(word) < 1 << 31:
            raise Fault(f"bad number in word {place + at}")
        found.append(int(word))
    return found


def corners(words: list[str], place: int, dims: int) -> tuple[list[int], list[int]]:
    if len(words) != 2 * dims:
        raise Fault("wrong words")
    found = coordinates(words, place)
    return found[:dims], found[dims:]


def in_box(point, low, high) -> bool:
    return all(a <= c <= b for a, c, b in zip(low, point, high))


def refuse_constant(text: str):
    raise ValueError(text)


def rings_of(text: str) -> list[list[tuple[int, int]]]:
    try:
        found = json.loads(text, parse_constant=refuse_constant)
    except ValueError:
        raise Fault("polygon is not json") from None
    rings = found.get("coordinates") if isinstance(found, dict) and found.get("type") == "Polygon" else None
    if not isinstance(rings, list) or not all(isinstance(ring, list) for ring in rings):
        raise Fault("not a polygon")
    if sum(map(len, rings)) > 65_536:
        raise Fault("polygon has too many positions")
    for r, ring in enumerate(rings):
        for p, position in enumerate(ring):
            if not isinstance(position, list) or len(position) != 2 or not all(map(is_whole, position)):
                raise Fault(f"polygon ring {r} position {p} is not whole")
        if len(ring) < 4:
            raise Fault(f"polygon ring {r} has too few positions")
        if ring[0] != ring[-1]:
            raise Fault(f"polygon ring {r} is not closed")
    return [[(x, y) for x, y in ring] for ring in rings]


def is_whole(value) -> bool:
    return type(value) is int and -(1 << 31) <= value < 1 << 31


def side(a, b, p) -> int:
    return (b[0] - a[0]) * (p[1] - a[1]) - (b[1] - a[1]) * (p[0] - a[0])


def in_polygon(rings, p) -> bool:
    """On some edge, or an odd number of edges counts."""
    odd = False
    for ring in rings:
        for a, b in zip(ring, ring[1:]):
            s = side(a, b, p)
            if s == 0 and min(a[0], b[0]) <= p[0] <= max(a[0], b[0]) and min(a[1], b[1]) <= p[1] <= max(a[1], b[1]):
                return True
            if (a[1] > p[1]) != (b[1] > p[1]) and (s > 0) == (b[1] > a[1]) and s != 0:
                odd = not odd
    return odd


def dist2(p, q) -> int:
    return sum((a - b) ** 2 for a, b in zip(p, q))


class Model:
    """A session over a list in memory. `line` answers a line's text, `count` counts the refused lines."""

    def __init__(self, state: State | None = None) -> None:
        self.state = state
        self.lines = 0
        self.count = 0
        self.committed = False

    def line(self, raw: bytes) -> str:
        self.lines += 1
        try:
            return self._done(raw)
        except Fault as fault:
            self.count += 1
            return f"line {self.lines}: {fault}\n"

    def _done(self, raw: bytes) -> str:
        raw = raw.removesuffix(b"\r")
        if len(raw) > LINE:
            raise Fault("too long")
        try:
            text = raw.decode()
        except UnicodeDecodeError:
            raise Fault("not utf-8") from None
        words = re.split(r"[ \t]+", text.strip(" \t")) if text.strip(" \t") else []
        if not words or words[0].startswith("#"):
            return ""
        if self.state is None and words[0] != "create":
            raise Fault("no index")
        if words[0] not in VERBS:
            raise Fault("unknown command")
        return getattr(self, "_" + words[0])(words[1:], text)

    def _create(self, words, text):
        if len(words) not in (1, 3) or (len(words) == 3 and words[1] != "leaf"):
            raise Fault("wrong words")
        dims = number(words[0], 2)
        leaf = number(words[2], 4) if len(words) == 3 else None
        if not 1 <= dims <= 8:
            raise Fault("dims")
        leaf = 4000 // (4 + 4 * dims) if leaf is None else leaf
        if not 2 <= leaf <= 4000 // (4 + 4 * dims):
            raise Fault("leaf size")
        if self.state is not None:
            raise Fault("index exists")
        self.state = State(dims, leaf)
        return "ok\n"

    def _add(self, words, text):
        s = self.state
        if not words or len(words) % s.dims or len(words) > 16 * s.dims:
            raise Fault("wrong words")
        found = coordinates(words, 2)
        points = sorted({tuple(found[i:i + s.dims]) for i in range(0, len(found), s.dims)})
        if s.given + len(points) > POINTS:
            raise Fault("full")
        s.docs[s.next] = points
        s.next += 1
        s.given += len(points)
        return f"doc {s.next - 1}\n"

    def _delete(self, words, text):
        s = self.state
        if words[:1] == ["box"]:
            low, high = corners(words[1:], 3, s.dims)
            gone = [n for n, points in s.docs.items() if any(in_box(p, low, high) for p in points)]
        elif len(words) == 1:
            gone = [n for n in [number(words[0], 2)] if n in s.docs]
        else:
            raise Fault("wrong words")
        for n in gone:
            del s.docs[n]
        return f"deleted {len(gone)}\n"

    def _viewed(self, words):
        """The name behind `@`, the other words, and the place of the first of them."""
        if not words or not words[0].startswith("@"):
            return None, words, 2
        if not _NAME.fullmatch(words[0][1:]):
            raise Fault("bad name")
        return words[0][1:], words[1:], 3

    def _docs(self, name):
        if name is not None and name not in self.state.snapshots:
            raise Fault("unknown snapshot")
        return self.state.docs if name is None else self.state.snapshots[name]

    def _hits(self, name, has):
        found = [n for n, points in self._docs(name).items() if any(map(has, points))]
        return f"hits {len(found)}\n" + "".join(f"{n}\n" for n in found)

    def _box(self, words, text):
        name, words, place = self._viewed(words)
        low, high = corners(words, place, self.state.dims)
        return self._hits(name, lambda p: in_box(p, low, high))

    def _polygon(self, words, text):
        name, words, _ = self._viewed(words)
        if self.state.dims != 2:
            raise Fault("not two dimensions")
        if not words:
            raise Fault("wrong words")
        rest = text.lstrip(" \t").removeprefix("polygon")
        if name is not None:
            rest = rest.lstrip(" \t").removeprefix("@" + name)
        rings = rings_of(rest)
        return self._hits(name, lambda p: in_polygon(rings, p))

    def _nearest(self, words, text):
        name, words, place = self._viewed(words)
        if len(words) != 1 + self.state.dims:
            raise Fault("wrong words")
        k, at = number(words[0], place), coordinates(words[1:], place + 1)
        if not 1 <= k <= 10_000:
            raise Fault("bad k")
        found = sorted((min(dist2(p, at) for p in points), n) for n, points in self._docs(name).items())[:k]
        return f"near {len(found)}\n" + "".join(f"{n} {d}\n" for d, n in found)

    def _alone(self, words):
        if words:
            raise Fault("wrong words")
        return "ok\n"

    def _flush(self, words, text):
        return self._alone(words)

    def _merge(self, words, text):
        if words[:1] == ["begin"]:
            for at, word in enumerate(words[1:]):
                number(word, 3 + at)
            if self.state.begun:
                raise Fault("merge begun")
            self.state.begun = True
            return "ok\n"
        if words[:1] == ["end"]:
            self._alone(words[1:])
            if not self.state.begun:
                raise Fault("no merge begun")
            self.state.begun = False
            return "ok\n"
        return self._alone(words)

    def _name(self, words):
        if not words:
            raise Fault("wrong words")
        if not _NAME.fullmatch(words[0]):
            raise Fault("bad name")
        self._alone(words[1:])
        return words[0]

    def _snapshot(self, words, text):
        name = self._name(words)
        if name in self.state.snapshots:
            raise Fault("name taken")
        if len(self.state.snapshots) >= 16:
            raise Fault("too many snapshots")
        self.state.snapshots[name] = dict(self.state.docs)
        return "ok\n"

    def _release(self, words, text):
        name = self._name(words)
        if self.state.snapshots.pop(name, None) is None:
            raise Fault("unknown snapshot")
        return "ok\n"

    def _commit(self, words, text):
        answer = self._alone(words)
        self.committed = True
        return answer

    def _reopen(self, words, text):
        answer = self._alone(words)
        self.state.snapshots.clear()
        self.state.begun = False
        self.committed = True
        return answer
