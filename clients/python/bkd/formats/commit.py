"""The commit file: which segments the index has. Both layouts are read."""
from __future__ import annotations

import os
from dataclasses import dataclass

from .cursor import Cursor, Malformed
from .pages import COMMIT_FILE, PagedFile, pages_for

_GREATEST = 1 << 24
_SEGMENTS = 200


@dataclass(frozen=True, slots=True)
class Listed:
    """A segment as the commit lists it: its id, the generation of its live file, its entries, its live numbers."""

    segment: int
    generation: int
    entries: int
    live: int


@dataclass(frozen=True, slots=True)
class Commit:
    """An index as the commit file tells it. `given` counts the points of all documents ever added."""

    dims: int
    leaf: int
    next: int
    given: int
    next_segment: int
    listed: tuple[Listed, ...]


@dataclass(frozen=True, slots=True)
class _Head:
    """The fields at fixed offsets, and where the list of segments begins."""

    dims: int
    leaf: int
    next: int
    given: int
    next_segment: int
    segments: int
    list_at: int


def greatest_leaf(dims: int) -> int:
    """The greatest leaf size of an index of so many dimensions."""
    return 4000 // (4 + 4 * dims)


def _head(payload: bytes) -> _Head:
    cursor = Cursor(payload)
    magic = cursor.take(8)
    if magic not in (b"BKDPCOM1", b"BKDPCOM2"):
        raise Malformed("no commit")
    dims, leaf, following = cursor.number(1), cursor.number(2), cursor.number(4)
    given = cursor.number(4) if magic == b"BKDPCOM2" else following
    head = _Head(dims, leaf, following, given, cursor.number(8), cursor.number(2), cursor.at)
    if not 1 <= dims <= 8 or not 2 <= leaf <= greatest_leaf(dims):
        raise Malformed("dimensions and leaf size")
    if not following <= given <= _GREATEST or head.segments > _SEGMENTS:
        raise Malformed("numbers given and segments")
    return head


def parse_commit(body: bytes) -> Commit:
    """The commit that a whole body spells; `Malformed` where it spells none."""
    head = _head(body)
    cursor = Cursor(body, head.list_at)
    listed = []
    least = 0
    for _ in range(head.segments):
        one = Listed(cursor.number(8), cursor.number(8), cursor.number(4), cursor.number(4))
        if not least <= one.segment < head.next_segment or not 1 <= one.entries <= _GREATEST or one.live > one.entries:
            raise Malformed(f"segment {one.segment}")
        least = one.segment + 1
        listed.append(one)
    cursor.end()
    return Commit(head.dims, head.leaf, head.next, head.given, head.next_segment, tuple(listed))


def read_commit(folder: str | os.PathLike[str]) -> Commit | None:
    """The commit of a folder, None where it has none. Raises `Damaged`."""
    path = os.fspath(folder)
    if not os.path.exists(os.path.join(path, COMMIT_FILE.text)):
        return None
    with PagedFile(path, COMMIT_FILE) as file:
        first = file.payload(0)
        try:
            head = _head(first)
        except Malformed:
            raise file.not_in_grammar() from None
        length = head.list_at + 24 * head.segments
        file.need_pages(pages_for(length))
        body = file.body(length, first)
        try:
            if body is not None:
                return parse_commit(body)
        except Malformed:
            pass
        raise file.not_in_grammar()
