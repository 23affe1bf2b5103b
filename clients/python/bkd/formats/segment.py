"""A segment's file: its head, its tree, and its leaves when they are asked for."""
from __future__ import annotations

from collections.abc import Iterator
from dataclasses import dataclass

from ..damage import Damage
from ..errors import Damaged
from .commit import Commit, Listed, greatest_leaf
from .cursor import Cursor, Malformed
from .leaf import Leaf, read_leaf
from .pages import FileName, PagedFile, pages_for
from .tree import Tree, read_tree

_GREATEST = 1 << 24


@dataclass(frozen=True, slots=True)
class Head:
    """The fields of a segment's first page."""

    dims: int
    form: int
    leaf: int
    entries: int
    leaves: int
    index_length: int
    leaf_pages: int


@dataclass(frozen=True, slots=True)
class Segment:
    """A segment that was opened: its head and its tree. `folder` and `id` tell where its leaves are."""

    folder: str
    id: int
    head: Head
    tree: Tree

    @property
    def index_pages(self) -> int:
        return pages_for(self.head.index_length)

    def count_of(self, leaf: int) -> int:
        """How many entries a leaf has: all are full but the last one, which has the rest."""
        return min(self.head.leaf, self.head.entries - leaf * self.head.leaf)

    def leaves(self) -> Iterator[Leaf]:
        """All leaves from left to right, each page read once. Raises `Damaged`."""
        with PagedFile(self.folder, FileName.segment(self.id)) as file:
            page, payload = -1, b""
            for number, (place, cell) in enumerate(self.tree.leaves()):
                if place.page != page:
                    page = place.page
                    payload = file.payload(1 + self.index_pages + page)
                part = payload[place.offset:place.offset + place.length]
                try:
                    yield read_leaf(part, self.head.dims, self.count_of(number), cell)
                except Malformed:
                    at = 1 + self.index_pages + page
                    raise Damaged(Damage("leaf", file.name.text, page=at, offset=place.offset)) from None


def _head(payload: bytes) -> Head:
    """The fields of a first page, where they are in their ranges."""
    cursor = Cursor(payload)
    magic = cursor.take(8)
    head = Head(cursor.number(1), cursor.number(1), cursor.number(2), *(cursor.number(4) for _ in range(4)))
    if magic != (b"BKDPSEG2" if head.form == 3 else b"BKDPSEG1") or any(payload[cursor.at:]):
        raise Malformed("no segment")
    if not 1 <= head.dims <= 8 or not 1 <= head.form <= 3 or not 2 <= head.leaf <= greatest_leaf(head.dims):
        raise Malformed("dimensions, form and leaf size")
    if not 1 <= head.entries <= _GREATEST or head.leaves != -(-head.entries // head.leaf):
        raise Malformed("entries and leaves")
    return head


def open_segment(folder: str, listed: Listed, commit: Commit) -> Segment:
    """The segment that the commit lists so, its leaf pages unread. Raises `Damaged`."""
    with PagedFile(folder, FileName.segment(listed.segment)) as file:
        try:
            head = _head(file.payload(0))
        except Malformed:
            raise file.not_in_grammar() from None
        if head.dims != commit.dims:
            raise file.unequal(commit.dims, head.dims)
        file.need_pages(1 + pages_for(head.index_length) + head.leaf_pages)
        tree = _tree(file, head)
        for said, found in ((head.leaf_pages, tree.leaf_pages), (commit.leaf, head.leaf),
                            (listed.entries, head.entries)):
            if said != found:
                raise file.unequal(said, found)
        return Segment(folder, listed.segment, head, tree)


def _tree(file: PagedFile, head: Head) -> Tree:
    body = file.body(head.index_length)
    try:
        if body is not None:
            return read_tree(head.form, head.dims, head.leaves, body)
    except Malformed:
        pass
    raise file.not_in_grammar()
