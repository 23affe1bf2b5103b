"""The index body of a segment: a tree of cells, in three forms."""
from __future__ import annotations

from collections.abc import Iterator
from dataclasses import dataclass

from .cursor import Cursor, Malformed, coordinate, key
from .pages import PAYLOAD

Box = tuple[tuple[int, ...], tuple[int, ...]]
_LONGEST = 4064


@dataclass(frozen=True, slots=True)
class Place:
    """Where a leaf stands: its leaf page, counted from 0, its offset there and its length."""

    page: int
    offset: int
    length: int


@dataclass(frozen=True, slots=True)
class Node:
    """A node of the tree: its depth, its cell (of a leaf its own cell), and either its split or its leaf's number.

    `split` is (dimension, value) of an inner node, and `leaf` counts the leaves from the left.
    """

    depth: int
    cell: Box
    split: tuple[int, int] | None
    leaf: int | None


@dataclass(frozen=True, slots=True)
class Tree:
    """A tree: its nodes in preorder, and the places of its leaves from left to right."""

    root: Box
    nodes: tuple[Node, ...]
    places: tuple[Place, ...]

    @property
    def leaf_pages(self) -> int:
        return self.places[-1].page + 1

    def leaves(self) -> Iterator[tuple[Place, Box]]:
        """Each leaf's place and own cell."""
        return zip(self.places, (node.cell for node in self.nodes if node.leaf is not None))


def read_tree(form: int, dims: int, leaves: int, body: bytes) -> Tree:
    """The tree that a body of this form spells, all of it; `Malformed` where it spells none."""
    cursor = Cursor(body)
    root = _cell(cursor, dims)
    reader = _Reader(cursor, form, root)
    reader.node(0, root, leaves, tuple(key(low) for low in root[0]))
    if form == 1:
        reader.table()
    cursor.end()
    return Tree(root, tuple(reader.nodes), tuple(reader.places))


def _cell(cursor: Cursor, dims: int) -> Box:
    low = tuple(coordinate(cursor.take(4)) for _ in range(dims))
    high = tuple(coordinate(cursor.take(4)) for _ in range(dims))
    if any(a > b for a, b in zip(low, high)):
        raise Malformed("a cell is upside down")
    return low, high


class _Reader:
    """Reads nodes in preorder; in the packed forms each inner node says where its right child stands."""

    def __init__(self, cursor: Cursor, form: int, root: Box) -> None:
        self.cursor = cursor
        self.form = form
        self.dims = len(root[0])
        self.nodes: list[Node] = []
        self.places: list[Place] = []
        self._leaves = 0
        self._next = (0, 0)

    def node(self, depth: int, cell: Box, leaves: int, references: tuple[bytes, ...]) -> None:
        if leaves == 1:
            self._leaf(depth, cell)
            return
        first = len(self.places)
        d, value, right, size = self._split(references)
        low, high = cell
        if not low[d] <= value <= high[d]:
            raise Malformed("a split value is out of its cell")
        self.nodes.append(Node(depth, cell, (d, value), None))
        references = references[:d] + (key(value),) + references[d + 1:]
        begin = self.cursor.at
        self.node(depth + 1, (low, high[:d] + (value,) + high[d + 1:]), (leaves + 1) // 2, references)
        taken, middle = self.cursor.at - begin, len(self.places)
        self.node(depth + 1, (low[:d] + (value,) + low[d + 1:], high), leaves // 2, references)
        if self.form != 1:
            place = self.places[middle]
            if taken != size or right != (place.page - self.places[first].page, place.offset):
                raise Malformed("a node says where its right child is, and it is elsewhere")

    def _split(self, references: tuple[bytes, ...]) -> tuple[int, int, tuple[int, int], int]:
        """The dimension and value of a split; in packed forms the right child's place and the left child's length."""
        if self.form == 1:
            d = self.cursor.number(1)
            if d >= self.dims:
                raise Malformed("dimension of a split")
            return d, coordinate(self.cursor.take(4)), (0, 0), 0
        d, shared = divmod(self.cursor.number(1), 5)
        if d >= self.dims:
            raise Malformed("dimension of a split")
        spelled = references[d][:shared] + self.cursor.take(4 - shared)
        if shared < 4 and spelled[shared] == references[d][shared]:
            raise Malformed("a split value shares more with its reference")
        return d, coordinate(spelled), (self.cursor.vint(), self.cursor.vint()), self.cursor.vint()

    def _leaf(self, depth: int, cell: Box) -> None:
        if self.form != 1:
            self._place(self.cursor.vint())
        if self.form == 3:
            own = _cell(self.cursor, self.dims)
            inside = all(a >= b for a, b in zip(own[0], cell[0])) and all(a <= b for a, b in zip(own[1], cell[1]))
            if not inside:
                raise Malformed("a leaf's own cell is out of its path cell")
            cell = own
        self.nodes.append(Node(depth, cell, None, self._leaves))
        self._leaves += 1

    def _place(self, length: int) -> None:
        """The next leaf stands behind the one before, or at the front of the next page."""
        if not 1 <= length <= _LONGEST:
            raise Malformed("length of a leaf")
        page, offset = self._next
        if offset + length > PAYLOAD:
            page, offset = page + 1, 0
        self.places.append(Place(page, offset, length))
        self._next = (page, offset + length)

    def table(self) -> None:
        """Form 1 lists the places behind the nodes, and they are where the rule of places has them."""
        for _ in range(self._leaves):
            said = Place(self.cursor.number(4), self.cursor.number(2), self.cursor.number(2))
            self._place(said.length)
            if self.places[-1] != said:
                raise Malformed("place of a leaf")
