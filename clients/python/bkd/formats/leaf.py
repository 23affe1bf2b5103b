"""A leaf: some entries, in the one spelling that they have."""
from __future__ import annotations

import operator
import struct
from dataclasses import dataclass

from .cursor import Cursor, Malformed

_GREATEST = 1 << 24
Box = tuple[tuple[int, ...], tuple[int, ...]]


@dataclass(frozen=True, slots=True)
class Leaf:
    """The entries of a leaf: the documents' numbers, and of each dimension the coordinates,
    in the order of the leaf."""

    numbers: tuple[int, ...]
    columns: tuple[tuple[int, ...], ...]


def read_leaf(data: bytes, dims: int, count: int, cell: Box) -> Leaf:
    """The entries that these bytes spell, all of them: `count` entries, within the cell. Else `Malformed`."""
    cursor = Cursor(data)
    if cursor.number(2) != count:
        raise Malformed("count")
    numbers = _numbers(cursor, count)
    keys, lengths, order = _keys(cursor, count, dims)
    cursor.end()
    shared = [_shared(column, length) for column, length in zip(keys, lengths)]
    if lengths != shared:
        raise Malformed("a prefix is longer than said")
    if order != _sorted_dimension(keys, lengths, count):
        raise Malformed("another dimension is the sorted one")
    columns = tuple(tuple(k - (1 << 31) for k in struct.unpack(f">{count}I", column)) for column in keys)
    _check_entries(numbers, columns, order or 0, cell)
    return Leaf(numbers, columns)


def _numbers(cursor: Cursor, count: int) -> tuple[int, ...]:
    form, least = cursor.number(1), cursor.vint()
    if form == 0:
        numbers = tuple(range(least, least + count))
    elif form <= 3:
        more = _integers(cursor.take(form * count), form, count)
        greatest = max(more)
        if min(more) != 0 or greatest < 1 << 8 * (form - 1) and form > 1 or more == [i for i in range(count)]:
            raise Malformed("numbers have a shorter form")
        numbers = tuple(least + m for m in more)
    else:
        raise Malformed("form of the numbers")
    if max(numbers) >= _GREATEST:
        raise Malformed("a number is too great")
    return numbers


def _integers(data: bytes, width: int, count: int) -> list[int]:
    """Numbers of so many bytes each."""
    wide = bytearray(4 * count)
    for byte in range(width):
        wide[4 - width + byte::4] = data[byte::width]
    return list(struct.unpack(f">{count}I", wide))


def _keys(cursor: Cursor, count: int, dims: int) -> tuple[list[bytearray], list[int], int | None]:
    """The keys of each dimension, one behind the other, the prefix lengths, and the sorted dimension, if any."""
    lengths = list(cursor.take(dims))
    if max(lengths) > 4:
        raise Malformed("length of a prefix")
    prefixes = [cursor.take(length) for length in lengths]
    order = None
    column = b""
    if min(lengths) < 4:
        order = cursor.number(1)
        if order >= dims or lengths[order] == 4:
            raise Malformed("sorted dimension")
        column = _sorted_bytes(cursor, count)
    keys = [bytearray(4 * count) for _ in range(dims)]
    for d, prefix in enumerate(prefixes):
        for byte, value in enumerate(prefix):
            keys[d][byte::4] = bytes([value]) * count
    places = [(d, byte) for d in range(dims) for byte in range(lengths[d] + (d == order), 4)]
    rests = cursor.take(len(places) * count)
    for place, (d, byte) in enumerate(places):
        keys[d][byte::4] = rests[place::len(places)]
    if order is not None:
        keys[order][lengths[order]::4] = column
    return keys, lengths, order


def _sorted_bytes(cursor: Cursor, count: int) -> bytes:
    """The first byte behind the prefix of each entry in the sorted dimension, plain or in runs."""
    form = cursor.number(1)
    if form > 1:
        raise Malformed("form of the sorted bytes")
    if form == 0:
        column = cursor.take(count)
    else:
        pieces = [(cursor.take(1), cursor.number(1) + 1) for _ in range(cursor.number(1))]
        column = b"".join(byte * length for byte, length in pieces)
        if len(column) != count or [length for _, length in pieces] != _pieces(column):
            raise Malformed("runs")
    if (form == 1) != (2 * len(_pieces(column)) < count):
        raise Malformed("the other form of sorted bytes is shorter")
    return column


def _pieces(column: bytes) -> list[int]:
    """The lengths of the pieces of runs: each run of equal bytes in pieces of 256 and a rest."""
    pieces: list[int] = []
    at = 0
    while at < len(column):
        run = len(column) - at - len(column[at:].lstrip(column[at:at + 1]))
        pieces += [256] * ((run - 1) // 256) + [(run - 1) % 256 + 1]
        at += run
    return pieces


def _shared(column: bytearray, length: int) -> int:
    """How long a prefix all keys of a dimension share, which is at least `length`."""
    while length < 4 and len(set(column[length::4])) == 1:
        length += 1
    return length


def _sorted_dimension(keys: list[bytearray], lengths: list[int], count: int) -> int | None:
    """The dimension whose first byte behind the prefix takes the fewest values, the least on ties."""
    spread = [(len(set(column[length::4])), d) for d, (column, length) in enumerate(zip(keys, lengths)) if length < 4]
    return min(spread)[1] if spread else None


def _check_entries(numbers: tuple[int, ...], columns: tuple[tuple[int, ...], ...], order: int, cell: Box) -> None:
    """Entries ascend strictly by the sorted coordinate, number, all coordinates, and lie in the cell."""
    rows = list(zip(columns[order], numbers, *columns))
    if not all(map(operator.lt, rows, rows[1:])):
        raise Malformed("order of the entries")
    for column, low, high in zip(columns, *cell):
        if min(column) < low or max(column) > high:
            raise Malformed("an entry is out of its cell")
