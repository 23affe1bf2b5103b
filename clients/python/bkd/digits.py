"""Lines of whole numbers from arrays, by numpy: each number in a cell of 16 bytes, with spaces before it.

A number has 10 digits at most, so three groups of four. What a group is spelled as, 4 bytes, stands in a table: with
zeros behind another group, with spaces where it is the first, then also with a sign. Where a group of four digits is
the first one its sign is the last byte of the group before it.
"""
from __future__ import annotations

import functools
from typing import Any

import numpy

_FIRST, _NEGATIVE, _NONE, _SIGN = 10_000, 20_000, 30_000, 30_001
_BYTES = 16


@functools.cache
def _groups() -> Any:
    """The table: groups behind others, then first ones, first ones of negative numbers, no digits, and a sign."""
    some = range(10_000)
    spelled = [b"%04d" % i for i in some] + [b"%4d" % i for i in some]
    spelled += [b"%4d" % (-i if i < 1_000 else i) for i in some] + [b"    ", b"   -"]
    return numpy.frombuffer(b"".join(spelled), dtype=numpy.uint32)


def lines(word: bytes, rows: Any, begins: Any = slice(None)) -> bytes:
    """A line for each row of an array of shape (n, dims) of whole numbers of 32 bits: a word of 3 letters, and its
    numbers. Where `begins` is given only the rows that it chooses begin a line, the first among them, and the others go
    on with it."""
    text = _cells(rows).view(numpy.uint8).reshape(len(rows), -1)
    text[begins, :4] = numpy.frombuffer(b"\n" + word, dtype=numpy.uint8)
    return text.tobytes()[1:] + b"\n"


def records(rows: Any) -> bytes:
    """The same rows as records of a CSV table, without a word."""
    text = _cells(rows).view(numpy.uint8).reshape(len(rows), rows.shape[1], _BYTES)
    text[:, 1:, 0] = ord(",")
    text[:, 0, 0] = ord("\n")
    return text.tobytes()[1:] + b"\n"


def _cells(rows: Any) -> Any:
    """Each number in a cell, whose first four bytes are spaces."""
    numbers = rows.astype(numpy.int64)
    is_negative = numbers < 0
    upper, low = numpy.divmod(numpy.abs(numbers).astype(numpy.uint32), numpy.uint32(10_000))
    high, middle = numpy.divmod(upper, numpy.uint32(10_000))
    first = numpy.where(is_negative, _NEGATIVE, _FIRST)
    before_middle = _NONE + (is_negative & (middle >= 1_000))
    before_low = _NONE + (is_negative & (low >= 1_000))
    cells = numpy.empty((*rows.shape, 4), dtype=numpy.uint32)
    table = _groups()
    cells[..., 0] = table[_NONE]
    cells[..., 1] = table[numpy.where(high > 0, high + first, before_middle)]
    cells[..., 2] = table[numpy.where(high > 0, middle, numpy.where(upper > 0, middle + first, before_low))]
    cells[..., 3] = table[numpy.where(upper > 0, low, low + first)]
    return cells
