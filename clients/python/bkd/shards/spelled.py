"""Documents as the program reads them, spelled from arrays."""
from __future__ import annotations

from collections.abc import Iterator

from .. import digits
from .documents import Documents

_ROWS = 8192


def columns(dims: int) -> str:
    """The names of a table's columns, parted by commas."""
    return ",".join(f"c{d + 1}" for d in range(dims))


def table(documents: Documents) -> Iterator[bytes]:
    """Documents of a point each as a CSV table, whose columns are `columns`."""
    yield f"{columns(documents.points.shape[1])}\n".encode()
    for at in range(0, len(documents.points), _ROWS):
        yield digits.records(documents.points[at:at + _ROWS])


def script(documents: Documents) -> Iterator[bytes]:
    """Documents as lines of a script."""
    begins, end = documents.begins(), len(documents.points)
    for at in range(0, len(begins), _ROWS):
        some = begins[at:at + _ROWS]
        rows = documents.points[some[0]:begins[at + _ROWS] if at + _ROWS < len(begins) else end]
        yield digits.lines(b"add", rows, some - some[0])
