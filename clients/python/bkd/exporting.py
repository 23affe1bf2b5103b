"""All live documents of an index, so that one that is full, or of another leaf size, can be built anew.

The program's `export` writes them where it has that command. Else the files are read, and 4 bytes for each number and
coordinate are kept, and 40 a point for their order.
"""
from __future__ import annotations

import contextlib
import csv
import itertools
import os
from array import array
from collections.abc import Iterable, Iterator, Sequence
from operator import itemgetter
from typing import Any, TextIO

from . import lock
from .commands import Folder, Which
from .errors import BadAnswer, NoIndex, NotFound, Refused
from .formats import open_stored
from .lock import Held
from .program import Program, find

Document = tuple[int, tuple[tuple[int, ...], ...]]
_LINES = 1 << 15


def export(folder: Folder, *, program: Which = None, held: Held | None = None) -> Iterator[Document]:
    """The live documents of a folder as (number, points), by ascending number; points ascend by their coordinates.

    Raises `NoIndex`, `Locked`, or `Damaged` where a file isn't whole, before the first document.
    """
    path, exporter = os.fspath(folder), _exporter(program)
    if exporter is None:
        return _of_files(path, held)
    _, lines = _begun(exporter, path, held)
    return _of_lines(lines)


def to_arrays(folder: Folder, *, program: Which = None, held: Held | None = None) -> tuple[Any, Any]:
    """The same as two arrays, a row for each point: numbers, uint32, and points, int32 of shape (n, dims); wants
    numpy."""
    import numpy
    path, exporter = os.fspath(folder), _exporter(program)
    if exporter is None:
        numbers, columns = _columns(path, held)
        rows = numpy.stack([numpy.asarray(part, dtype=numpy.int64) for part in (numbers, *columns)], axis=1)
        rows = rows[numpy.lexsort(rows.T[::-1])]
    else:
        head, lines = _begun(exporter, path, held)
        parts = [numpy.empty(0, dtype=numpy.int64)]
        while some := b"".join(itertools.islice(lines, _LINES)):
            parts.append(numpy.fromstring(some.replace(b"\n", b",")[:-1], dtype=numpy.int64, sep=","))
        rows = numpy.concatenate(parts).reshape(-1, 1 + head.count(b","))
    return rows[:, 0].astype(numpy.uint32), numpy.ascontiguousarray(rows[:, 1:], dtype=numpy.int32)


def _exporter(program: Which) -> Program | None:
    """The program, where there is one that has the command."""
    try:
        found = find(program)
    except NotFound:
        if program is not None:
            raise
        return None
    return found if "export" in found.commands else None


def _begun(exporter: Program, path: str, held: Held | None, *options: str) -> tuple[bytes, Iterator[bytes]]:
    """The first line of an export, the columns' names, and the iterator of the others."""
    lines = exporter.lines(path, ["export", *options], held)
    head = next(lines, b"")
    if head.startswith(b"doc,"):
        return head, lines
    for _ in lines:
        pass  # (where it failed its error is raised here)
    said = head.decode(errors="replace").strip()
    if said == "no index":
        raise NoIndex(f"{path} holds no index")
    raise Refused("export", said, 1)


def _of_lines(lines: Iterator[bytes]) -> Iterator[Document]:
    """The documents of records that are in order."""
    try:
        records = (tuple(map(int, line.split(b","))) for line in lines)
        for number, some in itertools.groupby(records, key=itemgetter(0)):
            yield number, tuple(record[1:] for record in some)
    except ValueError as error:
        raise BadAnswer(f"export wrote what is no record: {error}") from error


def _columns(path: str, held: Held | None) -> tuple[array[int], list[array[int]]]:
    """The numbers of all live entries in the files, and their coordinates by dimension."""
    with lock.locked(path, shared=True) if held is None else contextlib.nullcontext():
        stored = open_stored(path)
        numbers = array("I")
        columns = [array("i") for _ in range(stored.commit.dims)]
        for _, leaf, places in stored.entries():
            numbers.extend(leaf.numbers[i] for i in places)
            for column, kept in zip(leaf.columns, columns):
                kept.extend(column[i] for i in places)
    return numbers, columns


def _of_files(path: str, held: Held | None = None) -> Iterator[Document]:
    numbers, columns = _columns(path, held)
    return _documents(numbers, columns, sorted(range(len(numbers)), key=numbers.__getitem__))


def _documents(numbers: Sequence[int], columns: Sequence[Sequence[int]], order: Iterable[int]) -> Iterator[Document]:
    for number, places in itertools.groupby(order, key=numbers.__getitem__):
        yield number, tuple(sorted(tuple(column[i] for column in columns) for i in places))


def export_csv(folder: Folder, file: TextIO, columns: Sequence[str] | None = None, *, as_ranges: bool = False,
               program: Which = None) -> int:
    """Writes the live documents as CSV, a line for each point, and answers how many lines there are.

    The first column is `doc`, the number; the others are the coordinates, named `c1`, `c2` and so on where `columns`
    isn't given. With `as_ranges` they are `l1`, `l2` and so on, the lower ends, and then `h1`, `h2`, the upper ones;
    `Refused` is raised where the dimensions are odd. `bkd load --columns c1,c2` reads it, and makes a document of each
    point.
    """
    path, exporter = os.fspath(folder), _exporter(program)
    if exporter is None:
        dims, records = open_stored(path).commit.dims, _records(_of_files(path))
    else:
        head, lines = _begun(exporter, path, None)
        dims, records = head.count(b","), lines
    if as_ranges and dims % 2:
        raise Refused("export", "not ranges", 1)
    half = dims // 2
    usual = [f"{'lh'[i // half]}{i % half + 1}" if as_ranges else f"c{i + 1}" for i in range(dims)]
    names = usual if columns is None else list(columns)
    if len(names) != dims:
        raise ValueError(f"{len(names)} names for {dims} dimensions")
    csv.writer(file, lineterminator="\n").writerow(["doc", *names])
    count = 0
    while some := list(itertools.islice(records, _LINES)):
        file.write(b"".join(some).decode())
        count += len(some)
    return count


def _records(documents: Iterable[Document]) -> Iterator[bytes]:
    for number, points in documents:
        for point in points:
            yield b",".join(b"%d" % c for c in (number, *point)) + b"\n"
