"""Documents of folders copied into other folders; and folders that are left, removed."""
from __future__ import annotations

import contextlib
import os
from collections.abc import Callable, Iterator, Sequence
from typing import Any

import numpy

from ..formats.pages import is_own_name
from . import journal
from .documents import Array, Documents
from .layout import Cells, cut, sample, walk
from .shard import Shard
from .state import Known, Outcome

# documents of one commit
PART = 1_000_000
Source = tuple[str, Known]


def parts_of(count: int) -> Iterator[tuple[int, slice]]:
    """The commits that so many documents are added in: the number of each, and which documents."""
    for part in range(-(-count // PART)):
        yield part, slice(part * PART, (part + 1) * PART)


def rebuild(shard_of: Callable[[str], Shard], sources: Sequence[Source], targets: Sequence[Source], dims: int,
            leaf: int | None) -> tuple[Cells, list[tuple[Outcome, Any]]]:
    """Copies all documents of the sources into the targets, cut into as many cells by a sample.

    Answers the cells, over the targets' places among them, and of each target what it holds and its bounds. Done again
    it does what isn't done.
    """
    found = [shard_of(folder).export(known) for folder, known in sources]
    keys = numpy.concatenate([keys for keys, _ in found])
    documents = joined([documents for _, documents in found])
    firsts = documents.firsts()
    cells = cut(sample(firsts, len(firsts)), list(range(len(targets))))
    places = numpy.zeros(len(firsts), dtype=numpy.int64)
    walk(cells, firsts, numpy.arange(len(firsts)), places)
    told = []
    for at, (folder, known) in enumerate(targets):
        rows = numpy.flatnonzero(places == at)
        told.append(_filled(shard_of(folder), known, documents.chosen(rows), keys[rows], dims, leaf))
    return cells, told


def joined(parts: Sequence[Documents]) -> Documents:
    """Documents one after the other."""
    points = numpy.concatenate([part.points for part in parts])
    if all(part.counts is None for part in parts):
        return Documents(points)
    ones = [numpy.ones(len(part), dtype=numpy.int64) if part.counts is None else part.counts for part in parts]
    return Documents(points, numpy.concatenate(ones))


def _filled(shard: Shard, known: Known, documents: Documents, keys: Array, dims: int,
            leaf: int | None) -> tuple[Outcome, Any]:
    outcome = shard.make(known, dims, leaf)
    for part, rows in parts_of(len(keys)):
        chosen = documents.chosen(numpy.arange(len(keys))[rows])
        outcome = shard.add(known, f"rebuild/{part}", chosen, keys[rows])
    points = documents.points
    return outcome, [points.min(axis=0).tolist(), points.max(axis=0).tolist()] if len(points) else None


def remove(shard: Shard, known: Known) -> bool:
    """Removes the index of a folder that was made for this place, and the folder where nothing else is in it.

    A folder that isn't there, or that is of anything else, stays as it is.
    """
    shard.close()
    found = journal.read(shard.folder)
    if found is None or not found.records or found.records[0].before[:16].hex() != known.place:
        return False
    names = sorted(name for name in os.listdir(shard.folder) if is_own_name(name))
    # the journal last, so that what is left of a removal that was cut short is known
    for name in [*names, journal.NAME]:
        with contextlib.suppress(FileNotFoundError):
            os.remove(os.path.join(shard.folder, name))
    with contextlib.suppress(OSError):
        os.rmdir(shard.folder)
    return True
