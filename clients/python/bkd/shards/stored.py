"""Documents of one folder by their keys."""
from __future__ import annotations

import numpy

from ..exporting import to_arrays
from ..program import Program
from .documents import Array, Documents


def documents_in(folder: str, program: Program, keys: Array) -> tuple[Array, Documents]:
    """The keys and the points of a folder's live documents, by number. `keys` are those of all numbers."""
    numbers, points = to_arrays(folder, program=program)
    found, counts = numpy.unique(numbers, return_counts=True)
    return keys[found], Documents(points, counts if len(found) < len(numbers) else None)
