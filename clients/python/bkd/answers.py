"""The forms of the program's answers, and how they are read from its text."""
from __future__ import annotations

import sys
from collections.abc import Callable, Sequence
from dataclasses import dataclass
from typing import Any

from .errors import BadAnswer


_LARGE = 1000
# in the place of a value: the answer isn't whole
PART = object()


@dataclass(frozen=True, slots=True)
class Answer:
    """A form of answers: the first line's words, and whether its number says how many lines follow.

    `read` makes a value of the first line's words and of the text of the lines that follow.
    """

    word: bytes
    has_rows: bool
    read: Callable[[Sequence[bytes], bytes], Any]


def _whole(words: Sequence[bytes], text: bytes) -> list[int]:
    """The numbers of lines of one number each; by numpy where that is there already and they are many."""
    if len(text) > _LARGE and "numpy" in sys.modules:
        return list(array_of(words, text).tolist())
    return [*map(int, text.split())]


def array_of(words: Sequence[bytes], text: bytes) -> Any:
    """The same as an array of uint32; wants numpy."""
    import numpy
    found = numpy.fromstring(text, dtype=numpy.uint32, sep="\n") if text else numpy.empty(0, dtype=numpy.uint32)
    if len(found) != int(words[1]):
        raise ValueError(f"{len(found)} numbers, not {words[1].decode()}")
    return found


def _pairs(text: bytes) -> list[tuple[int, int]]:
    return [(int(number), int(distance)) for number, distance in (row.split(b" ") for row in text.splitlines())]


def near_arrays(words: Sequence[bytes], text: bytes) -> tuple[Any, Any]:
    """Numbers as uint32 and squared distances as uint64, or as Python's numbers where one is beyond; wants numpy."""
    import numpy
    pairs = _pairs(text)
    distances = [distance for _, distance in pairs]
    kind = numpy.uint64 if max(distances, default=0) < 1 << 64 else object
    return numpy.array([number for number, _ in pairs], dtype=numpy.uint32), numpy.array(distances, dtype=kind)


def _triples(text: bytes) -> list[tuple[int, int, int]]:
    return [(int(x), int(y), int(n)) for x, y, n in (row.split(b" ") for row in text.splitlines())]


@dataclass(frozen=True, slots=True)
class Explained:
    """What a query reads in the stored segments.

    `tested` counts the entries in leaves that it crosses (None of a query for the nearest), `touched` the leaves that
    it may read, `found` the documents that it finds.
    """

    tested: int | None
    touched: int
    found: int


OK = Answer(b"ok", False, lambda words, text: None)
DOC = Answer(b"doc", False, lambda words, text: int(words[1]))
DELETED = Answer(b"deleted", False, lambda words, text: int(words[1]))
HITS = Answer(b"hits", True, _whole)
HOW_MANY = Answer(b"hits", True, lambda words, text: int(words[1]))
HITS_ARRAY = Answer(b"hits", True, array_of)
NEAR_ARRAYS = Answer(b"near", True, near_arrays)
NEAR = Answer(b"near", True, lambda words, text: _pairs(text))
POINTS = Answer(b"points", False, lambda words, text: int(words[1]))
BUCKETS = Answer(b"buckets", True, lambda words, text: _triples(text))
TESTED = Answer(b"tested", False, lambda words, text: Explained(int(words[1]), int(words[3]), int(words[5])))
TOUCHED = Answer(b"touched", False, lambda words, text: Explained(None, int(words[1]), int(words[3])))


def rows_after(answer: Answer, head: bytes) -> int:
    """How many lines follow the first line of an answer."""
    words = head.split(b" ")
    if words[0] != answer.word:
        raise BadAnswer(f"answered {head[:100]!r} where {answer.word.decode()} was expected")
    if not answer.has_rows:
        return 0
    if len(words) != 2 or not words[1].isdigit():
        raise BadAnswer(f"answered {head[:100]!r}")
    return int(words[1])


def value_in(answer: Answer, text: bytes) -> Any:
    """The value of an answer that is just this text, or `PART` where it is less, or something else."""
    try:
        if answer is HITS and len(text) < _LARGE:
            word, count, *numbers = text.split()
            return [*map(int, numbers)] if word == b"hits" and len(numbers) == int(count) and text[-1] == 10 else PART
        at = text.find(b"\n")
        words = text[:at].split(b" ")
        if words[0] != answer.word:
            return PART
        if text.count(b"\n") != (1 + int(words[1]) if answer.has_rows else 1) or text[-1:] != b"\n":
            return PART
        return answer.read(words, text[at + 1:])
    except (ValueError, IndexError):
        return PART


def value_of(answer: Answer, head: bytes, text: bytes) -> Any:
    """The value of a whole answer, of its first line and the text of those that follow."""
    try:
        return answer.read(head.split(b" "), text)
    except (ValueError, IndexError) as error:
        raise BadAnswer(f"answered {head[:100]!r} and {text[:100]!r}: {error}") from error
