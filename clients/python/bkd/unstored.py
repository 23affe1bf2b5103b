"""The documents that an index was given since the last commit, as their lines, in a file without a name.

The program tells the numbers of what isn't stored yet, and no points: those are known by who sent them. Lines are read
again when they are asked for, so that many documents cost no memory.
"""
from __future__ import annotations

import os
import tempfile
import weakref
from bisect import bisect_left, bisect_right
from collections.abc import Iterable, Iterator
from typing import NamedTuple

from .errors import Uncommitted
from .many import Many

Document = tuple[int, tuple[tuple[int, ...], ...]]
# bytes of one piece, where lines were sent one by one
_SOME = 1 << 16


class Piece(NamedTuple):
    """Lines that follow each other: the number of the first document, how many documents they are, where the lines
    stand, which of them were refused, and how many words they have, None where that wasn't counted yet."""

    first: int
    documents: int
    at: int
    size: int
    refused: tuple[int, ...] = ()
    words: int | None = None

    @property
    def next(self) -> int:
        return self.first + self.documents


class Unstored:
    """Pieces by ascending number. One thread uses it at a time. What it lacks, as what a call sent that was
    interrupted, `documents` tells by `Uncommitted`."""

    def __init__(self) -> None:
        self._pieces: list[Piece] = []
        self._single = 0
        # whether documents were added that aren't kept
        self.lacks = False
        self._file: int | None = None

    @property
    def end(self) -> int:
        """Where the lines end."""
        return self._pieces[-1].at + self._pieces[-1].size if self._pieces else 0

    def write(self, text: bytes, at: int) -> None:
        """Puts lines behind those that are there. Raises OSError where there is no room."""
        if self._file is None:
            with tempfile.TemporaryFile() as file:
                self._file = os.dup(file.fileno())
            weakref.finalize(self, os.close, self._file)
        while text:
            done = os.pwrite(self._file, text, at)
            text, at = text[done:], at + done

    def note(self, number: int, line: str) -> None:
        """Keeps the line of a document, which was given this number."""
        text, words = line.encode() + b"\n", len(line.split())
        last = self._pieces[-1] if self._pieces else Piece(-1, 0, 0, 0)
        try:
            self.write(text, self.end)
        except OSError:
            self.lacks = True
            return
        if last.next == number and last.words is not None and last.size + len(text) <= _SOME:
            self._pieces[-1] = last._replace(documents=last.documents + 1, size=last.size + len(text),
                                             words=last.words + words)
        else:
            self._pieces.append(Piece(number, 1, self.end, len(text), (), words))

    def add(self, pieces: Iterable[Piece]) -> None:
        """Keeps pieces whose lines are written."""
        self._pieces += pieces

    def is_single(self, dims: int) -> bool:
        """Whether each document is kept and has one point, told once."""
        if self.lacks:
            return False
        for at in range(self._single, len(self._pieces)):
            piece = self._pieces[at]
            words = len(self._read(piece).split()) if piece.words is None else piece.words
            if piece.refused or words != piece.documents * (1 + dims):
                return False
            self._pieces[at] = piece._replace(words=words)
        self._single = max(0, len(self._pieces) - 1)  # (the last one may grow)
        return True

    def documents(self, numbers: Iterable[int], dims: int) -> Iterator[Document]:
        """The documents of these ascending numbers; points ascend, each once.

        Raises `Uncommitted`, before the first one, where one isn't kept.
        """
        firsts, pieces = [piece.first for piece in self._pieces], list(self._pieces)
        wanted: list[tuple[Piece, list[int]]] = []
        for number in numbers:
            at = bisect_right(firsts, number) - 1
            if at < 0 or number >= pieces[at].next:
                raise Uncommitted(f"document {number} isn't committed, and what it has isn't known here any more: "
                                  "commit first")
            if not wanted or wanted[-1][0] is not pieces[at]:
                wanted.append((pieces[at], []))
            wanted[-1][1].append(number)
        return self._documents(wanted, dims)

    def _documents(self, wanted: Iterable[tuple[Piece, list[int]]], dims: int) -> Iterator[Document]:
        for piece, numbers in wanted:
            lines = self._read(piece).split(b"\n")
            for place in reversed(piece.refused):
                del lines[place]
            for number in numbers:
                each = map(int, lines[number - piece.first].split()[1:])
                yield number, tuple(sorted(set(zip(*[each] * dims))))

    def _read(self, piece: Piece) -> bytes:
        assert self._file is not None
        return os.pread(self._file, piece.size, piece.at)


class Going:
    """The lines of one call that adds, kept as they go; `end` has them kept where the whole call was answered."""

    def __init__(self, unstored: Unstored, talk: Many) -> None:
        self._unstored = unstored
        self._talk = talk
        self._at = unstored.end
        self._sent: list[tuple[int, int, int]] = []
        self._is_lost = False
        self._lacked = unstored.lacks
        unstored.lacks |= talk.adds
        talk.sent = self._write

    def _write(self, text: bytes, count: int) -> None:
        try:
            if self._talk.adds and not self._is_lost:
                self._unstored.write(text, self._at)
        except OSError:
            self._is_lost = True
        self._sent.append((count, self._at, len(text)))
        self._at += len(text)

    def end(self) -> None:
        """(Where an interrupt came between a piece's being taken and being sent, its lines aren't the talk's.)"""
        is_all = sum(count for count, *_ in self._sent) == self._talk.given
        if self._is_lost or not self._talk.adds or not self._talk.is_whole or not is_all:
            return
        refused, pieces = self._talk.refused_places, []
        place, number = 0, self._talk.numbers.start
        for count, at, size in self._sent:
            some = refused[bisect_left(refused, place):bisect_left(refused, place + count)]
            within = tuple(one - place for one in some)
            pieces.append(Piece(number, count - len(within), at, size, within))
            place, number = place + count, pieces[-1].next
        self._unstored.add(pieces)
        self._unstored.lacks = self._lacked
