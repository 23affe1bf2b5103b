"""Talks with the program: what is sent to it, piece by piece, and what has been answered.

A talk gives pieces of whole lines until an empty one. What the program writes is put into its `inbox` as it is read,
and `look` tells how many lines are answered by it. So nothing that was read is lost where an exception (an interrupt,
say) comes at any moment, and looking again does no harm.
"""
from __future__ import annotations

import re
from collections.abc import Callable, Iterable, Iterator, Mapping
from typing import Any, Protocol

from .answers import DELETED, DOC, OK, rows_after, value_of
from .errors import BadAnswer, Refused
from .requests import Request

PIECE = 1 << 16
# the longest line that is read; one byte more and it is refused, whatever follows
_LINE = 4_194_304
_CHANGING = (DOC, DELETED, OK)
_REFUSAL = re.compile(rb"line ([0-9]+): (.*)", re.DOTALL)


class Talk(Protocol):
    """What goes back and forth over the program's pipes."""

    @property
    def inbox(self) -> list[bytes]:
        """Where the next piece that the program writes is put, cut anywhere."""

    def begin(self, first: int) -> None:
        """Tells the number of its first line, counted from 1 since the program started, before anything is sent."""

    def piece(self) -> tuple[bytes, int]:
        """The next whole lines to send, and how many they are; nothing at the end."""

    def look(self) -> int:
        """How many of the lines are answered whole by what came in."""

    def line(self, place: int) -> str | None:
        """The line at this place, counted from 0, or None where it isn't known."""

    def cut(self, last: int) -> None:
        """Tells a talk that was interrupted the number of its last line that was sent; answers behind it aren't its."""

    def explain(self, notes: Callable[[], Mapping[int, str]]) -> None:
        """Gives what was refused its cause, where the program noted one; `notes` reads them, by the lines' numbers."""


def take(talk: Talk, data: bytes) -> int:
    """Gives a talk what the program wrote, and answers how many of its lines are answered whole."""
    talk.inbox.append(data)
    return talk.look()


def sent(line: str) -> bytes:
    """A line as it goes to the program. Of one that is too long no more goes than is refused for it."""
    text = line.encode()
    return (text if len(text) <= _LINE else text[:_LINE + 1]) + b"\n"


def refusal_of(head: bytes, line: str, number: int) -> Refused | None:
    """The refusal that a first line of an answer tells, None where it is none."""
    match = _REFUSAL.fullmatch(head)
    if match is None:
        return None
    if int(match[1]) != number:
        raise BadAnswer(f"answered {head[:100]!r} to line {number}")
    return Refused(line, match[2].decode(errors="replace"), number)


class Asking:
    """Any requests; `values` has for each one its answer or its `Refused`. `first` is the number of the first line."""

    def __init__(self, requests: Iterable[Request], first: int = 1) -> None:
        self.inbox: list[bytes] = []
        self.values: list[Any] = []
        self._requests = iter(requests)
        self._sent: list[Request] = []
        self._first = first
        self._counted = 0
        self._ends = 0
        self._needed = 1
        self._refused: list[int] = []

    def begin(self, first: int) -> None:
        self._first = first

    def piece(self) -> tuple[bytes, int]:
        size, lines = 0, []
        for request in self._requests:
            text = sent(request.line)
            self._sent.append(request)
            lines.append(text)
            size += len(text)
            if size >= PIECE:
                break
        return b"".join(lines), len(lines)

    def look(self) -> int:
        for data in self.inbox[self._counted:]:
            self._ends += data.count(b"\n")
        self._counted = len(self.inbox)
        if self._ends >= self._needed:
            self._read(b"".join(self.inbox))
        if len(self.values) == len(self._sent) and any(self.inbox):
            raise BadAnswer(f"wrote {b''.join(self.inbox)[:100]!r} without being asked")
        return len(self.values)

    def _read(self, text: bytes) -> None:
        """Reads as many whole answers as the text has, and keeps the rest of it."""
        at = 0
        self._needed = 1
        while self._ends >= self._needed and len(self.values) < len(self._sent):
            at, self._needed = self._one(text, at)
        self.inbox = [text[at:]]
        self._counted = 1

    def _one(self, text: bytes, at: int) -> tuple[int, int]:
        """Reads the answer that begins here; answers where it ends, and how many lines are needed to go on."""
        end = text.index(b"\n", at)
        head, request = text[at:end], self._sent[len(self.values)]
        value: Any = refusal_of(head, request.line, self._first + len(self.values))
        if value is not None:
            self._refused.append(len(self.values))
            self.values.append(value)
            self._ends -= 1
            return end + 1, 1
        rows = rows_after(request.answer, head)
        if self._ends <= rows:
            return at, rows + 1
        last = _end_of(text, end + 1, rows, self._ends - 1)
        self.values.append(value_of(request.answer, head, text[end + 1:last]))
        self._ends -= 1 + rows
        return last, 1

    def done(self) -> Iterator[tuple[Request, Any]]:
        """The requests that are answered, each with its value."""
        return zip(self._sent, self.values)

    def may_change(self) -> bool:
        """Whether something was sent that may change documents."""
        return any(request.answer in _CHANGING for request in self._sent)

    def line(self, place: int) -> str | None:
        return self._sent[place].line if place < len(self._sent) else None

    def cut(self, last: int) -> None:
        """Nobody looks at the answers of requests that were interrupted."""

    def explain(self, notes: Callable[[], Mapping[int, str]]) -> None:
        if self._refused:
            found = notes()
            for place in self._refused:
                self.values[place] = self.values[place].noted(found)


def _end_of(text: bytes, at: int, rows: int, there: int) -> int:
    """Where so many lines from here end, of those that are there."""
    if rows == there:
        return text.rindex(b"\n") + 1 if rows else at
    for _ in range(rows):
        at = text.index(b"\n", at) + 1
    return at
