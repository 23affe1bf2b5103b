"""Many lines of one form: additions, or deletions by number, as a talk that keeps no more of them than it must."""
from __future__ import annotations

from collections import deque
from collections.abc import Callable, Iterable, Iterator, Mapping
from dataclasses import dataclass, field, replace

from .answers import DELETED, DOC, Answer
from .errors import BadAnswer, Refused
from .talk import refusal_of

_BLOCK = 1000
_ENDS = [b"%03d\n" % i for i in range(_BLOCK)]


@dataclass(slots=True)
class _Told:
    """What many lines were answered so far: how many, the numbers, the refusals; and what isn't read yet."""

    done: int = 0
    numbers: range = range(0)
    sum: int = 0
    refusals: tuple[Refused, ...] = ()
    inbox: list[bytes] = field(default_factory=list)


class Many:
    """Many lines of one form whose answers have one line each, as additions and deletions by number have.

    `pieces` gives texts of whole lines with how many lines each has. No more of them is kept than what isn't answered,
    so that a million lines cost little beside the program. Additions are answered by numbers that follow each other.
    """

    def __init__(self, pieces: Iterable[tuple[bytes, int]], answer: Answer, first: int = 1) -> None:
        if answer not in (DOC, DELETED):
            raise ValueError(f"{answer.word.decode()} is no answer of one number")
        self._pieces: Iterator[tuple[bytes, int]] = iter(pieces)
        self._answer = answer
        self._first = first
        self._asked: deque[tuple[int, bytes, int]] = deque()
        self._given = 0
        self._told = _Told()
        self._limit: int | None = None
        # who is told of each piece before it is sent
        self.sent: Callable[[bytes, int], None] | None = None

    def begin(self, first: int) -> None:
        self._first = first

    @property
    def inbox(self) -> list[bytes]:
        return self._told.inbox

    def piece(self) -> tuple[bytes, int]:
        text, count = next(self._pieces, (b"", 0))
        if text and self.sent is not None:
            self.sent(text, count)
        self._asked.append((self._given, text, count))
        self._given += count
        return text, count

    def look(self) -> int:
        told = self._told
        text = b"".join(told.inbox)
        end = text.rfind(b"\n") + 1
        if end:
            # one assignment, so that whoever interrupts this finds all of it or nothing
            self._told = self._and(told, text[:end], text[end:])
            self._forget()
        if self._told.done > self._given and self._limit is None:
            raise BadAnswer(f"wrote {text[-100:]!r} without being asked")
        return self._told.done

    def _forget(self) -> None:
        """Lets the pieces go that are answered, but the one of the last line that is."""
        while self._asked and self._asked[0][0] + self._asked[0][2] < self._told.done:
            self._asked.popleft()

    def _and(self, told: _Told, text: bytes, rest: bytes) -> _Told:
        """What is told with these whole lines more, of which those behind the limit aren't its own."""
        count = text.count(b"\n")
        if self._limit is None and self._answer is DOC and (numbers := _follow(told.numbers, text, count)) is not None:
            return _Told(told.done + count, numbers, 0, told.refusals, [rest])
        if self._limit is None and self._answer is DELETED and (deleted := _ones_in(text, count)) is not None:
            return _Told(told.done + count, range(0), told.sum + deleted, told.refusals, [rest])
        return self._by_line(told, text, rest)

    def _by_line(self, told: _Told, text: bytes, rest: bytes) -> _Told:
        """The same, by a look at each line."""
        heads = text.split(b"\n")[:-1]
        if self._limit is not None:
            heads = heads[:max(0, self._limit - told.done)]
        numbers, refusals = [], []
        for place, head in enumerate(heads, told.done):
            refused = refusal_of(head, "", self._first + place)
            if refused is None:
                numbers.append(self._number(head))
            else:
                refusals.append(Refused(self.line(place) or "", refused.reason, refused.number))
        all_refusals = told.refusals + tuple(refusals)
        if self._answer is DELETED:
            return _Told(told.done + len(heads), range(0), told.sum + sum(numbers), all_refusals, [rest])
        return _Told(told.done + len(heads), _joined(told.numbers, numbers), 0, all_refusals, [rest])

    def _number(self, head: bytes) -> int:
        word, _, number = head.partition(b" ")
        if word != self._answer.word or not number.isdigit():
            raise BadAnswer(f"answered {head[:100]!r} where {self._answer.word.decode()} N was expected")
        return int(number)

    def line(self, place: int) -> str | None:
        for first, text, count in self._asked:
            if first <= place < first + count:
                return " ".join(text.split(b"\n", place - first + 1)[place - first].decode().split())
        return None

    def cut(self, last: int) -> None:
        if self._limit is None:
            self._limit = last + 1 - self._first

    def explain(self, notes: Callable[[], Mapping[int, str]]) -> None:
        if self._told.refusals:
            found = notes()
            self._told = replace(self._told, refusals=tuple(one.noted(found) for one in self._told.refusals))

    def may_change(self) -> bool:
        """Whether something may have been sent that changes documents."""
        return True

    @property
    def numbers(self) -> range:
        """The numbers of the documents that were added."""
        return self._told.numbers

    @property
    def deleted(self) -> int:
        """How many documents were deleted."""
        return self._told.sum

    @property
    def adds(self) -> bool:
        """Whether its lines are additions."""
        return self._answer is DOC

    @property
    def given(self) -> int:
        """How many lines its pieces had so far."""
        return self._given

    @property
    def is_whole(self) -> bool:
        """Whether all lines that it gave were sent and are answered."""
        return self._limit is None and self._told.done == self._given

    @property
    def refused_places(self) -> list[int]:
        """The places, counted from 0, of the lines that were refused."""
        return [one.number - self._first for one in self._told.refusals]

    @property
    def refusals(self) -> tuple[Refused, ...]:
        """The refusals of the lines that were refused."""
        return self._told.refusals

    def end(self) -> None:
        """Raises `BadAnswer` where the last line of what came in has no end."""
        if any(self._told.inbox):
            raise BadAnswer(f"wrote {b''.join(self._told.inbox)[-100:]!r}, and no end of its line")

    def values(self) -> tuple[list[int], list[Refused]]:
        """The numbers of all additions in order, or how many were deleted, and the refusals."""
        self.end()
        numbers = list(self.numbers) if self._answer is DOC else [self.deleted]
        return numbers, list(self.refusals)


def _follow(before: range, text: bytes, count: int) -> range | None:
    """The numbers with those of so many lines more, where each is an addition's and its number follows the last."""
    if not before:
        word, _, number = text[:text.index(b"\n")].partition(b" ")
        if word != DOC.word or not number.isdigit():
            return None
        before = range(int(number), int(number))
    return range(before.start, before.stop + count) if text == _additions(before.stop, count) else None


def _additions(first: int, count: int) -> bytes:
    """How the numbers of so many additions are answered. (A block's lines differ in their ends alone.)"""
    parts, end = [], first + count
    while first < end:
        block, at = divmod(first, _BLOCK)
        some = _ENDS[at:min(_BLOCK, at + end - first)]
        begin = b"doc %d" % block
        parts.append(begin + begin.join(some) if block else b"".join(b"doc %d\n" % (at + i) for i in range(len(some))))
        first += len(some)
    return b"".join(parts)


def _ones_in(text: bytes, count: int) -> int | None:
    """How many of so many lines tell one deletion, where each other one tells none."""
    ones = text.count(b"deleted 1\n")
    is_whole = ones + text.count(b"deleted 0\n") == count and len(text) == count * len(b"deleted 1\n")
    return ones if is_whole else None


def _joined(before: range, numbers: list[int]) -> range:
    if not numbers:
        return before
    first = before.start if before else numbers[0]
    found = range(first, first + len(before) + len(numbers))
    if numbers != list(found[len(before):]):
        raise BadAnswer(f"gave numbers from {numbers[0]} to {numbers[-1]} that don't follow those before")
    return found
