"""What can go wrong. All of it is `bkd.Error`."""
from __future__ import annotations

import re
from collections.abc import Mapping, Sequence
from typing import Any

from .damage import Damage

# how the program's notes begin, the form of those on a line that it refused, and of those that name a file
_NOTE = "bkd: "
_OF_LINE = re.compile(r"bkd: line (?P<number>[0-9]+): (?P<note>.*)")
_OF_FILE = re.compile(r"[a-z ]+ (?P<file>(?:seg|live|commit)[-.][-.0-9a-z]+): .+")
# what they say where another run has the folder, or had it meanwhile
_OTHERS = re.compile("another run works in|held by another run|another run has committed")


class Error(Exception):
    """Whatever this package raises of its own. It goes whole from one process to another."""

    def __reduce__(self) -> tuple[Any, ...]:
        return _again, (type(self), self.args, self.__dict__)


def _again(kind: type[Error], args: tuple[Any, ...], told: dict[str, Any]) -> Error:
    error = kind.__new__(kind, *args)
    error.__dict__.update(told)
    return error


class NotFound(Error):
    """There is no program where one was looked for."""


class Unsupported(Error):
    """The program that was found has no such command, or what is asked needs a command that it lacks."""


class Locked(Error):
    """Another run works on the folder, or has changed it meanwhile, or this process has it open already; the text says
    which. `folder` is the folder, and `cause` what the program noted, None where no program was asked."""

    def __init__(self, text: str, folder: str | None = None, cause: str | None = None) -> None:
        super().__init__(text)
        self.folder = folder
        self.cause = cause


class Closed(Error):
    """The index was closed, its program has ended, or another process opened it before a fork."""


class ReadOnly(Error):
    """The index was opened with `read=True`, and what was asked would change it."""


class Uncommitted(Error):
    """What was asked looks at what is stored, and something isn't committed."""


class Reentered(Error):
    """An index was used by what it is taking its documents from, within its own call."""


class OtherKind(Error):
    """The folder holds points where ranges were wanted, or ranges where points were, or another scale."""


class WorkerLost(Error):
    """A worker of `bkd.shards` died while it wrote, or while it alone could reach a folder: `folder` names it."""

    def __init__(self, folder: str, what: str) -> None:
        super().__init__(f"{folder}: {what}")
        self.folder = folder


class NoIndex(Error):
    """The folder holds no index."""


class BadAnswer(Error):
    """The program wrote what is no answer to what it was asked."""


class Refused(Error):
    """The program refused a line, which then changed nothing.

    `line` is the line, `reason` the program's text, `number` the line's number, counted from 1 since the program
    started, and `cause` what the program notes of it besides, or None. Of a call of many lines `others` are the
    further refusals and `answers` the answers of all other lines, which were done.
    """

    def __init__(self, line: str, reason: str, number: int, others: Sequence[Refused] = (),
                 answers: Sequence[int] = (), cause: str | None = None) -> None:
        shown = line if len(line) <= 200 else line[:200] + " .."
        more = f" (and {len(others)} more lines)" if others else ""
        super().__init__(f"{reason}: {shown}{more}" + (f": {cause}" if cause else ""))
        self.line = line
        self.reason = reason
        self.number = number
        self.others = tuple(others)
        self.answers = answers
        self.cause = cause

    def noted(self, notes: Mapping[int, str]) -> Refused:
        """The same, with what the program noted of this line as its cause."""
        cause = notes.get(self.number)
        if cause is None:
            return self
        return Refused(self.line, self.reason, self.number, self.others, self.answers, cause)


def unrefused(values: list[Any]) -> list[Any]:
    """The values, of which none is a refusal; else the first is raised."""
    for value in values:
        if isinstance(value, Refused):
            raise value
    return values


class Fault(Error):
    """The program ended before it had done all lines, or a command failed as a whole.

    `done` counts the lines that were done since the program started, and `last` is the last of them. Both are None
    where no lines were given. `cause` is what the program noted of it, and `file` the file that this names; None where
    it noted nothing. What the folder holds afterwards is what the last commit stored.
    """

    def __init__(self, text: str, done: int | None = None, last: str | None = None, cause: str | None = None) -> None:
        told = text + (f": {cause}" if cause else "")
        if done is not None:
            told += f"; {done} lines were done" + (f", the last of them: {last[:200]}" if last is not None else "")
        super().__init__(told)
        self.text = text
        self.done = done
        self.last = last
        self.cause = cause
        found = _OF_FILE.fullmatch(cause or "")
        self.file = found["file"] if found else None


class SourceFault(Fault):
    """The program's input failed."""


class FolderFault(Fault):
    """A call on the folder failed: it isn't there, may not be written, or its disk is full."""


class SinkFault(Fault):
    """The program's output failed."""


class OutOfMemory(Fault):
    """The program found no memory."""


class TooLarge(Fault):
    """The input has more than 536,870,912 bytes."""


class Died(Fault):
    """The program ended by a signal, or with a status that it doesn't have."""


class Hung(Fault):
    """The program took and gave nothing for as long as was allowed, and was killed."""


class Damaged(Fault):
    """The folder's files are damaged; `damage` tells where. `file`, `page` and `kind` are those of the damage."""

    def __init__(self, damage: Damage, done: int | None = None, last: str | None = None,
                 cause: str | None = None) -> None:
        super().__init__(f"damaged: {damage}", done, last, cause)
        self.damage = damage
        self.file = damage.file
        self.page = damage.page
        self.kind = damage.kind


_FAULTS: dict[int, type[Fault]] = {
    3: SourceFault, 4: FolderFault, 5: SinkFault, 7: OutOfMemory, 8: TooLarge,
}


def notes_on(said: str) -> dict[int, str]:
    """What a program noted on standard error of lines that it refused, by their numbers."""
    found: dict[int, str] = {}
    for note in filter(None, map(_OF_LINE.fullmatch, said.splitlines())):
        number = int(note["number"])
        found[number] = f"{found[number]}; {note['note']}" if number in found else note["note"]
    return found


def cause_of(said: str) -> str | None:
    """The notes right before the last line of what a program said on standard error; None where there are none. Those
    on lines that it refused are no part of it."""
    notes: list[str] = []
    for line in reversed(said.strip().splitlines()[:-1]):
        if not line.startswith(_NOTE) or _OF_LINE.fullmatch(line):
            break
        notes.insert(0, line.removeprefix(_NOTE))
    return "; ".join(notes) or None


def fault_of(status: int, said: str, done: int | None = None, last: str | None = None) -> Error:
    """The error for a program that ended with this status and said this on standard error."""
    line = said.strip().splitlines()[-1] if said.strip() else ""
    cause = cause_of(said)
    if status == 1 and line.startswith("usage: "):
        return Unsupported(f"the program doesn't know these words: {cause or line}")
    if status == 4 and cause and _OTHERS.search(cause):
        return Locked(cause + ("; what wasn't committed is undone" if done else ""), cause=cause)
    if status == 6 and line.startswith("damaged: ") and (damage := Damage.read(line.removeprefix("damaged: "))):
        return Damaged(damage, done, last, cause)
    if status in _FAULTS:
        return _FAULTS[status](line or _FAULTS[status].__name__, done, last, cause)
    how = f"was killed by signal {-status}" if status < 0 else f"ended with status {status}"
    return Died(f"the program {how}" + (f": {line}" if line else ""), done, last, cause)
