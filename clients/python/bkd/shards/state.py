"""What a folder holds, and whether that is what its layout knows of."""
from __future__ import annotations

import hashlib
import os
from dataclasses import dataclass

from ..errors import NoIndex
from ..formats.commit import Commit, read_commit
from ..formats.pages import COMMIT_FILE
from .documents import Array
from .errors import Changed
from .journal import ADDED, CHANGED, MADE, VOID, Journal, Record


@dataclass(frozen=True, slots=True)
class Known:
    """What the layout knows of a folder: the layout's name, the place's, the last change and the commit behind it.

    `is_exact` says that no later change is taken.
    """

    layout: str
    place: str
    order: int
    mark: str | None
    is_exact: bool = False


@dataclass(frozen=True, slots=True)
class State:
    """What a folder holds: its last change, the fingerprint of its commit, documents given and live."""

    order: int
    mark: str
    next: int
    live: int


@dataclass(frozen=True, slots=True)
class Outcome:
    """A change that is stored: what the folder holds now, and how many documents fewer are live by it."""

    state: State
    gone: int = 0


@dataclass(slots=True)
class Look:
    """What the files of a folder say."""

    folder: str
    journal: Journal
    commit: Commit
    mark: str

    def state(self) -> State:
        """What the folder holds."""
        return State(self.journal.records[-1].order, self.mark, self.commit.next, live_in(self.commit))

    def settle(self) -> None:
        """Drops the last record where its change wasn't done. Raises `Changed` where documents have no keys."""
        last = self.journal.records[-1]
        is_same = last.before.hex() == self.mark
        if is_same and (last.kind == CHANGED or last.kind == ADDED and self.commit.next == last.next):
            self.journal.drop_last()
        given = sum(record.count for record in self.journal.records if record.kind == ADDED)
        if given != self.commit.next:
            raise Changed(self.folder, f"it has {self.commit.next} documents and {given} keys")

    def compare(self, known: Known) -> None:
        """Raises `Changed` where the folder is at no state that follows the known one."""
        first, last = self.journal.records[0], self.journal.records[-1]
        if first.kind != MADE or first.token.hex() != known.layout or first.before[:16].hex() != known.place:
            raise Changed(self.folder, "it is of another layout, or of another place in it")
        if known.mark is None:
            return
        if last.order < known.order or known.is_exact and last.order != known.order:
            raise Changed(self.folder, f"it is at change {last.order}, and not at {known.order}")
        is_last = last.order == known.order
        if known.mark != (self.mark if is_last else self.journal.records[known.order + 1].before.hex()):
            raise Changed(self.folder, "its commit is another one than was stored here")

    def done(self, token: bytes) -> Record | None:
        """The record of a change of this token that is done. Raises `Changed` where it was taken back."""
        if self.journal.of_token(token, [VOID]) is not None:
            raise Changed(self.folder, "what this token adds was taken back")
        return self.journal.of_token(token, [ADDED, CHANGED])

    def gone(self, done: Record) -> int:
        """How many documents a change that is done deleted."""
        if done is self.journal.records[-1]:
            return done.live - live_in(self.commit)
        return done.live - self.journal.records[done.order + 1].live

    def intend(self, kind: int, token: str, keys: Array | None = None) -> None:
        """Syncs what is going to be done."""
        order = self.journal.records[-1].order + 1
        self.journal.append(Record(kind, order, token_of(token), self.commit.next, live_in(self.commit),
                                   0 if keys is None else len(keys), bytes.fromhex(self.mark)), keys)


def live_in(commit: Commit) -> int:
    """How many documents of a commit are live."""
    return sum(one.live for one in commit.listed)


def token_of(text: str) -> bytes:
    """A token as records have it."""
    return hashlib.sha256(text.encode()).digest()[:16]


def _mark(folder: str) -> str:
    with open(os.path.join(folder, COMMIT_FILE.text), "rb") as file:
        return hashlib.sha256(file.read()).hexdigest()


def signature(folder: str) -> tuple[int, ...]:
    """What of the commit's file differs where another one was written. Raises `NoIndex`."""
    try:
        told = os.stat(os.path.join(folder, COMMIT_FILE.text))
    except OSError as error:
        raise NoIndex(f"{folder} holds no index: {error.strerror}") from None
    return told.st_dev, told.st_ino, told.st_mtime_ns, told.st_size


def look_at(folder: str, journal: Journal | None, known: Known) -> Look:
    """What a folder's files say, compared with what is known. Its lock is held."""
    commit = read_commit(folder) if journal is not None and journal.records else None
    if journal is None or not journal.records or commit is None:
        raise NoIndex(f"{folder} holds no index of this layout")
    look = Look(folder, journal, commit, _mark(folder))
    look.settle()
    look.compare(known)
    return look
