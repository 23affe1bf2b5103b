"""One `session` that stays: its program, and what it knows of what was done."""
from __future__ import annotations

import contextlib
import math
import threading
from collections.abc import Callable, Iterable, Iterator, Sequence
from dataclasses import dataclass, replace
from typing import Any

from . import commands, lock, options
from .answers import DELETED, DOC, HOW_MANY, OK
from .coprocess import Coprocess
from .errors import Closed, Error, Locked, NoIndex, Refused
from .formats.commit import Commit, read_commit
from .lock import Held
from .many import Many
from .program import Program
from .requests import COMMIT, REOPEN, Request, box
from .scale import GREATEST, LEAST
from .talk import Asking, Talk
from .unstored import Going, Unstored

_WRITING = ("create", "flush", "merge")


def _all_hits(dims: int) -> Request:
    """Asks how many documents there are."""
    every = box((LEAST,) * dims, (GREATEST,) * dims)
    return Request(every.line, HOW_MANY)


@dataclass(frozen=True, slots=True)
class Book:
    """What is known of what isn't committed: whether there may be something, whether documents may have been deleted,
    and whether all that was added is known; and how many documents are live, committed or not."""

    is_dirty: bool = False
    live: int | None = None
    has_deleted: bool = False
    is_known: bool = True

    def after(self, done: Iterable[tuple[Request, Any]]) -> Book:
        """What is known when requests were done with these values."""
        book = self
        for request, value in done:
            if isinstance(value, Refused) or request.answer not in (DOC, DELETED, OK):
                continue
            if request in (COMMIT, REOPEN):
                book = Book(live=book.live)
            elif request.answer is OK:
                book = replace(book, is_dirty=book.is_dirty or request.line.startswith(_WRITING))
            else:
                book = book.more(*((1, 0) if request.answer is DOC else (0, value)))
        return book

    def more(self, added: int, deleted: int) -> Book:
        """What is known when so many documents were added and deleted."""
        live = None if self.live is None else self.live + added - deleted
        return replace(self, is_dirty=self.is_dirty or added + deleted > 0, live=live,
                       has_deleted=self.has_deleted or deleted > 0)


# while something is being done, and where it was interrupted
_IN_DOUBT = Book(True, None, True, False)


class Session:
    """A program that answers line by line and stays. After a fault it is closed.

    The program holds the folder: shared with others, and alone from its first change on. `wait` is for how many seconds
    it waits where others don't let it. `book` has what is known of what isn't committed, and `unstored` the documents.
    """

    def __init__(self, program: Program, folder: str, words: Sequence[str], timeout: float | None,
                 wait: float = 0.0, read: bool = False) -> None:
        program.require("session")
        self._program = program
        self._folder = folder
        self._words = ["session", *words, *options.waiting(wait)]
        self._timeout = None if timeout is None else timeout + math.ceil(wait)
        self._read = read
        self._turn = threading.RLock()
        self.book = Book()
        self.unstored = Unstored()
        self._commit: Commit | None = None
        self._note = lock.Opened(folder, read)
        self._run = self._start()

    def _start(self) -> Coprocess:
        """Starts the program, and waits until it has opened the folder."""
        try:
            run = self._program.start(self._folder, self._words, self._timeout, guarded=not self._read)
            try:
                run.hello()
            except BaseException:
                run.kill()
                raise
            return run
        except BaseException as error:
            self._note.release()
            if isinstance(error, Locked):
                raise lock.told(self._folder, error.cause) from None
            raise

    @property
    def is_open(self) -> bool:
        """Whether lines can be answered."""
        return self._run.is_open

    @property
    def pid(self) -> int:
        """The program's process id."""
        return self._run.pid

    @contextlib.contextmanager
    def still(self) -> Iterator[Held]:
        """The folder, for a further program that asks what is stored; no other thread changes it meanwhile, and a call
        that was interrupted, as in a commit, is done."""
        with self._turn:
            self.need_open()
            if not self.book.is_known:
                try:
                    self._run.settle()
                finally:
                    self._look()
            yield Held()

    @property
    def live(self) -> int:
        """How many documents are live. It is counted along; after an interrupted call it is asked for."""
        with self.still() as held:
            live = self.book.live
            if live is None:
                stored = commands.info(self._folder, program=self._program, held=held)
                live = self.query(_all_hits(stored.dims)) if self.is_dirty else stored.live
                self.book = replace(self.book, live=live)
            return live

    @property
    def is_dirty(self) -> bool:
        """Whether something may have been done that isn't committed."""
        return self.book.is_dirty

    def stored(self) -> Commit:
        """What is stored, by its file. (Behind an interrupted call, which may have committed, it is read each time.)"""
        found = self._commit if self.book.is_known else None
        if found is None:
            found = self._commit = read_commit(self._folder)
        if found is None:
            raise NoIndex(f"{self._folder} holds no index")
        return found

    def is_single(self) -> bool:
        """Whether each document, stored or not, is known to have one point."""
        if not self.book.is_known:
            return False
        stored = self.stored()
        return stored.given == stored.next and self.unstored.is_single(stored.dims)

    def need_open(self) -> None:
        """Raises `Closed` where no lines can be answered."""
        if not self.is_open:
            raise Closed("the index was closed, its program has ended, or it was opened before a fork")

    # ---- lines

    def query(self, request: Request) -> Any:
        """The answer to a request that changes nothing, or its `Refused`."""
        try:
            return self._run.single(request)
        except Error:
            self._look()
            raise

    def change(self, request: Request) -> Any:
        """The answer to a request that may change documents, or its `Refused`."""
        self.need_open()
        with self._turn:
            before, self.book = self.book, _IN_DOUBT
            value = self.query(request)
            self._keep(((request, value),))
            self.book = before.after(((request, value),))
        return value

    def ask(self, requests: Iterable[Request]) -> list[Any]:
        """The answers to requests in order, a `Refused` in the place of each that was refused."""
        self.need_open()
        talk = Asking(requests)

        def booked(book: Book) -> Book:
            self._keep(talk.done())
            return book.after(talk.done())

        with self._turn:
            self._change(talk, booked)
        return talk.values

    def over(self, talk: Many) -> None:
        """Has many lines done."""
        self.need_open()

        def booked(book: Book) -> Book:
            return replace(book.more(len(talk.numbers), talk.deleted), is_dirty=True)

        with self._turn:
            before, going = self.book, Going(self.unstored, talk)
            try:
                self._change(talk, booked)
            except Exception:  # of the caller's own iterable: what was sent before is done, and known
                self.book = booked(before) if talk.is_whole else self.book
                raise
            finally:
                going.end()
            talk.end()

    def typed(self, talk: Talk) -> None:
        """Has a line done as it was typed; it may have changed anything."""
        with self._turn:
            self.book = _IN_DOUBT
            self._exchange(talk)

    def noted(self, number: int) -> str | None:
        """What the program noted of the line of this number, which it refused."""
        return self._run.notes().get(number)

    def settle(self, talk: Many) -> None:
        """Has every line answered that was sent, also where the call was interrupted."""
        self._run.settle()
        talk.look()

    def _change(self, talk: Asking | Many, booked: Callable[[Book], Book]) -> None:
        """Has something done that may change documents; where it is interrupted nobody knows what was done."""
        before, self.book = self.book, _IN_DOUBT
        try:
            self._exchange(talk)
            self.book = booked(before)
        except BaseException:
            if not talk.may_change():
                self.book = before
            raise

    def _keep(self, done: Iterable[tuple[Request, Any]]) -> None:
        """Keeps the documents that were added, until a commit."""
        added: list[tuple[int, str]] = []
        for request, value in done:
            if isinstance(value, Refused):
                continue
            if request.answer is DOC:
                added.append((value, request.line))
            elif request in (COMMIT, REOPEN):
                added, self.unstored, self._commit = [], Unstored(), None
        for number, line in added:
            self.unstored.note(number, line)

    def _exchange(self, talk: Talk) -> None:
        try:
            self._run.exchange(talk)
        finally:
            self._look()

    def _look(self) -> None:
        """Where the program is over, this process has the folder no more."""
        if not self._run.is_open:
            self._note.release()

    # ---- ends

    def close(self) -> None:
        """Ends the program, which commits where it may write. A second call does nothing."""
        if not self.is_open:
            return
        if self._read:
            self.abandon()
            return
        try:
            self._run.close()
        finally:
            self._look()

    def abandon(self) -> None:
        """Ends the program at once, without a commit."""
        self._run.kill()
        self._note.release()

    def restart(self) -> None:
        """Ends the program at once, without a commit, and starts it anew over what is stored; others may have the
        folder in between."""
        self.need_open()
        with self._turn:
            self._run.kill()
            self._run = self._start()
            self.book, self.unstored, self._commit = Book(), Unstored(), None
