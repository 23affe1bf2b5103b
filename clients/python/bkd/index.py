"""An open index: documents are added, deleted and asked for, and kept by commits."""
from __future__ import annotations

import contextlib
from collections.abc import Iterable, Iterator
from types import TracebackType
from typing import Any, SupportsIndex

from . import requests, spelling
from .answers import DELETED, DOC
from .errors import ReadOnly, Refused, Uncommitted
from .many import Many
from .program import Program
from .queries import Numbers, Queries, Snapshot, as_array
from .requests import COMMIT, Request
from .scale import Scale
from .spelling import Place
from .stored import Stored
from .transport import Session

_QUERIES = frozenset({"box", "polygon", "nearest", "snapshot", "release"})


class Index(Stored, Queries):
    """An open index, made by `bkd.open`.

    A context manager: it commits and closes at its end, and where an exception leaves it what wasn't committed is
    undone. Any thread may use it; a call is done whole before the next. A process that comes of a fork can't: there
    each call raises `Closed`, and what the other process does isn't touched.

    Every method raises `Refused` where the program refuses its line, which then changed nothing, a `Fault` where the
    program ends before it has done it, and `Closed` afterwards. An interrupt leaves the index as it is: what was sent
    is done, and the next call goes on. `dims` is the number of dimensions, `decimals` the scale, None where coordinates
    are whole numbers.
    """

    def __init__(self, program: Program, folder: str, session: Session, dims: int, *, arrays: bool = False,
                 scale: Scale | None = None, autocommit: bool = False, read: bool = False) -> None:
        self._program = program
        self._folder = folder
        self._session = session
        self._session_number = 0
        self._arrays = arrays
        self._scale = scale
        self._autocommit = autocommit
        self._read = read
        self._begun = False
        self._last: Many | None = None
        self.dims = dims

    @property
    def decimals(self) -> int | None:
        """How many decimals the index keeps of a value; None where coordinates are whole numbers."""
        return None if self._scale is None else self._scale.decimals

    def __enter__(self) -> Index:
        return self

    def __exit__(self, kind: type[BaseException] | None, error: BaseException | None, at: TracebackType | None) -> None:
        if error is None:
            self.close()
        else:
            self.abandon()

    def close(self) -> None:
        """Commits what isn't committed and ends the program. A second call does nothing."""
        self._session.close()

    def abandon(self) -> None:
        """Ends the program at once. What wasn't committed is undone."""
        self._session.abandon()

    # ---- lines

    def ask(self, asked: Iterable[Request]) -> list[Any]:
        """Has requests of `bkd.requests` done, one after the other, and answers what each one answers.

        Their coordinates are whole numbers, whatever the scale. The place of a line that is refused has its `Refused`.
        """
        if self._read:
            return self._session.ask(_only_queries(asked))
        values = self._session.ask(asked)
        if self._commits_itself and self._session.is_dirty:
            self._session.ask((COMMIT,))
        return values

    def _query(self, request: Request) -> Any:
        value = self._session.query(as_array(request) if self._arrays else request)
        if isinstance(value, Refused):
            raise value
        return value

    @property
    def _commits_itself(self) -> bool:
        return self._autocommit and not self._begun

    def _need_write(self) -> None:
        if self._read:
            raise ReadOnly(f"{self._folder} was opened with read=True")

    def _change(self, request: Request) -> Any:
        """Has a line done that changes something; with autocommit it is committed in the same go."""
        self._need_write()
        if self._commits_itself:
            value = self._session.ask((request, COMMIT))[0]
        else:
            value = self._session.change(request)
        if isinstance(value, Refused):
            raise value
        return value

    # ---- documents

    def add(self, document: Any) -> int:
        """Adds a document, a point or a sequence of 1 to 16 points, and answers its number."""
        return self._change(requests.add(document if self._scale is None else spelling.scaled(document, self._scale)))

    def add_many(self, documents: Any) -> Numbers:
        """Adds documents and answers their numbers, which follow each other. No more than a piece is kept at a time.

        `documents` is an array of shape (n, dims), or (n,) in one dimension, or an iterable of what `add` takes. Where
        lines are refused, all others are done, and `Refused` has the first of them, `others`, and as `answers` the
        numbers of those that were added. Where the iterable raises, or an interrupt comes, those before it were added,
        and `given` has their numbers; with autocommit none were.
        """
        self._need_write()
        talk = self._last = Many(spelling.added(documents, self.dims, self._scale), DOC)
        self._many(talk)
        numbers = talk.numbers
        if not self._arrays:
            return numbers
        import numpy
        return numpy.arange(numbers.start, numbers.stop, dtype=numpy.uint32)  # type: ignore[return-value]

    @property
    def given(self) -> range:
        """The numbers that the last `add_many` has given, also where it didn't come to its end."""
        if self._last is None:
            return range(0)
        if self._session.is_open:
            self._session.settle(self._last)
        return self._last.numbers

    def delete(self, number: SupportsIndex) -> bool:
        """Deletes the document of this number; False where it wasn't live."""
        return bool(self._change(requests.delete(number)))

    def delete_many(self, numbers: Any) -> int:
        """Deletes the documents of these numbers, an iterable or an array, and answers how many were live."""
        self._need_write()
        talk = Many(spelling.deleted(numbers), DELETED)
        self._many(talk)
        return talk.deleted

    def _many(self, talk: Many) -> None:
        try:
            self._session.over(talk)
            if self._commits_itself:
                self._session.ask((COMMIT,))
        except BaseException as error:
            self._tell(error)
            raise
        if talk.refusals:
            first = talk.refusals[0]
            raise Refused(first.line, first.reason, first.number, talk.refusals[1:], talk.numbers, first.cause)

    def _tell(self, error: BaseException) -> None:
        """Notes to an exception that ended many lines what was done of them."""
        if not self._session.is_open:
            return
        if self._commits_itself:
            self._last = None
            self._restart()
            error.add_note("bkd: nothing of this call was done")
        else:
            error.add_note("bkd: what was sent before this is done and not committed; Index.given has its numbers")

    def delete_box(self, lo: Place, hi: Place) -> int:
        """Deletes the documents that have a point in the box, and answers how many."""
        return self._change(requests.delete_box(*spelling.corners(self._scale, lo, hi)))

    # ---- what is kept

    def commit(self) -> None:
        """Stores all that was done, and ends what `begin` began."""
        self._need_write()
        self._session.ask((COMMIT,))
        self._begun = False

    def begin(self) -> None:
        """From here on nothing is stored until `commit`, with autocommit too.

        Raises `Uncommitted` where something was done that isn't committed.
        """
        self._need_write()
        if self._session.is_dirty:
            raise Uncommitted("something isn't committed: commit it, or roll it back, before a transaction begins")
        self._begun = True

    def rollback(self) -> None:
        """Undoes all that isn't committed: the program is ended and started anew. Snapshots and a begun merge end."""
        self._need_write()
        self._restart()
        self._begun = False

    def _restart(self) -> None:
        self._session_number += 1
        self._session.restart()

    def snapshot(self, name: str) -> Snapshot:
        """Keeps the documents as they are under a name of 1 to 32 letters, digits, `_` or `-`, until it is released or
        the index is closed. At most 16 are kept."""
        self._query(requests.snapshot(name))
        return Snapshot(self, name)

    def flush(self) -> None:
        """Writes the documents that are only in memory as a segment."""
        self._change(requests.FLUSH)

    def merge(self) -> None:
        """Merges all segments into one, without the deleted documents."""
        self._change(requests.MERGE)

    @contextlib.contextmanager
    def merge_begun(self, *positions: SupportsIndex) -> Iterator[None]:
        """Begins a merge of the segments at these positions by ascending id, and ends it with the `with`."""
        self._change(requests.merge_begin(positions))
        at = self._session_number
        try:
            yield
        finally:
            if self._session.is_open and at == self._session_number:
                self._change(requests.MERGE_END)

    def reopen(self) -> None:
        """Commits, lets all snapshots and a begun merge go, and opens the folder anew.

        With `read=True` it shows what others have committed since.
        """
        if self._read:
            self._restart()
        else:
            self._change(requests.REOPEN)
            self._begun = False

    def __len__(self) -> int:
        """How many documents are live, committed or not."""
        return self._session.live

    def __bool__(self) -> bool:
        return True


def _only_queries(asked: Iterable[Request]) -> Iterator[Request]:
    for request in asked:
        if request.line.split(" ", 1)[0] not in _QUERIES:
            raise ReadOnly(f"the index was opened with read=True: {request.line[:200]}")
        yield request
