"""One folder of an index, as the worker has it that it is asked on."""
from __future__ import annotations

import contextlib
import os
import threading
import time
from collections.abc import Callable, Iterator, Sequence
from typing import Any

import numpy

from .. import commands, lock, requests
from ..coprocess import Coprocess
from ..errors import Error, NoIndex, Refused, Unsupported, unrefused
from ..formats.commit import read_commit
from ..lock import Held
from ..program import Program
from ..requests import Request
from ..talk import Asking
from . import changing, journal
from .documents import Array, Documents, Packed, Query, packed
from .errors import Changed
from .journal import ADDED, CHANGED, MADE, VOID, Journal, Record
from .nearest import nearest_keys
from .state import Known, Look, Outcome, State, live_in, look_at, signature, token_of
from .stored import documents_in

# seconds that the folder's lock is waited for
_WAIT = 60.0
_POINTS = 1 << 24


class Shard:
    """A folder, with a session over it while it is asked. Any thread may use it.

    The lock on the folder is had here, since the journal beside the index is the client's: shared while it is asked, as
    its programs hold it too, and alone for a change, whose program works within it.

    Every call takes what the layout knows of the folder, and raises `NoIndex` where it isn't there and `Changed` where
    it holds anything else than what was stored here since.
    """

    def __init__(self, folder: str, program: Program) -> None:
        self.folder = folder
        self._program = program
        self._turn = threading.RLock()
        self._session: Coprocess | None = None
        self._held: Held | None = None
        self._look: Look | None = None
        self._journal: Journal | None = None
        self._keys: Array = numpy.empty(0, dtype=numpy.int64)
        self._is_ordered = True
        self._found: tuple[Query, Array] | None = None
        self._seen: tuple[int, ...] = ()
        self._used = 0.0

    # ---- what is there

    def _read(self, known: Known) -> Look:
        """The files as they are, under the lock, without a last change that wasn't done."""
        self._journal = journal.read(self.folder, self._journal)
        return look_at(self.folder, self._journal, known)

    def make(self, known: Known, dims: int, leaf: int | None) -> Outcome:
        """Makes the folder and an empty index in it, where that wasn't done already. Raises `Changed` where another
        index is there."""
        os.makedirs(self.folder, exist_ok=True)
        with self._alone() as held:
            found = journal.read(self.folder)
            if found is None or not found.records:
                if read_commit(self.folder) is not None:
                    raise Changed(self.folder, "another index is there")
                found = Journal(os.path.join(self.folder, journal.NAME))
                token, before = bytes.fromhex(known.layout), bytes.fromhex(known.place).ljust(32, b"\0")
                found.append(Record(MADE, 0, token, 0, 0, 0, before))
            if read_commit(self.folder) is None and len(found.records) == 1:
                changing.run(self._program, self.folder, [f"{requests.create(dims, leaf).line}\n".encode()], held)
            return Outcome(self._read(known).state())

    def about(self, known: Known) -> State:
        """What the folder holds."""
        with self._turn:
            return self._open(known).state()

    # ---- changes

    def add(self, known: Known, token: str, documents: Documents, keys: Array) -> Outcome:
        """Adds documents with their keys, all in one commit, once however often this token is tried. A full index adds
        none, and one that took this token back neither."""
        with self._alone() as held:
            look = self._read(known)
            if look.done(token_of(token)) is not None:
                return Outcome(look.state())
            if look.commit.given + len(documents.points) > _POINTS:
                raise Refused("add", f"{self.folder} is full", 1)
            look.intend(ADDED, token, keys)
            changing.add(self._program, self.folder, documents, look.commit.dims, held)
            return Outcome(self._stored(known, token))

    def delete(self, known: Known, token: str, keys: Array) -> Outcome:
        """Deletes the documents of these keys."""
        with self._alone() as held:
            look = self._read(known)
            numbers = numpy.flatnonzero(numpy.isin(look.journal.all_keys(), keys))
            return self._change(known, look, token, changing.deleted(numbers), held)

    def change(self, known: Known, token: str, request: Request) -> Outcome:
        """Has one line done."""
        with self._alone() as held:
            return self._change(known, self._read(known), token, [f"{request.line}\n".encode()], held)

    def take_back(self, known: Known, token: str) -> Outcome:
        """Deletes what an addition of this token stored; from then on it stores nothing."""
        with self._alone() as held:
            look = self._read(known)
            added = look.journal.of_token(token_of(token), [ADDED])
            if look.journal.of_token(token_of(token), [VOID]) is None:
                look.intend(VOID, token)
            numbers = range(added.next, added.next + added.count) if added else ()
            return self._change(known, look, f"take back {token}", changing.deleted(numbers), held)

    def _change(self, known: Known, look: Look, token: str, pieces: changing.Pieces, held: Held) -> Outcome:
        """Has lines done that add nothing, in one commit, once however often this token is tried."""
        done = look.done(token_of(token))
        if done is not None:
            return Outcome(look.state(), look.gone(done))
        live, asked = live_in(look.commit), list(pieces)
        if asked:
            look.intend(CHANGED, token)
            changing.run(self._program, self.folder, asked, held)
            look = self._read(known)
            if look.journal.records[-1].token != token_of(token):
                look.journal.cut()  # it changed nothing
        return Outcome(look.state(), live - live_in(look.commit))

    def stored(self, known: Known, tokens: Sequence[str]) -> list[int]:
        """How many documents additions of these tokens stored."""
        with self._turn:
            found = self._open(known).journal
            records = [found.of_token(token_of(token), [ADDED]) for token in tokens]
            return [0 if record is None else record.count for record in records]

    def has(self, known: Known, token: str) -> bool:
        """Whether a change of this token is done."""
        with self._turn:
            return self._open(known).done(token_of(token)) is not None

    def _stored(self, known: Known, token: str) -> State:
        look = self._read(known)
        if look.journal.of_token(token_of(token), [ADDED]) is None:
            raise Error(f"{self.folder}: the program said that it stored what isn't stored")
        return look.state()

    @contextlib.contextmanager
    def _alone(self) -> Iterator[Held]:
        """The folder's lock alone; the session ends before."""
        with self._turn:
            self.close()
            if not os.path.isdir(self.folder):
                raise NoIndex(f"{self.folder} isn't there")
            with lock.locked(self.folder, wait=_WAIT) as held:
                yield held

    # ---- queries

    def ask(self, known: Known, queries: Sequence[Query]) -> Packed:
        """What queries find: of boxes and polygons keys, ascending, of the nearest (distance, key) in that order."""
        with self._turn:
            self._open(known)
            return self._answers(queries, self._asked)

    def batch(self, known: Known, queries: Sequence[Query], forks: int) -> Packed:
        """The same by the program's `batch`."""
        def asked(lines: Sequence[Request]) -> list[Any]:
            return unrefused(commands.batch(self.folder, lines, forks, program=self._program))

        with self._turn:
            self._open(known)
            return self._answers(queries, asked)

    def _answers(self, queries: Sequence[Query], ask: Callable[[Sequence[Request]], list[Any]]) -> Packed:
        keys, is_ordered = self._keys, self._is_ordered
        return packed([nearest_keys(query, value, keys, is_ordered, ask, self.folder) if query.k
                       else keys[value] if is_ordered else numpy.sort(keys[value])
                       for query, value in zip(queries, ask([query.request() for query in queries]))])

    def page(self, known: Known, query: Query, begin: int, count: int) -> Array:
        """So many of the keys that a query finds, from the one at this place on. They are kept while the session is,
        until the last ones are asked for."""
        with self._turn:
            self._open(known)
            if self._found is None or self._found[0] != query:
                self._found = query, self._answers([query], self._asked).keys
            keys = self._found[1]
            if begin + count >= len(keys):
                self._found = None
            return keys[begin:begin + count]

    def export(self, known: Known) -> tuple[Array, Documents]:
        """The keys and the points of all live documents, by number."""
        with self._turn:
            self._open(known)
            return documents_in(self.folder, self._program, self._keys)

    def count(self, known: Known, asked: Sequence[Request]) -> list[Any]:
        """What the program's `count` says."""
        with self._turn:
            self._open(known)
            return unrefused(commands.count(self.folder, asked, program=self._program))

    def check(self, known: Known) -> tuple[State, Any]:
        """Reads all that is stored, and answers what the program's `check` says. Raises `Damaged`."""
        with self._turn:
            look = self._open(known)
            return look.state(), commands.check(self.folder, program=self._program)

    def rescue(self, known: Known) -> None:
        """Raises `Unsupported`, as the program has no such command, or none that keeps keys."""
        self._program.require("rescue")
        raise Unsupported(f"{self.folder}: what a rescue leaves has numbers, and no keys")

    def _open(self, known: Known) -> Look:
        """Has a session over the folder as it is, and what its files say."""
        self._used = time.monotonic()
        if self._look is not None and signature(self.folder) == self._seen and self._held is not None:
            self._look.compare(known)
            return self._look
        self.close()
        signature(self.folder)
        self._held = lock.take(self.folder, shared=True, wait=_WAIT)
        try:
            self._seen = signature(self.folder)
            look = self._read(known)
            self._keys = look.journal.all_keys()
            self._is_ordered = bool((self._keys[1:] > self._keys[:-1]).all())
        except BaseException:
            self.close()
            raise
        self._look = look
        return look

    def _asked(self, asked: Sequence[Request]) -> list[Any]:
        """The session's answers, or a run's where the program has no sessions; the first refusal is raised."""
        talk = Asking(asked)
        try:
            if "session" in self._program.commands:
                if self._session is None:
                    self._session = self._program.start(self.folder, ["session"], changing.TIMEOUT)
                self._session.exchange(talk)
            else:
                self._program.run(self.folder, ["run"], talk, changing.TIMEOUT)
        except BaseException:
            self.close()
            raise
        return unrefused(talk.values)

    def close_idle(self, seconds: float) -> None:
        """Ends the session where it wasn't used for so long, so that others may write."""
        if self._held is not None and time.monotonic() > self._used + seconds and self._turn.acquire(blocking=False):
            try:
                self.close()
            finally:
                self._turn.release()

    def close(self) -> None:
        """Ends the session and gives the lock back; the next query opens it anew."""
        with self._turn:
            if self._session is not None:
                self._session.kill()
            if self._held is not None:
                self._held.release()
            self._session = self._held = self._look = self._found = None
