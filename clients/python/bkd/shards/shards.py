"""An index over the folders of a layout, which workers of Dask distributed have."""
from __future__ import annotations

import contextlib
import os
import time
import uuid
from collections.abc import Iterable, Iterator, Mapping
from types import TracebackType
from typing import TYPE_CHECKING, Any, SupportsIndex

import numpy

from .. import requests
from ..commands import Folder
from ..errors import Locked
from ..requests import Point, coordinates
from .additions import Additions
from .crew import Crew
from .deletions import Deletions, refuse
from .documents import Array, documents_of, keys_of
from .errors import Unfinished
from .layout import Layout
from .locks import Locks
from .outcomes import take
from .queries import Asking, Moment
from .rebalance import Rebalancing
from .refusals import check_box

if TYPE_CHECKING:
    from distributed import Client


class Shards(Asking):
    """An index that is spread over folders; made by `bkd.shards.open`; a context manager.

    It answers as one index would, or raises: `NoIndex` and `Changed` name a folder that isn't there, or that holds
    anything else than what was stored by its layout. The layout is read anew by each call. One client writes at a
    time, and nobody asks meanwhile; who waits longer than `wait` seconds gets `Locked`. A worker that dies is replaced
    by another, but for folders that are bound to it; then `WorkerLost` is raised. What changes is done in each
    folder whole or not at all, and once: see `add_many`. Keys that stand twice name all their documents. One thread
    uses it at a time.
    """

    def __init__(self, path: Folder, client: Client, program: Any, workers: Mapping[str, str] | None,
                 owns: bool, wait: float) -> None:
        super().__init__(Crew(client, program, workers or {}))
        self._path = os.path.abspath(path)
        self._additions = Additions(self._path, self._crew)
        self._deletions = Deletions(self._path, self._crew)
        self._locks = Locks(self._path, wait)
        self._client = client
        self._owns = owns
        self._seen: tuple[int, ...] = ()
        self._layout = Layout.read(self._path)
        self._moments = 0

    def __enter__(self) -> Shards:
        return self

    def __exit__(self, kind: type[BaseException] | None, error: BaseException | None, at: TracebackType | None) -> None:
        self.close()

    def close(self) -> None:
        """Ends the client, where it was made here."""
        if self._owns:
            self._client.close()

    @property
    def layout(self) -> Layout:
        """The layout as its file has it now."""
        told = os.stat(self._path)
        seen = told.st_ino, told.st_mtime_ns, told.st_size
        if seen != self._seen:
            self._layout, self._seen = Layout.read(self._path), seen
        return self._layout

    @contextlib.contextmanager
    def _asking(self) -> Iterator[tuple[Layout, bool]]:
        with self._locks.asking():
            yield self.layout, False

    @contextlib.contextmanager
    def _alone(self) -> Iterator[Layout]:
        """The layout, to be changed. It is written by who changes it; what isn't written is read anew."""
        if self._moments:
            raise Locked("nothing is changed within a snapshot of this client's own")
        with self._locks.writing(), self._locks.alone():
            self._seen = ()
            try:
                yield self.layout
            finally:
                self._seen = ()

    @contextlib.contextmanager
    def snapshot(self) -> Iterator[Moment]:
        """The documents of one moment over all folders; who writes waits until it ends. Raises `Locked` where somebody
        writes, `Unfinished` where a change isn't done to its end, `Changed` where one is still being done for a client
        that died."""
        with self._locks.asking():
            layout = Layout.read(self._path)
            if left := layout.left():
                raise Unfinished("a change isn't done to its end", left[0], (), ())
            made = {at: () for at, place in enumerate(layout.places) if place.mark is not None}
            for at, state in self._crew.each("about", layout, made).items():
                layout.places[at].order, layout.places[at].mark = state.order, state.mark
            self._moments += 1
            try:
                yield Moment(self._crew, layout)
            finally:
                self._moments -= 1

    # ---- additions

    def add(self, document: Any, key: int | None = None) -> int:
        """Adds a document, as `Index.add` takes it, and answers its key."""
        return int(self.add_many([document], None if key is None else [key])[0])

    def add_many(self, documents: Any, keys: Iterable[int] | Array | None = None, *,
                 token: str | None = None) -> Array:
        """Adds documents, an array of shape (n, dims) or an iterable of what `Index.add` takes, and answers their keys.

        `keys` are whole numbers of 64 bits, one for each document; where they are left out the documents are counted
        on from those ever added. Each folder stores its part in one commit (a million documents in each, where it gets
        more), tried again on another worker where one dies.

        With a `token`, any text, the call is done once however often it is made: again with the same token and the
        same documents it does what isn't done yet. Where parts can't be stored `Unfinished` or `WorkerLost` tell which
        are and the token; where none is, nothing has happened and the cause is raised. The last thousand tokens
        are known.
        """
        name = token or uuid.uuid4().hex
        with self._alone() as layout:
            found = documents_of(documents, layout.dims)
            given = None if keys is None else keys_of(keys)
            if given is not None and len(given) != len(found):
                raise ValueError(f"{len(given)} keys for {len(found)} documents")
            firsts, lacking = found.firsts(), self._deletions.settle(layout)
            call = layout.calls.get(name) or layout.begin(name, firsts)
            if call.count != len(found):
                raise ValueError(f"token {name} is of {call.count} documents, not of {len(found)}")
            named = numpy.arange(len(found)) + call.first if given is None else given
            if not call.is_done:
                places = layout.place(firsts, call)
                refuse(lacking, numpy.flatnonzero(numpy.bincount(places)).tolist())
                self._additions.add(layout, name, call, found, named, places)
            return named

    # ---- deletions

    def delete(self, key: SupportsIndex) -> bool:
        """Deletes the documents of this key; False where none was live."""
        return self.delete_many([int(key)]) > 0

    def delete_many(self, keys: Iterable[int] | Array, *, token: str | None = None) -> int:
        """Deletes the documents of these keys, and answers how many were live.

        With a `token` it is done once, and answers the same again where the call is made again. Where folders can't do
        it `Unfinished` or `WorkerLost` tell which have and the token; where none has, nothing has happened and the
        cause is raised. What is left open in a folder is done before that gets anything more.
        """
        found = keys_of(keys)
        with self._alone() as layout:
            return self._deletions.delete(layout, token or uuid.uuid4().hex, list(layout.holding()), found)

    def delete_box(self, lo: Point, hi: Point, *, token: str | None = None) -> int:
        """Deletes the documents that have a point in the box, and answers how many; a token is as of `delete_many`."""
        request, low, high = requests.delete_box(lo, hi), coordinates(lo), coordinates(hi)
        with self._alone() as layout:
            check_box(request, layout.dims, lo, hi)
            places = [at for at, place in enumerate(layout.places) if place.meets(low, high)]
            return self._deletions.delete(layout, token or uuid.uuid4().hex, places, request)

    def merge(self) -> None:
        """Merges each folder's segments into one."""
        with self._alone() as layout:
            failed, name = dict[int, BaseException](), uuid.uuid4().hex
            asked = {at: (name, requests.MERGE) for at in layout.holding()}
            take(layout, self._crew.each("change", layout, asked, failed=failed))
            layout.write(self._path)
            if failed:
                raise failed[min(failed)]

    # ---- after a fault

    def recover(self) -> dict[str, bool]:
        """Ends the calls that weren't done to their end, and answers of each token whether it is done.

        A deletion is finished. An addition whose parts are all stored is done; of another what was stored is taken
        back, so that its call may be made again. Folders that a rebalance has left are removed. Raises `WorkerLost`,
        `NoIndex` or `Changed` where a folder can't be asked; then it may be done again.
        """
        with self._alone() as layout:
            told = {}
            for name, deletion in [(name, one) for name, one in layout.deletions.items() if one.open]:
                self._deletions.end(layout, name, deletion)
                told[name] = True
            for name, call in [(name, call) for name, call in layout.calls.items() if not call.is_done]:
                told[name] = self._additions.end(layout, name, call)
            self._remove_left(layout)
            self._deletions.clean(layout)
            made = {at: () for at, place in enumerate(layout.places) if place.mark is not None}
            for at, state in self._crew.each("about", layout, made).items():
                place = layout.places[at]
                place.order, place.mark, place.live = state.order, state.mark, state.live
            layout.write(self._path)
            return told

    def rescue(self) -> None:
        """What can be read of damaged folders: raises `Unsupported`, naming the program, as long as it has no such
        command. `check` says which folder is damaged; a copy of it, of the same state, may stand in its place."""
        with self._alone() as layout:
            self._crew.each("rescue", layout, {at: () for at in range(len(layout.places))})

    # ---- cells

    def rebalance(self) -> int:
        """Splits cells that have more than twice as many documents as others have, merges those that have few with
        their neighbours, and answers how many cells it made anew.

        Queries go on meanwhile; who writes waits. Additions that aren't done to their end are to be recovered
        before. Folders are made beside those that they stand for, on the same worker where they are bound.
        """
        with self._locks.writing():
            return Rebalancing(self._path, self._crew, self._locks).run()

    def _remove_left(self, layout: Layout) -> None:
        Rebalancing(self._path, self._crew, self._locks).remove_left(layout)


def open(path: Folder, client: Client | str | None = None, *, program: Any = None,
         workers: Mapping[str, str] | None = None, wait_for: float = 60.0, wait: float = 600.0) -> Shards:
    """Opens the index of a layout that `bkd.shards.create` wrote.

    `client` is a Dask client, the address of a scheduler, or None for a local cluster, and is waited for `wait_for`
    seconds until it has a worker; a client with `direct_to_workers=True` spares each query a way over the scheduler.
    `program` is found on the workers as `bkd.open` finds it. `workers` gives folders other workers than the layout
    binds them to, by name or address. `wait` is for how many seconds another client that writes is waited for.
    """
    from distributed import Client
    owns = not isinstance(client, Client)
    found = client if isinstance(client, Client) else Client(client, direct_to_workers=True)
    until = time.monotonic() + wait_for
    while not found.scheduler_info()["workers"] and time.monotonic() < until:
        time.sleep(0.1)
    try:
        return Shards(path, found, program, workers, owns, wait)
    except BaseException:
        if owns:
            found.close()
        raise
