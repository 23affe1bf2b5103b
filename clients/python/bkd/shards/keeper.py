"""What stays on a worker: a Dask actor that has the folders which the worker is asked on, with their sessions."""
from __future__ import annotations

import contextlib
import os
import threading
import time
import weakref
from collections.abc import Callable, Mapping
from concurrent.futures import ThreadPoolExecutor
from typing import Any

from ..errors import Error, FolderFault
from ..program import Program, find
from .rebuild import rebuild, remove
from .shard import Shard
from .state import Known

# seconds after which a session that isn't asked ends, so that others may write
_IDLE = 2.0
_THREADS = 4
Work = tuple[Any, ...]


class Keeper:
    """The folders of one worker. `program` is found here as `bkd.open` finds it."""

    def __init__(self, program: Any = None) -> None:
        self._words = program
        self._program: Program | None = None
        self._shards: dict[str, Shard] = {}
        self._pool = ThreadPoolExecutor(_THREADS)
        self._turn = threading.Lock()
        threading.Thread(target=_close_idle, args=(weakref.ref(self),), daemon=True).start()

    def do(self, method: str, asked: Mapping[int, tuple[str, Known, Work]]) -> dict[int, Any]:
        """Calls a method of `Shard` on folders, side by side: of each place its folder, what is known of it, and the
        further words. Answers what each call answers, or the exception that it raised."""
        waited = {place: self._pool.submit(self._one, method, *words) for place, words in asked.items()}
        return {place: future.result() for place, future in waited.items()}

    def _one(self, method: str, folder: str, known: Known, words: Work) -> Any:
        def work() -> Any:
            return getattr(self._shard(folder), method)(known, *words)
        return _told(folder, work)

    def rebuild(self, *words: Any) -> Any:
        """Copies the documents of some folders into others; see `bkd.shards.rebuild`."""
        return _told(words[0][0][0], lambda: rebuild(self._shard, *words))

    def remove(self, asked: list[tuple[str, Known]]) -> Any:
        """Removes folders that a layout has left; see `bkd.shards.rebuild`."""
        return _told(asked[0][0], lambda: [remove(self._shard(folder), known) for folder, known in asked])

    def _shard(self, folder: str) -> Shard:
        path = os.path.abspath(folder)
        with self._turn:
            if self._program is None:
                self._program = find(self._words)
            if path not in self._shards:
                self._shards[path] = Shard(path, self._program)
            return self._shards[path]


def _told(folder: str, work: Callable[[], Any]) -> Any:
    """What a call answers, or what it raises, with the folder's name."""
    try:
        return work()
    except OSError as error:
        return FolderFault(f"{folder}: {error.strerror or error}")
    except (Error, ValueError, TypeError) as error:
        error.add_note(f"folder {folder}")
        return error


def _close_idle(keeper: weakref.ref[Keeper]) -> None:
    """Ends sessions that are idle, as long as the keeper is there."""
    while (found := keeper()) is not None:
        for shard in list(found._shards.values()):
            with contextlib.suppress(OSError):
                shard.close_idle(_IDLE)
        del found
        time.sleep(_IDLE / 4)
