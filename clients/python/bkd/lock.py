"""Which folders this process has open, and the lock on a folder where it is the client that works there.

It is the program that holds a folder: by an advisory `flock` on the directory, shared, and alone from its first change
on (docs/CUSTODY.md). What an index has open is noted here, so that this process is told of its own second opening. The
client takes the same lock only where it reads or changes files itself: `clean`, the page, the folders of `bkd.shards`.
"""
from __future__ import annotations

import contextlib
import fcntl
import os
import threading
import time
import weakref
from collections import Counter
from collections.abc import Iterator
from dataclasses import dataclass

from .errors import FolderFault, Locked

_PAUSE = 0.02
Place = tuple[int, int]


class _Mine:
    """The folders that this process has open, by device and inode: by how many that write, and that only read."""

    def __init__(self) -> None:
        self._lock = threading.Lock()
        self._writers: Counter[Place] = Counter()
        self._readers: Counter[Place] = Counter()

    def add(self, place: Place, folder: str, shared: bool) -> None:
        """Raises `Locked` where one more isn't possible beside those that are there."""
        with self._lock:
            if self._writers[place] or (self._readers[place] and not shared):
                raise _of_this_process(folder)
            (self._readers if shared else self._writers)[place] += 1

    def remove(self, place: Place, shared: bool) -> None:
        with self._lock:
            (self._readers if shared else self._writers)[place] -= 1

    def has(self, place: Place) -> bool:
        with self._lock:
            return self._writers[place] > 0 or self._readers[place] > 0

    def forget(self) -> None:
        """A process that comes of a fork has nothing open."""
        self.__init__()  # type: ignore[misc]


_mine = _Mine()


def _of_this_process(folder: str) -> Locked:
    return Locked(f"this process has {folder} open already: use that index, or close it first", folder)


def _place(folder: str) -> Place:
    try:
        found = os.stat(folder)
    except OSError as error:
        raise FolderFault(f"{folder}: {error.strerror}") from error
    return found.st_dev, found.st_ino


class Opened:
    """The note of a folder that an index has open, to ask it alone or to change it. It goes by `release`, or where
    nobody has it."""

    def __init__(self, folder: str, read: bool) -> None:
        place = _place(folder)
        _mine.add(place, folder, read)
        self._end = weakref.finalize(self, _mine.remove, place, read)
        _notes.add(self)

    def release(self) -> None:
        """A second call does nothing."""
        self._end()

    def _forked(self) -> None:
        self._end.detach()


_notes: weakref.WeakSet[Opened] = weakref.WeakSet()


def told(folder: str, cause: str | None = None) -> Locked:
    """What is raised where a folder can't be had; `cause` is what the program noted of it."""
    if _mine.has(_place(folder)):
        return _of_this_process(folder)
    return Locked(f"another process works on {folder}" + (f": {cause}" if cause else ""), folder, cause)


def need_unopened(folder: str) -> None:
    """Raises `Locked` where this process has the folder open, for which it would wait in vain."""
    if _mine.has(_place(folder)):
        raise _of_this_process(folder)


@dataclass(frozen=True, slots=True)
class Held:
    """A folder that is held for a further program, which takes no lock of its own: by `descriptor`, which it inherits,
    so that the lock lasts as long as it does; or, where that is None, by the program of an index."""

    descriptor: int | None = None

    def release(self) -> None:
        """Gives the lock back. A program that inherited it holds it until it ends."""
        if self.descriptor is not None:
            os.close(self.descriptor)


def take(folder: str, shared: bool = False, wait: float = 0.0) -> Held:
    """Takes the lock: any number may share it, who changes files has it alone.

    Raises `Locked` where another has it for longer than `wait` seconds, and `FolderFault` where the folder can't be
    opened.
    """
    try:
        held = os.open(folder, os.O_RDONLY | os.O_DIRECTORY | os.O_CLOEXEC)
    except OSError as error:
        raise FolderFault(f"{folder}: {error.strerror}") from error
    until = time.monotonic() + wait
    try:
        while not _locks(held, shared):
            if time.monotonic() >= until:
                raise told(folder)
            time.sleep(_PAUSE)
    except BaseException:
        os.close(held)
        raise
    return Held(held)


def _locks(held: int, shared: bool) -> bool:
    try:
        fcntl.flock(held, (fcntl.LOCK_SH if shared else fcntl.LOCK_EX) | fcntl.LOCK_NB)
    except BlockingIOError:
        return False
    return True


@contextlib.contextmanager
def locked(folder: str, shared: bool = False, wait: float = 0.0) -> Iterator[Held]:
    """Has the lock within a `with`."""
    held = take(folder, shared, wait)
    try:
        yield held
    finally:
        held.release()


def _after_fork() -> None:
    for note in list(_notes):
        note._forked()
    _notes.clear()
    _mine.forget()


os.register_at_fork(after_in_child=_after_fork)
