"""The locks of a layout: one writes at a time, and nothing is asked while what is asked for changes.

They are advisory locks on bytes of the file `LAYOUT.lock`, which end with their process.
"""
from __future__ import annotations

import contextlib
import fcntl
import os
import struct
import time
from collections.abc import Iterator

from ..errors import Locked

# byte 0 is had by who writes; byte 2 is shared by who asks, and had alone while folders change; byte 1 is had
# for a moment before byte 2, so that those who ask can't keep out who waits for them
_WRITER, _GATE, _STATE = range(3)
_PAUSE = 0.004


def _set(held: int, kind: int, byte: int) -> bool:
    """Takes or gives back a byte of this open file; False where another has it."""
    try:
        fcntl.fcntl(held, fcntl.F_OFD_SETLK, struct.pack("hhqqi4x", kind, os.SEEK_SET, byte, 1, 0))
        return True
    except (BlockingIOError, PermissionError):
        return False


class Locks:
    """The locks of the layout of this path. `wait` is for how many seconds others are waited for."""

    def __init__(self, path: str, wait: float) -> None:
        self._path = path
        self._wait = wait

    @contextlib.contextmanager
    def _file(self) -> Iterator[int]:
        held = os.open(self._path + ".lock", os.O_RDWR | os.O_CREAT | os.O_CLOEXEC, 0o666)
        try:
            yield held
        finally:
            os.close(held)

    def _take(self, held: int, kind: int, byte: int) -> None:
        until = time.monotonic() + self._wait
        while not _set(held, kind, byte):
            if time.monotonic() >= until:
                raise Locked(f"another client works on {self._path}")
            time.sleep(_PAUSE)

    def _state(self, held: int, kind: int) -> None:
        self._take(held, kind, _GATE)
        try:
            self._take(held, kind, _STATE)
        finally:
            _set(held, fcntl.F_UNLCK, _GATE)

    @contextlib.contextmanager
    def asking(self) -> Iterator[None]:
        """Nothing changes meanwhile; others may ask too. Raises `Locked`."""
        with self._file() as held:
            self._state(held, fcntl.F_RDLCK)
            yield

    @contextlib.contextmanager
    def writing(self) -> Iterator[None]:
        """Nobody else writes meanwhile; others may ask. Raises `Locked`."""
        with self._file() as held:
            self._take(held, fcntl.F_WRLCK, _WRITER)
            yield

    @contextlib.contextmanager
    def alone(self) -> Iterator[None]:
        """Within `writing`: nobody asks meanwhile. Raises `Locked`."""
        with self._file() as held:
            self._state(held, fcntl.F_WRLCK)
            yield
