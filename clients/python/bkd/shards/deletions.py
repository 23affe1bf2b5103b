"""Deletions: noted in the layout before a folder is asked, so that what a fault left open is done later, and once."""
from __future__ import annotations

import contextlib
import hashlib
import os
from collections.abc import Iterable, Mapping, Sequence

import numpy

from ..answers import DELETED
from ..errors import Locked, NoIndex, Refused
from ..kept import sync_names
from ..requests import Request
from .crew import Crew
from .documents import Array
from .errors import BadLayout, Changed, Unfinished
from .layout import Deletion, Layout
from .outcomes import is_lost, take, unfinished

# what a folder raises before it changes anything
_BEFORE = (NoIndex, Changed, Locked, Refused)


def refuse(lacking: Mapping[int, Unfinished], places: Iterable[int]) -> None:
    """Raises why one of these places gets nothing more."""
    for at in places:
        if at in lacking:
            raise lacking[at]


class Deletions:
    """Of the layout of this path; the caller has it alone. Keys stand in a file beside it while they are deleted."""

    def __init__(self, path: str, crew: Crew) -> None:
        self._path = path
        self._crew = crew

    def delete(self, layout: Layout, name: str, places: Sequence[int], what: Array | Request) -> int:
        """Deletes by keys or by a line, and answers how many documents that were. Raises why not all is done."""
        keys = what.astype(">i8").tobytes() if isinstance(what, numpy.ndarray) else b""
        line = None if isinstance(what, numpy.ndarray) else what.line
        digest = hashlib.sha256(keys).hexdigest()
        deletion = layout.deletions.get(name)
        if deletion is None:
            refuse(self.settle(layout), places)
            deletion = Deletion(line, digest, list(places), list(places))
            if line is None and places:
                self._keep(name, keys)
            layout.deletions[name] = deletion
            layout.write(self._path)
        elif (deletion.line, deletion.sum) != (line, digest):
            raise ValueError(f"token {name} is of another deletion")
        failed = self._try(layout, name, deletion, what)
        if failed:
            self._fail(layout, name, deletion, failed)
        return deletion.gone

    def settle(self, layout: Layout) -> dict[int, Unfinished]:
        """Does what deletions left open in folders, and answers of those that can't do it what is raised where they
        are to get anything more."""
        lacking: dict[int, Unfinished] = {}
        for name, deletion in [(name, one) for name, one in layout.deletions.items() if one.open]:
            failed = self._try(layout, name, deletion, self._what(name, deletion))
            lacking |= {at: unfinished(layout, name, deletion.places, failed) for at in failed}
        return lacking

    def end(self, layout: Layout, name: str, deletion: Deletion) -> None:
        """Does what a deletion left open. Raises why that can't be done."""
        failed = self._try(layout, name, deletion, self._what(name, deletion))
        if failed:
            raise failed[min(failed)]

    def _try(self, layout: Layout, name: str, deletion: Deletion,
             what: Array | Request) -> dict[int, BaseException]:
        """Asks the folders that haven't done it, notes those that have, and answers what went wrong."""
        failed: dict[int, BaseException] = {}
        if deletion.open:
            method = "delete" if deletion.line is None else "change"
            told = self._crew.each(method, layout, {at: (name, what) for at in deletion.open}, failed=failed)
            take(layout, told)
            deletion.gone += sum(outcome.gone for outcome in told.values())
            deletion.open = [at for at in deletion.open if at not in told]
            layout.forget()
            layout.write(self._path)
            if not deletion.open:
                self._drop(name)
        return failed

    def _fail(self, layout: Layout, name: str, deletion: Deletion, failed: Mapping[int, BaseException]) -> None:
        """Raises why not all is done; where nothing is, the deletion is forgotten."""
        if deletion.gone or self._may_be_done(layout, name, failed):
            raise unfinished(layout, name, deletion.places, failed)
        del layout.deletions[name]
        layout.write(self._path)
        self._drop(name)
        raise failed[min(failed)]

    def _may_be_done(self, layout: Layout, name: str, failed: Mapping[int, BaseException]) -> bool:
        """Whether one of the folders where it went wrong may have done it."""
        if is_lost(failed):
            return True
        unclear = {at: (name,) for at, error in failed.items() if not isinstance(error, _BEFORE)}
        silent: dict[int, BaseException] = {}
        told = self._crew.each("has", layout, unclear, failed=silent)
        return any(told.values()) or any(not isinstance(error, _BEFORE) for error in silent.values())

    # ---- keys

    def _file(self, name: str) -> str:
        return f"{self._path}.{hashlib.sha256(name.encode()).hexdigest()[:16]}.keys"

    def _keep(self, name: str, keys: bytes) -> None:
        with open(self._file(name), "wb") as file:
            file.write(keys)
            file.flush()
            os.fsync(file.fileno())
        sync_names(os.path.dirname(self._path))

    def _drop(self, name: str) -> None:
        with contextlib.suppress(FileNotFoundError):
            os.remove(self._file(name))

    def _what(self, name: str, deletion: Deletion) -> Array | Request:
        """The keys or the line of a deletion that a client left."""
        if deletion.line is not None:
            return Request(deletion.line, DELETED)
        with open(self._file(name), "rb") as file:
            keys = file.read()
        if hashlib.sha256(keys).hexdigest() != deletion.sum:
            raise BadLayout(f"{self._file(name)} is damaged: its digest is another one")
        return numpy.frombuffer(keys, dtype=">i8").astype(numpy.int64)

    def clean(self, layout: Layout) -> None:
        """Removes the keys of deletions that nobody knows of: of a client that died before it noted one, or after."""
        open_ones = {self._file(name) for name, deletion in layout.deletions.items() if deletion.open}
        top, begin = os.path.dirname(self._path), os.path.basename(self._path) + "."
        for found in os.listdir(top):
            path = os.path.join(top, found)
            if found.startswith(begin) and found.endswith(".keys") and path not in open_ones:
                os.remove(path)
