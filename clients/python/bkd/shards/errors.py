"""What can go wrong with an index over folders, beside what can go wrong with each."""
from __future__ import annotations

from collections.abc import Sequence

from .. import errors
from ..errors import Error


class Changed(Error):
    """A folder holds what the layout doesn't know: another index, an older state, or changes of something else.

    `folder` names it.
    """

    def __init__(self, folder: str, what: str) -> None:
        super().__init__(f"{folder}: {what}")
        self.folder = folder


class BadLayout(Error):
    """A layout's file is damaged, or is none."""


class Unfinished(Error):
    """A change was done in some folders and not in others.

    `token` is the change's: the same call with it does what isn't done, once. `committed` names the folders where all
    of it is stored, `open` those where it isn't or where that isn't known. `Shards.recover` takes back what an
    addition stored, and finishes a deletion.
    """

    def __init__(self, what: str, token: str, committed: Sequence[str], open: Sequence[str]) -> None:
        told = "; ".join(f"{word} {', '.join(names)}" for word, names in (("stored in", committed),
                                                                           ("not in", open)) if names)
        Error.__init__(self, f"{what} ({told}; token {token})" if told else what)
        self.token = token
        self.committed = tuple(committed)
        self.open = tuple(open)


class WorkerLost(Unfinished, errors.WorkerLost):
    """Workers died again and again, or the one that has a folder: `folder` names it. What is stored is told as by
    `Unfinished`, all of it empty of a query."""

    def __init__(self, folder: str, why: str, token: str = "", committed: Sequence[str] = (),
                 open: Sequence[str] = ()) -> None:
        Unfinished.__init__(self, f"{folder}: {why}", token, committed, open)
        self.folder = folder
