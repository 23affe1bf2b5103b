"""What the client keeps beside an index's files: whether it holds points or ranges, and at which scale.

It stands in `client.json`, which the program doesn't look at. A folder without it was made by the program alone: it may
be opened as either, and has no scale.
"""
from __future__ import annotations

import contextlib
import json
import os
from collections.abc import Iterator
from dataclasses import dataclass

from .errors import FolderFault, OtherKind

NAME = "client.json"
POINTS, RANGES = "points", "ranges"


@dataclass(frozen=True)
class Kept:
    """What an index holds, `points` or `ranges`, None where that isn't known; and how many decimals, None of none."""

    holds: str | None = None
    decimals: int | None = None


def read(folder: str) -> Kept:
    """What is kept beside an index. What can't be understood raises `OtherKind`."""
    path = os.path.join(folder, NAME)
    try:
        with open(path, encoding="utf-8") as file:
            found = json.load(file)
    except FileNotFoundError:
        return Kept()
    except OSError as error:
        raise FolderFault(f"{path}: {error.strerror}") from error
    except ValueError as error:
        raise OtherKind(f"{path} is no JSON: {error}") from error
    if not isinstance(found, dict):
        raise OtherKind(f"{path} has no object")
    kept = Kept(found.get("holds"), found.get("decimals"))
    if kept.holds not in (None, POINTS, RANGES) or not (kept.decimals is None or type(kept.decimals) is int):
        raise OtherKind(f"{path} tells of what this client doesn't know: {found}")
    return kept


@contextlib.contextmanager
def written(folder: str, kept: Kept) -> Iterator[None]:
    """Keeps it when the `with` ends, whole or not at all, where nothing is kept yet; an exception keeps nothing."""
    path = os.path.join(folder, NAME)
    aside = f"{path}.{os.getpid()}.new"
    try:
        with open(aside, "w", encoding="utf-8") as file:
            json.dump({"holds": kept.holds, "decimals": kept.decimals}, file)
            file.write("\n")
            file.flush()
            os.fsync(file.fileno())
        yield
        _name(aside, path)
        sync_names(folder)
    except OSError as error:
        raise FolderFault(f"{path}: {error.strerror}") from error
    finally:
        with contextlib.suppress(OSError):
            os.remove(aside)


def _name(aside: str, path: str) -> None:
    """Gives a file its name where none has it."""
    try:
        os.link(aside, path)
    except FileExistsError:
        pass
    except OSError:  # a file system without second names
        if not os.path.exists(path):
            os.rename(aside, path)


def forget(folder: str) -> None:
    """Takes a note away that stands where no index is."""
    with contextlib.suppress(FileNotFoundError):
        os.remove(os.path.join(folder, NAME))


def sync_names(folder: str) -> None:
    """Brings the names in a directory to the disk."""
    held = os.open(folder or ".", os.O_RDONLY | os.O_DIRECTORY)
    try:
        os.fsync(held)
    finally:
        os.close(held)


def agreed(folder: str, wanted: Kept) -> Kept:
    """What is kept beside an index that is there; `OtherKind` where it isn't what is wanted."""
    found = read(folder)
    if found.holds not in (None, wanted.holds):
        raise OtherKind(f"{folder} holds {found.holds}, not {wanted.holds}")
    if wanted.decimals is not None and wanted.decimals != found.decimals:
        had = "no scale" if found.decimals is None else f"{found.decimals} decimals"
        raise OtherKind(f"{folder} has {had}, not {wanted.decimals} decimals")
    return Kept(wanted.holds, found.decimals)
