"""What a folder was given, in order: a file beside the index, `shard.log`, with the key of each document.

Each change is written here and synced before the program does it, with the fingerprint of the commit before it. So
what is stored is known after any fault: the last change was done where the folder's commit is another one by now,
and an addition where the next number has risen by its documents. Every record has the digest of all before it.
"""
from __future__ import annotations

import hashlib
import os
import struct
from collections.abc import Sequence
from dataclasses import dataclass, field

import numpy

from ..errors import Error
from ..kept import sync_names
from .documents import Array

NAME = "shard.log"
MADE, ADDED, CHANGED, VOID = range(4)
_MAGIC = b"BKDSHRD1"
# magic, kind, place in the order, token, next number, live documents, count of keys, commit before, digest of the keys
_HEAD = struct.Struct(">8sBQ16sIII32s32s")
_DIGEST = 32


@dataclass(frozen=True, slots=True)
class Record:
    """A change: its place in the order, its token, what the folder held before it, and how many keys it adds.

    Of the first record, `MADE`, `token` is the layout's and `before` the place's name.
    """

    kind: int
    order: int
    token: bytes
    next: int
    live: int
    count: int
    before: bytes


@dataclass(slots=True)
class Journal:
    """The records of a folder, the keys of all numbers, and where the file ends behind the last whole record."""

    path: str
    records: list[Record] = field(default_factory=list)
    keys: list[Array] = field(default_factory=list)
    ends: list[int] = field(default_factory=list)
    digests: list[bytes] = field(default_factory=list)
    seen: tuple[int, ...] = ()

    def append(self, record: Record, keys: Array | None = None) -> None:
        """Writes a record behind the last one and syncs it; what a fault left there is cut off."""
        spelled = b"" if keys is None else keys.astype(">i8").tobytes()
        head = _HEAD.pack(_MAGIC, record.kind, record.order, record.token, record.next, record.live, record.count,
                          record.before, hashlib.sha256(spelled).digest())
        digest = hashlib.sha256((self.digests[-1] if self.digests else b"") + head).digest()
        end = self.ends[-1] if self.ends else 0
        with open(self.path, "r+b" if self.ends else "wb") as file:
            file.truncate(end)
            file.seek(end)
            file.write(head + digest + spelled)
            file.flush()
            os.fsync(file.fileno())
        if not self.ends:
            sync_names(os.path.dirname(self.path))
        self._take(record, digest, keys, end + len(head) + _DIGEST + len(spelled))
        self.seen = _signature(self.path)

    def drop_last(self) -> None:
        """Takes back the last record, which was not done; it stays in the file until the next one or a cut."""
        del self.records[-1], self.ends[-1], self.digests[-1], self.keys[-1]

    def cut(self) -> None:
        """Cuts off what stands in the file behind the last record."""
        os.truncate(self.path, self.ends[-1])
        self.seen = _signature(self.path)

    def _take(self, record: Record, digest: bytes, keys: Array | None, end: int) -> None:
        self.records.append(record)
        self.digests.append(digest)
        self.keys.append(numpy.empty(0, dtype=numpy.int64) if keys is None else keys.astype(numpy.int64))
        self.ends.append(end)

    def all_keys(self) -> Array:
        """The keys of all numbers, in order."""
        return numpy.concatenate(self.keys) if self.keys else numpy.empty(0, dtype=numpy.int64)

    def of_token(self, token: bytes, kinds: Sequence[int]) -> Record | None:
        """The last record of this token of one of these kinds."""
        return next((one for one in reversed(self.records) if one.token == token and one.kind in kinds), None)


def _signature(path: str) -> tuple[int, ...]:
    """What of a file differs where it was written anew."""
    told = os.stat(path)
    return told.st_dev, told.st_ino, told.st_mtime_ns, told.st_size


def read(folder: str, known: Journal | None = None) -> Journal | None:
    """The journal of a folder, None where there is none; the known one where the file is still as it was.

    Records behind one that isn't whole count as not there.
    """
    found = Journal(os.path.join(folder, NAME))
    try:
        found.seen = _signature(found.path)
        if known is not None and known.seen == found.seen:
            return known
        with open(found.path, "rb") as file:
            text = memoryview(file.read())
    except (FileNotFoundError, NotADirectoryError):
        return None
    at, digest = 0, b""
    while (whole := _record(text, at, digest)) is not None:
        record, digest, keys, at = whole
        if record.order != len(found.records):
            raise Error(f"{found.path}: record {record.order} stands at place {len(found.records)}")
        found._take(record, digest, keys, at)
    return found


def _record(text: memoryview, at: int, before: bytes) -> tuple[Record, bytes, Array, int] | None:
    """The record at this byte, its digest, its keys, and where the next one begins; None where it isn't whole."""
    head = text[at:at + _HEAD.size]
    rest = at + _HEAD.size + _DIGEST
    if len(text) < rest:
        return None
    digest = hashlib.sha256(before + bytes(head)).digest()
    magic, kind, order, token, following, live, count, fingerprint, sum_of_keys = _HEAD.unpack(head)
    spelled = text[rest:rest + (8 * count if kind == ADDED else 0)]
    if magic != _MAGIC or digest != text[at + _HEAD.size:rest] or hashlib.sha256(spelled).digest() != sum_of_keys:
        return None
    keys = numpy.frombuffer(spelled, dtype=">i8").astype(numpy.int64)
    return Record(kind, order, token, following, live, count, fingerprint), digest, keys, rest + len(spelled)
