"""Files of pages: names, digests, and the order in which a file is checked."""
from __future__ import annotations

import hashlib
import os
import re
from dataclasses import dataclass

from ..damage import Damage
from ..errors import Damaged

PAGE = 4096
PAYLOAD = 4064
SEGMENT, LIVE, COMMIT = 1, 2, 3
_NAMES = re.compile(r"seg-([0-9a-f]{16})\.bkd|live-([0-9a-f]{16})-[0-9a-f]{16}\.bkd|commit\.bkd|commit\.new")


@dataclass(frozen=True, slots=True)
class FileName:
    """A file of an index: its name in the folder, and the kind and number that its digests name."""

    text: str
    kind: int
    number: int

    @classmethod
    def segment(cls, number: int) -> FileName:
        return cls(f"seg-{number:016x}.bkd", SEGMENT, number)

    @classmethod
    def live(cls, segment: int, generation: int) -> FileName:
        return cls(f"live-{segment:016x}-{generation:016x}.bkd", LIVE, segment)


COMMIT_FILE = FileName("commit.bkd", COMMIT, 0)


def is_own_name(name: str) -> bool:
    """Whether an index may have given a file this name."""
    return _NAMES.fullmatch(name) is not None


def digest(name: FileName, page: int, payload: bytes) -> bytes:
    """The SHA-256 digest that vouches for a payload at its place."""
    place = bytes([name.kind]) + name.number.to_bytes(8, "big") + page.to_bytes(4, "big")
    return hashlib.sha256(place + payload).digest()


def pages_for(length: int) -> int:
    """How many pages a body of this length fills."""
    return -(-length // PAYLOAD)


class PagedFile:
    """A file of the folder, read page by page; a context manager that closes it.

    Raises `Damaged`: missing, of another size than needed, or a page that isn't one for its place.
    """

    def __init__(self, folder: str, name: FileName) -> None:
        self.name = name
        try:
            self._file = open(os.path.join(folder, name.text), "rb", buffering=0)
        except FileNotFoundError:
            raise Damaged(Damage("missing", name.text)) from None
        self.size = os.fstat(self._file.fileno()).st_size
        if self.size < PAGE:
            self._file.close()
            raise Damaged(Damage("size", name.text, size=self.size, needed=PAGE))

    def __enter__(self) -> PagedFile:
        return self

    def __exit__(self, *_: object) -> None:
        self._file.close()

    def payload(self, page: int) -> bytes:
        """The payload of a page, whose digest is right for its place."""
        data = os.pread(self._file.fileno(), PAGE, page * PAGE)
        if len(data) < PAGE:
            raise Damaged(Damage("size", self.name.text, size=page * PAGE + len(data), needed=self.size))
        if digest(self.name, page, data[:PAYLOAD]) != data[PAYLOAD:]:
            raise Damaged(Damage("page", self.name.text, page=page))
        return data[:PAYLOAD]

    def need_pages(self, count: int) -> None:
        """The file has just so many pages."""
        if self.size != count * PAGE:
            raise Damaged(Damage("size", self.name.text, size=self.size, needed=count * PAGE))

    def body(self, length: int, first: bytes | None = None) -> bytes | None:
        """The body of this length in the pages from 1 on, or from 0 on behind its `first` payload.

        None where what stands behind it isn't zero.
        """
        payloads = [] if first is None else [first]
        payloads += [self.payload(page) for page in range(1, 1 + pages_for(length) - len(payloads))]
        joined = b"".join(payloads)
        return None if any(joined[length:]) else joined[:length]

    def not_in_grammar(self) -> Damaged:
        """What the file holds isn't in its grammar."""
        return Damaged(Damage("body", self.name.text))

    def unequal(self, said: int, found: int) -> Damaged:
        """Two numbers that must agree don't."""
        return Damaged(Damage("unequal", self.name.text, said=said, found=found))
