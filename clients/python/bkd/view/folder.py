"""The folder that a page shows: what its commit and its files say, and the program over it."""
from __future__ import annotations

import contextlib
import hashlib
import math
import os
import tempfile
import time
from collections.abc import Iterator, Sequence
from dataclasses import dataclass, fields
from subprocess import DEVNULL, Popen
from typing import IO, Any

from .. import commands, lock
from ..damage import Damage
from ..errors import Damaged, NoIndex, fault_of, unrefused
from ..formats.commit import Commit, read_commit
from ..formats.pages import COMMIT_FILE, FileName, PagedFile, is_own_name
from ..processes import started
from ..program import Program
from ..requests import Request
from ..talk import Talk

# seconds that a lock is waited for, and that the program may take for a question
_WAIT = 1.0
_TIMEOUT = 60.0


@dataclass
class _Checking:
    """A check that runs or has run."""

    process: Popen[bytes]
    said: IO[bytes]
    begun: float
    size: int
    read: int = 0
    ended: float | None = None


class Shown:
    """A folder, asked by the program beside others. What is raised: `NoIndex`, `Damaged`, or `Locked` where another
    process writes."""

    def __init__(self, folder: str, program: Program) -> None:
        self.folder = os.path.abspath(folder)
        self.program = program
        self._checking: _Checking | None = None

    def mark(self) -> str:
        """A text that is another one where another commit is stored. Takes no lock."""
        try:
            told = os.stat(os.path.join(self.folder, COMMIT_FILE.text))
        except OSError:
            raise NoIndex(f"{self.folder} holds no index") from None
        seen = repr((told.st_dev, told.st_ino, told.st_mtime_ns, told.st_size))
        return hashlib.sha256(seen.encode()).hexdigest()[:16]

    def commit(self) -> Commit:
        """The commit as it is stored now."""
        found = read_commit(self.folder)
        if found is None:
            raise NoIndex(f"{self.folder} holds no index")
        return found

    @contextlib.contextmanager
    def reading(self) -> Iterator[None]:
        """Within it nothing is committed by others, so that several answers are of one commit."""
        with lock.locked(self.folder, shared=True, wait=_WAIT):
            yield

    def count(self, asked: Sequence[Request]) -> list[Any]:
        """What the program's `count` answers."""
        return unrefused(commands.count(self.folder, asked, program=self.program, timeout=_TIMEOUT))

    def explain(self, asked: Request) -> Any:
        """What the program's `explain` answers."""
        return unrefused(commands.explain(self.folder, [asked], program=self.program, timeout=_TIMEOUT))[0]

    def run(self, talk: Talk) -> None:
        """Has queries answered; nothing is changed."""
        self.program.run(self.folder, ["run"], talk, _TIMEOUT)

    # ---- what is there

    def about(self) -> dict[str, Any]:
        """What `info` tells, the segments, all files of the folder, and the least box round all entries.

        Of a segment `dead` is how many of its points are of deleted documents; at most, where not each document has a
        single point, as `single` tells: then only the leaves tell how many points the live ones have.
        """
        with self.reading():
            mark, commit = self.mark(), self.commit()
            told = commands.info(self.folder, program=self.program, timeout=_TIMEOUT)
            roots = [self._root(one.segment, commit.dims) for one in commit.listed]
        bounds = [[min(c) for c in zip(*(low for low, _ in roots))],
                  [max(c) for c in zip(*(high for _, high in roots))]] if roots else None
        segments = [{"id": one.segment, "entries": one.entries, "live": one.live, "dead": one.entries - one.live,
                     "leaves": -(-one.entries // commit.leaf)} for one in commit.listed]
        return {"mark": mark, "folder": self.folder, "dims": told.dims, "leaf": told.leaf, "next": told.next,
                "given": told.points, "live": told.live, "bytes": told.bytes, "segments": segments, "bounds": bounds,
                "files": self._files(commit), "decimals": told.decimals, "single": commit.given == commit.next}

    def _root(self, segment: int, dims: int) -> tuple[list[int], list[int]]:
        """The least cell round a segment's entries, which stands at the front of its page 1."""
        with PagedFile(self.folder, FileName.segment(segment)) as file:
            payload = file.payload(1)
        keys = [int.from_bytes(payload[4 * i:4 * i + 4], "big") - (1 << 31) for i in range(2 * dims)]
        return keys[:dims], keys[dims:]

    def _files(self, commit: Commit) -> list[dict[str, Any]]:
        """Each file with its size, and whether the commit needs it."""
        needed = {COMMIT_FILE.text} | {name.text for one in commit.listed for name in
                                       (FileName.segment(one.segment), FileName.live(one.segment, one.generation))}
        found = []
        for entry in sorted(os.scandir(self.folder), key=lambda entry: entry.name):
            with contextlib.suppress(FileNotFoundError):
                kind = "needed" if entry.name in needed else "left over" if is_own_name(entry.name) else "other"
                found.append({"name": entry.name, "size": entry.stat().st_size, "kind": kind})
        return found

    # ---- the check

    def begin_check(self) -> dict[str, Any]:
        """Has the program read all that is stored, beside the page; answers how far it is."""
        if self._checking is None or self._checking.ended is not None:
            self.program.require("check")
            size = sum(file["size"] for file in self._files(self.commit()) if file["kind"] == "needed")
            said = tempfile.TemporaryFile()
            words = [*self.program.words, self.folder, "check", "--wait", str(math.ceil(_WAIT))]
            process = started(words, stdin=DEVNULL, stdout=said, stderr=said)
            self._checking = _Checking(process, said, time.monotonic(), size)
        return self.check()

    def check(self) -> dict[str, Any]:
        """How far the check is: seconds, bytes read and to be read, and what it said when it has ended."""
        one = self._checking
        if one is None:
            return {"state": "none"}
        one.read = max(one.read, _bytes_read(one.process.pid))
        status = one.process.poll()
        if status is None:
            return {"state": "runs", "seconds": time.monotonic() - one.begun, "read": one.read, "size": one.size}
        if one.ended is None:
            one.ended = time.monotonic()
        one.said.seek(0)
        text = one.said.read().decode(errors="replace").strip()
        error = None if status == 0 else fault_of(status, text)
        told = {"state": "whole" if error is None else "damaged" if status == 6 else "failed",
                "seconds": one.ended - one.begun, "said": text if error is None else str(error)}
        if isinstance(error, Damaged):
            parts = {field.name: getattr(error.damage, field.name) for field in fields(error.damage)}
            told["damage"] = {name: value for name, value in parts.items() if value is not None}
            told["remedy"] = self._remedy(error.damage)
        return told

    def _remedy(self, damage: Damage) -> list[str]:
        """What can be done about a damage, with the commands that the program has."""
        again = f", {damage.file} first" if damage.file else ""
        return [f"Write nothing to {self.folder}: copy it as it is{again}, and run check on the copy on another disk.",
                "Go on from an older copy of the whole folder that check finds whole, or load the source anew.",
                "The program has rescue: its help says what it takes over." if "rescue" in self.program.commands else
                "This program has no rescue, which would take over what is whole."]

    def close(self) -> None:
        """Ends a check that runs."""
        if (one := self._checking) is not None and one.ended is None:
            one.process.kill()
            one.process.wait()


def _bytes_read(process: int) -> int:
    """How many bytes a process has read by now, 0 where that isn't told."""
    try:
        with open(f"/proc/{process}/io") as file:
            return int(file.readline().split()[1])
    except (OSError, ValueError, IndexError):
        return 0
