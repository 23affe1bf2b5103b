"""The program `bkd`: where it is, which commands it has, and its commands that run once."""
from __future__ import annotations

import contextlib
import functools
import io
import os
import re
import select
import subprocess
import sys
import tempfile
from collections.abc import Iterator, Sequence
from functools import cached_property
from pathlib import Path
from typing import IO

from . import lock
from .coprocess import Coprocess
from .errors import Died, Error, Hung, Locked, NotFound, Unsupported, cause_of, fault_of, notes_on
from .lock import Held
from .processes import polled, started
from .talk import Talk

_USAGE = re.compile(r"usage: bkd FOLDER ([a-z|]+)")
_PACKAGE = Path(__file__).resolve().parent
_CHECKOUT = _PACKAGE.parents[2]
_READ = 1 << 16


class Program:
    """The program, as the words that start it."""

    def __init__(self, words: Sequence[str]) -> None:
        self.words = tuple(words)

    def __repr__(self) -> str:
        return f"Program({' '.join(self.words)!r})"

    @cached_property
    def commands(self) -> frozenset[str]:
        """The commands of the list that the program prints where its words are wrong.

        What a launcher says meanwhile of building the program, which may take an hour, goes to standard error.
        """
        said = ""
        none = subprocess.DEVNULL
        try:
            with started(self.words, stdin=none, stdout=none, stderr=subprocess.PIPE) as run:
                assert run.stderr
                for line in run.stderr:
                    said += line.decode(errors="replace")
                    if line.startswith(b"bkd: building"):
                        print(line.decode(errors="replace"), end="", file=sys.stderr, flush=True)
        except OSError as error:
            raise NotFound(f"{self.words[0]}: {error.strerror}") from error
        found = _USAGE.search(said)
        if found is None:
            raise NotFound(f"{' '.join(self.words)} is not bkd: it prints no list of commands")
        return frozenset(found[1].split("|"))

    def require(self, command: str) -> None:
        """Raises `Unsupported` where the program's list doesn't have this command."""
        if command not in self.commands:
            raise Unsupported(f"{' '.join(self.words)} has no command {command}; "
                              f"it has {', '.join(sorted(self.commands))}")

    def start(self, folder: str, words: Sequence[str], timeout: float | None, guarded: bool = False) -> Coprocess:
        """Starts a command that stays, whose name is the first word."""
        self.require(words[0])
        with self._told():
            return Coprocess([*self.words, folder, *words], timeout, guarded)

    @contextlib.contextmanager
    def _told(self) -> Iterator[None]:
        """Tells of a program that can't be started."""
        try:
            yield
        except OSError as error:
            raise NotFound(f"{self.words[0]}: {error.strerror}") from error

    def run(self, folder: str, words: Sequence[str], talk: Talk, timeout: float | None,
            held: Held | None = None) -> None:
        """Runs a command over all that a talk has to send.

        Nothing is started where the talk's pieces raise. What is sent is complete before the program reads it, so that
        a caller who is killed leaves all of it or nothing.
        """
        with scratch() as source:
            due = _spell(talk, source)
            with self._started(folder, words, held, source) as run:
                for data in run.pieces(timeout):
                    talk.inbox.append(data)
                    talk.look()
                status, done = run.status(timeout), talk.look()
                last = talk.line(done - 1) if done else None
                if status not in (0, 2):
                    raise run.fault(folder, status, done, last)
                if done < due:
                    raise Died(f"the program ended and left {due - done} lines unanswered", done, last)
                talk.explain(lambda: notes_on(run.said()))

    def output(self, folder: str, words: Sequence[str], source: bytes | IO[bytes] = b"",
               timeout: float | None = None, held: Held | None = None) -> tuple[int, bytes]:
        """The status and the whole text of a command over this input, a text or a file that the program reads.

        Statuses but 0 and 2 raise their error. It writes into a file, so that nobody is woken for a part of it.
        """
        status, text, _ = self.noted(folder, words, source, timeout, held)
        return status, text

    def noted(self, folder: str, words: Sequence[str], source: bytes | IO[bytes] = b"",
              timeout: float | None = None, held: Held | None = None) -> tuple[int, bytes, str | None]:
        """The same, with what the program noted of it, None where it noted nothing."""
        if isinstance(source, bytes):
            with scratch() as file:
                file.write(source)
                file.seek(0)
                return self.noted(folder, words, file, timeout, held)
        with scratch() as sink:
            with self._started(folder, words, held, source, sink) as run:
                status = run.status(timeout)
                if status not in (0, 2):
                    raise run.fault(folder, status)
                cause = cause_of(run.said())
            sink.seek(0)
            return status, sink.read(), cause

    def lines(self, folder: str, words: Sequence[str], held: Held | None = None) -> Iterator[bytes]:
        """The lines that a command writes, as they come; a status but 0 and 2 raises its error, at the end."""
        with scratch() as source, self._started(folder, words, held, source) as run:
            assert run.process.stdout
            with io.BufferedReader(run.process.stdout, _READ) as lines:  # type: ignore[arg-type]
                yield from lines
            if (status := run.status(None)) not in (0, 2):
                raise run.fault(folder, status)

    @contextlib.contextmanager
    def _started(self, folder: str, words: Sequence[str], held: Held | None, source: IO[bytes],
                 sink: IO[bytes] | int = subprocess.PIPE) -> Iterator[_Run]:
        """A command that runs once over a file; it is ended where this is left. `held` is the folder, where the
        program isn't to hold it by itself."""
        self.require(words[0])
        with scratch() as said:
            with self._told():
                process = started([*self.words, folder, *words], held, stdin=source, stdout=sink, stderr=said)
            with process:
                try:
                    yield _Run(process, said)
                finally:
                    process.kill()


class _Run:
    """A command that runs once, with the file that has what it says on standard error."""

    def __init__(self, process: subprocess.Popen[bytes], said: IO[bytes]) -> None:
        self.process = process
        self._said = said

    def pieces(self, timeout: float | None) -> Iterator[bytes]:
        """What it writes, as it comes; `Hung` where nothing comes for so many seconds."""
        assert self.process.stdout
        out, poll = self.process.stdout.fileno(), select.poll()
        poll.register(out, select.POLLIN)
        while poll.poll(None if timeout is None else timeout * 1000):
            data = os.read(out, _READ)
            if not data:
                return
            yield data
        raise Hung(f"the program gave nothing for {timeout} seconds")

    def status(self, timeout: float | None) -> int:
        """The status, when it has ended."""
        if timeout is not None:
            ended = os.pidfd_open(self.process.pid)
            try:
                if not polled(ended).poll(timeout * 1000):
                    raise Hung(f"the program didn't end within {timeout} seconds")
            finally:
                os.close(ended)
        return self.process.wait()

    def said(self) -> str:
        """What it said on standard error."""
        self._said.seek(0)
        return self._said.read().decode(errors="replace")

    def fault(self, folder: str, status: int, done: int | None = None, last: str | None = None) -> Error:
        """The error of a status over a folder, with what was said."""
        found = fault_of(status, self.said(), done, last)
        return lock.told(folder, found.cause) if isinstance(found, Locked) else found


def scratch() -> IO[bytes]:
    """An empty file without a name, in memory where the system has such."""
    try:
        return os.fdopen(os.memfd_create("bkd"), "w+b")
    except OSError:
        return tempfile.TemporaryFile()


def _spell(talk: Talk, file: IO[bytes]) -> int:
    """Writes all that a talk has to send, and goes to the file's begin; answers how many lines that are."""
    lines = 0
    while True:
        text, count = talk.piece()
        if not text:
            break
        file.write(text)
        lines += count
    file.seek(0)
    return lines


def of_checkout() -> tuple[str, ...] | None:
    """The program of the checkout that this package stands in: the one that its launcher would start.

    Where none is of the checkout's sources that is the launcher, which has one built first.
    """
    launcher = _CHECKOUT / "bkd"
    if not (launcher.is_file() and (_CHECKOUT / "crates.txt").is_file()):
        return None
    said = subprocess.run([_CHECKOUT / "release" / "checksum"], capture_output=True, text=True, check=False)
    for program, of in ((_CHECKOUT / "crates" / "bkd" / "out" / "bkd", "crates/bkd/out/bkd.sha256"),
                        (_CHECKOUT / "release" / "bkd", "release/sources.sha256")):
        of_file = _CHECKOUT / of
        if said.stdout and of_file.is_file() and of_file.read_text() == said.stdout and os.access(program, os.X_OK):
            return (str(program),)
    return (str(launcher),)


@functools.cache
def _usual(named: str | None) -> Program:
    """The program that is taken where none is named to `find`; `named` is the environment's BKD."""
    if named is not None:
        if not os.path.isfile(named):
            raise NotFound(f"the environment's BKD names no file: {named!r}")
        return Program([os.path.abspath(named)])
    packed = _PACKAGE / "bin" / "bkd"
    if packed.is_file():
        return Program([str(packed)])
    words = of_checkout()
    if words is not None:
        return Program(words)
    raise NotFound("no program bkd: the package has none and stands in no checkout; name it, or set BKD")


@functools.cache
def _named(path: str, changed: int) -> Program:
    return Program([path])


def find(program: str | os.PathLike[str] | Sequence[str] | Program | None = None) -> Program:
    """The program of this path or these words; else that of the environment's BKD, of the package, or of the checkout.

    It is looked for once, and asked once for its commands. Raises `NotFound`.
    """
    if isinstance(program, Program):
        return program
    if program is None:
        return _usual(os.environ.get("BKD"))
    if isinstance(program, (str, os.PathLike)):
        path = os.path.abspath(os.fspath(program))
        if not os.path.isfile(path):
            raise NotFound(f"no program {path}")
        return _named(path, os.stat(path).st_mtime_ns)
    return Program(program)
