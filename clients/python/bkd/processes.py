"""Processes over pipes: how they are started, what guards them, and how they end."""
from __future__ import annotations

import contextlib
import os
import select
import subprocess
import warnings
from collections.abc import Iterator, Sequence
from typing import IO, Any

from .lock import Held

# ends the program where its own input ends, which it does when the caller is gone
_GUARD = 'read -r _; kill -KILL "$0"'
_SHELL = "/bin/sh"


def environment() -> dict[str, str]:
    """The environment of a program: it notes its reasons."""
    return os.environ | {"BKD_NOTES": "1"}


def started(words: Sequence[str], held: Held | None = None, **pipes: Any) -> subprocess.Popen[bytes]:
    """A process in a group of its own. Where its folder is held for it, it takes no lock, and inherits the one."""
    if held is not None:
        words = [*words, "--no-lock"]
    passed = () if held is None or held.descriptor is None else (held.descriptor,)
    return subprocess.Popen(words, bufsize=0, process_group=0, pass_fds=passed, env=environment(), **pipes)


def fileno(stream: IO[bytes] | None) -> int:
    """The descriptor of a pipe that was asked for."""
    assert stream is not None
    return stream.fileno()


def streams(process: subprocess.Popen[bytes]) -> Iterator[IO[bytes] | None]:
    """The pipes of a process: its input, its output, its standard error."""
    return iter((process.stdin, process.stdout, process.stderr))


def close(stream: IO[bytes] | None) -> None:
    """Closes a pipe, if there is one; that nobody reads from it any more is no matter."""
    if stream is not None:
        with contextlib.suppress(OSError):
            stream.close()


def guard_of(process: subprocess.Popen[bytes]) -> subprocess.Popen[bytes]:
    """A process that holds the program's input open, and kills the program where its own input ends."""
    kept = fileno(process.stdin)
    return subprocess.Popen([_SHELL, "-c", _GUARD, str(process.pid)], bufsize=0, process_group=0, pass_fds=(kept,),
                            stdin=subprocess.PIPE, stdout=subprocess.DEVNULL, stderr=subprocess.DEVNULL)


def left_open(owner: int, *processes: subprocess.Popen[bytes] | None) -> None:
    """Ends a program, and then its guard, that nobody closed; what wasn't committed is gone."""
    if os.getpid() != owner:
        return
    for process in processes:
        if process is not None:
            process.kill()
            process.wait()
            for stream in streams(process):
                close(stream)
    warnings.warn("an index wasn't closed: what it hadn't committed is gone", ResourceWarning, stacklevel=2)


def polled(*out: int, into: int | None = None) -> select.poll:
    """What waits until some descriptors can be read, or one written."""
    poll = select.poll()
    for descriptor in out:
        poll.register(descriptor, select.POLLIN)
    if into is not None:
        poll.register(into, select.POLLOUT)
    return poll
