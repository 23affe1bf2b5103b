"""A program over three pipes. Nothing waits on one pipe alone, so full pipes block neither side.

The program is in a process group of its own, so that an interrupt is the caller's alone; a guard ends it where the
caller is killed, so that it commits nothing by itself.
"""
from __future__ import annotations

import contextlib
import fcntl
import os
import subprocess
import weakref
from collections.abc import Sequence

from .errors import Error, Hung, notes_on
from .processes import close, fileno, guard_of, left_open, polled, started, streams
from .sending import Sending
from .talk import Talk

# (a larger buffer is mapped and unmapped for each read, which takes longer than the reading)
READ = 1 << 16
_PIPE = 1 << 20
_KEPT = 1 << 16


class Pipes:
    """A running program, its pipes and its end.

    `timeout` is for how many seconds it may take and give nothing while it is waited for, None for ever. With `guarded`
    it is killed when this process ends without closing it. `done` counts the lines that are done, `last` is the last of
    them.
    """

    def __init__(self, words: Sequence[str], timeout: float | None, guarded: bool = False) -> None:
        pipe = subprocess.PIPE
        self._process = started(words, stdin=pipe, stdout=pipe, stderr=pipe)
        self._guard = guard_of(self._process) if guarded else None
        self._in, self._out, self._err = map(fileno, streams(self._process))
        for descriptor in (self._in, self._out):
            with contextlib.suppress(OSError):  # a machine allows a user so many pages of pipes
                fcntl.fcntl(descriptor, fcntl.F_SETPIPE_SZ, _PIPE)
        os.set_blocking(self._in, False)
        self.allow(timeout)
        self._said = b""
        self._sending = Sending(b"", 0)
        self._is_fed = True
        self._is_over = False
        self._answer, self._answers = polled(self._out), polled(self._out, self._err)
        self._both = polled(self._out, self._err, into=self._in)
        self.done = 0
        self.last: str | None = None
        self._end = weakref.finalize(self, left_open, os.getpid(), self._process, self._guard)

    def allow(self, timeout: float | None) -> None:
        """From here on it may stand still for so many seconds."""
        self._timeout = timeout
        self._milliseconds = None if timeout is None else timeout * 1000

    @property
    def lines(self) -> int:
        """How many lines were sent."""
        return self._sending.last

    @property
    def is_open(self) -> bool:
        """Whether lines can be sent."""
        return not self._is_over

    @property
    def pid(self) -> int:
        """The program's process id."""
        return self._process.pid

    @property
    def said(self) -> str:
        """The end of what the program wrote on standard error."""
        return self._said.decode(errors="replace")

    def notes(self) -> dict[int, str]:
        """What the program noted of lines that it refused, by their numbers, as far as the end of what it said has
        them. It notes before it answers, so all that is answered is in it."""
        poll = polled(self._err)
        while not self._is_over and poll.poll(0) and (data := os.read(self._err, READ)):
            self._said = (self._said + data)[-_KEPT:]
        return notes_on(self.said)

    # ---- what goes over them

    def _send(self) -> bool:
        """Writes what the pipe takes of the piece; answers whether some is left."""
        sending = self._sending
        while self._is_fed and (rest := sending.rest()):
            try:
                sending.written.extend(map(os.write, (self._in,), (rest,)))
            except BlockingIOError:
                return True
            except BrokenPipeError:  # the program has ended, and its status says why
                self._is_fed = False
        return False

    def _receive(self, talk: Talk, to_send: bool = False) -> bool:
        """Waits until something can be read, or written where that is wanted, and reads. False at the end."""
        poll = self._both if to_send else self._answers
        ready = poll.poll(self._milliseconds)
        if not ready:
            raise self.hung()
        for descriptor, _ in ready:
            if descriptor == self._out:
                inbox = talk.inbox
                inbox.extend(map(os.read, (self._out,), (READ,)))
                if not inbox[-1]:
                    return False
            elif descriptor == self._err:
                self._listen()
        return True

    def _listen(self) -> None:
        data = os.read(self._err, READ)
        self._said = (self._said + data)[-_KEPT:]
        if not data:
            for poll in {self._answers, self._both}:
                poll.unregister(self._err)

    def hung(self) -> Error:
        return Hung(f"the program neither took nor gave anything for {self._timeout} seconds", self.done, self.last)

    def _wait(self) -> int:
        """The exit status, when the program has ended and all that it said is read."""
        try:
            status = self._process.wait(self._timeout)
        except subprocess.TimeoutExpired:
            raise self.hung() from None
        os.set_blocking(self._err, False)
        with contextlib.suppress(BlockingIOError):
            while data := os.read(self._err, READ):
                self._said = (self._said + data)[-_KEPT:]
        return status

    # ---- ends

    def _end_input(self) -> None:
        self._is_fed = False
        self._both = self._answers
        close(self._process.stdin)

    def _end_guard(self) -> None:
        """Ends the guard, and with it its own end of the program's input."""
        if self._guard is not None:
            self._guard.kill()
            self._guard.wait()
            close(self._guard.stdin)

    def _reap(self) -> None:
        """Ends what still runs and closes the pipes; the program is over then."""
        self._is_over = True
        self._end.detach()
        self._end_guard()
        self._process.kill()
        self._process.wait()
        for stream in streams(self._process):
            close(stream)

    def let_go(self) -> None:
        """In a process that comes of a fork: lets go of what is the other's, which still uses it."""
        self._is_over = True
        self._end.detach()
        for process in (self._process, self._guard):
            if process is not None:
                process.returncode = 0  # it is no child of this process
                for stream in streams(process):
                    close(stream)
