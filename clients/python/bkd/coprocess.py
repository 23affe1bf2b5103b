"""A program that stays and is called, by any thread, whatever interrupts a call.

Nothing that was sent or read is forgotten where an exception comes at any moment (an interrupt from the keyboard, a
signal's): how much was written, and what was read, is kept by one call of C each, in which Python runs no handler.
The next call first has the interrupted one brought to its end.
"""
from __future__ import annotations

import os
import select
import threading
import time
import weakref
from collections.abc import Callable, Sequence
from threading import get_ident
from typing import Any, TypeVar

from .answers import PART, value_in
from .errors import BadAnswer, Closed, Died, Error, Reentered, fault_of
from .many import Many
from .pipes import READ, Pipes
from .requests import Request
from .sending import MARKER, Sending, Silence, ends_with
from .talk import Asking, Talk

# so many bytes are written whole, or not at all
_ATOMIC = select.PIPE_BUF
# so many pieces of answers are read before they are looked at, while there is more to send
_SOME = 64
# seconds that the program is left alone with a full pipe of lines that have short answers: it has more to do than that,
# and waking for each of its writes takes as long as they do
_PAUSE = 0.001
_T = TypeVar("_T")


class Coprocess(Pipes):
    """A running program that is called. Any thread may; each call is done whole before the next."""

    def __init__(self, words: Sequence[str], timeout: float | None, guarded: bool = False) -> None:
        super().__init__(words, timeout, guarded)
        self._lock = threading.Lock()
        self._owner = 0
        self._unsettled: Talk | None = None
        _running.add(self)

    # ---- calls

    def _whole(self, work: Callable[..., _T], *words: Any) -> _T:
        """Does one call while no other thread does; what an interrupted call left undone is brought to its end first.

        After an error of this package the program is over.
        """
        if self._owner == get_ident():
            raise Reentered("the index is in the middle of a call, which this one would cut in two")
        with self._lock:
            if self._is_over or not (self._is_fed or work == self._close):
                raise Closed("the index was closed, its program has ended, or it was opened before a fork")
            self._owner = get_ident()
            try:
                if self._unsettled is not None and self._is_fed:
                    self._settle(self._unsettled)
                return work(*words)
            except Error:
                self._reap()
                raise
            finally:
                self._owner = 0

    def exchange(self, talk: Talk) -> None:
        """Sends all that the talk has, and gives it what the program writes, until every line is answered.

        Where the program ends before all is answered the error of its status is raised, and it is over. An exception
        of the talk's own pieces is raised when the lines before it are answered. After any other one, as of an
        interrupt, the next call first brings this one to its end.
        """
        stopped_by = self._whole(self._exchange, talk)
        if stopped_by is not None:
            raise stopped_by

    def single(self, request: Request) -> Any:
        """The value of one request, or its `Refused`: as an exchange of it alone, and quicker."""
        text = request.line.encode() + b"\n"
        if len(text) <= _ATOMIC:
            return self._whole(self._single, request, text)
        talk = Asking((request,))
        self.exchange(talk)
        return talk.values[0]

    def settle(self) -> None:
        """Brings an interrupted call to its end; every line that was sent is answered then."""
        self._whole(lambda: None)

    def hello(self) -> None:
        """Waits until the program has read a line; raises what keeps it from that."""
        self._whole(self._settle, Silence())

    def close(self) -> None:
        """Closes the input, waits for the program to end, and raises the error of its status, if any."""
        self._whole(self._close)

    def kill(self) -> None:
        """Ends the program at once where it still runs, reaps it, and closes its pipes."""
        if self._is_over:
            return
        self._process.kill()
        if self._lock.locked() and self._owner == get_ident():
            return  # the call that this one comes in the middle of sees that the program has ended
        with self._lock:
            self._reap()

    # ---- what calls are made of

    def _exchange(self, talk: Talk) -> Exception | None:
        """Sends and receives; answers the exception of the talk's pieces, if there was one."""
        first = self._sending.last
        talk.begin(first + 1)
        self._unsettled = talk
        stopped_by, is_more = None, True
        while True:
            if is_more and not self._sending.rest():
                try:
                    text, count = talk.piece()
                except Exception as error:  # of the caller's own iterable: what was sent is answered first
                    stopped_by, text, count = error, b"", 0
                is_more = bool(text)
                if is_more:
                    self._sending = Sending(text, self._sending.last + count)
            is_blocked = self._send()
            if is_more and not is_blocked and self._is_fed:
                continue
            if is_blocked and isinstance(talk, Many):
                time.sleep(_PAUSE)
            is_looking = not is_blocked or len(talk.inbox) > _SOME
            if is_looking and talk.look() == self._sending.last - first and not is_more:
                break
            if not self._receive(talk, is_blocked):
                raise self._ended(talk, first)
        self._note(talk, self._sending.last - first)
        self._unsettled = None
        talk.explain(self.notes)
        return stopped_by

    def _single(self, request: Request, text: bytes) -> Any:
        """Writes a line at once, which the pipe has room for, since all before it are answered."""
        first = self._sending.last
        sending = self._sending = self._unsettled = Sending(text, first + 1)
        inbox = sending.inbox
        value = PART
        try:
            sending.written.extend(map(os.write, (self._in,), (text,)))
            if self._answer.poll(self._milliseconds):
                inbox.extend(map(os.read, (self._out,), (READ,)))
                value = value_in(request.answer, inbox[0])
        except BrokenPipeError:
            self._is_fed = False
        if value is PART:
            value = self._rest_of(request, inbox, first)
        self.last = request.line
        self.done += 1
        self._unsettled = None
        return value

    def _rest_of(self, request: Request, inbox: list[bytes], first: int) -> Any:
        """The value of a request that was sent, of whose answer this came in so far."""
        talk = Asking((request,), first + 1)
        talk.piece()
        talk.inbox = inbox
        while talk.look() == 0:
            self._unsettled = talk
            if (inbox and not inbox[-1]) or not self._receive(talk):
                raise self._ended(talk, first)
        talk.explain(self.notes)
        return talk.values[0]

    def _settle(self, talk: Talk) -> None:
        """Behind an interrupted call: sends the rest of its piece and a marker, and reads until that is answered."""
        self._unsettled = talk
        talk.cut(self._sending.last)
        for text, count in ((b"", 0), (MARKER, 1)):
            if count:
                self._sending = Sending(text, self._sending.last + count)
            while self._send():
                self._receive_or_end(talk, True)
        while not ends_with(talk.inbox, b"line %d: " % self._sending.last):
            self._receive_or_end(talk)
        self.done = self._sending.last
        self._unsettled = None

    def _receive_or_end(self, talk: Talk, to_send: bool = False) -> None:
        if not self._receive(talk, to_send):
            raise self._ended(Silence(), self._sending.last - 1)

    def _close(self) -> None:
        self._end_guard()
        self._end_input()
        silence = Silence()
        while self._receive(silence):
            pass
        if self._wait() not in (0, 2):
            raise fault_of(self._wait(), self.said, self.done, self.last)
        if any(silence.inbox):
            raise BadAnswer(f"wrote {b''.join(silence.inbox)[:100]!r} without being asked")
        self._reap()

    def _note(self, talk: Talk, done: int) -> None:
        """Remembers how many lines are done, and the last of them."""
        if done and (line := talk.line(done - 1)) is not None:
            self.last = line
        self.done += done

    def _ended(self, talk: Talk, first: int) -> Error:
        """The error of a program that ended before all lines from the first on were answered."""
        status = self._wait()
        done = talk.look()
        self._note(talk, done)
        if status in (0, 2):
            left = self._sending.last - first - done
            return Died(f"the program ended and left {left} lines unanswered", self.done, self.last)
        return fault_of(status, self.said, self.done, self.last)

    def forked(self) -> None:
        """In a process that comes of a fork, where another thread may have had the turn."""
        self._lock = threading.Lock()
        self.let_go()


_running: weakref.WeakSet[Coprocess] = weakref.WeakSet()


def _after_fork() -> None:
    for one in list(_running):
        one.forked()
    _running.clear()


os.register_at_fork(after_in_child=_after_fork)
