"""Lines as they are typed at a terminal, and their answers, shown as they come and by pages."""
from __future__ import annotations

import os
import re
import shutil
import sys
from collections.abc import Callable
from typing import IO

from .sending import Silence
from .talk import sent

_ROWS = re.compile(rb"(hits|near|points|ranges|buckets) ([0-9]+)")
# what is longer isn't shown in full
_WIDEST = 1 << 16


class Typed(Silence):
    """A talk of one line as it was typed, whose answer is shown line by line as it comes."""

    def __init__(self, text: str, show: Callable[[bytes], None]) -> None:
        super().__init__()
        self.head = b""
        self._text = sent(text)
        self._show = show
        self._left: int | None = None

    def piece(self) -> tuple[bytes, int]:
        text, self._text = self._text, b""
        return text, 1 if text else 0

    def look(self) -> int:
        lines = b"".join(self.inbox).split(b"\n")
        self.inbox[:] = [lines.pop()]
        for line in lines:
            if self._left is None:
                self.head = line
                rows = _ROWS.fullmatch(line)
                self._left = int(rows[2]) if rows else 0
            else:
                self._left -= 1
            self._show(line)
        return int(self._left == 0)


class Enough(BaseException):
    """The rest of an answer isn't wanted."""


class Pager:
    """Shows lines, on a terminal by pages."""

    def __init__(self, out: IO[str]) -> None:
        self._out = out
        self._pages = sys.stdin.isatty() and out.isatty()
        self._shown = 0

    def begin(self) -> None:
        """Begins another answer."""
        self._shown = 0

    def show(self, line: bytes) -> None:
        if self._pages and self._shown >= max(2, shutil.get_terminal_size().lines - 1):
            self._out.write("-- more: space, or q to stop --")
            self._out.flush()
            pressed = key()
            self._out.write("\r\033[K")
            if pressed in "qQ":
                raise Enough
            self._shown = 0
        self._out.write(line[:_WIDEST].decode(errors="replace") + "\n")
        self._shown += 1


def key() -> str:
    """One key of the terminal."""
    import termios
    import tty
    descriptor = sys.stdin.fileno()
    before = termios.tcgetattr(descriptor)
    try:
        tty.setcbreak(descriptor, termios.TCSANOW)  # (what was typed already stays)
        return os.read(descriptor, 1).decode(errors="replace") or "q"
    finally:
        termios.tcsetattr(descriptor, termios.TCSADRAIN, before)
