"""What is kept of a call over the pipes, so that one that was interrupted can be brought to its end."""
from __future__ import annotations

from collections.abc import Callable, Mapping

# a line that every program refuses, with its number
MARKER = b"?\n"
# more than the answer to it has
_ANSWER = 256


class Silence:
    """A talk without lines, and what other talks do where nothing is to be done."""

    __slots__ = ("inbox",)

    def __init__(self) -> None:
        self.inbox: list[bytes] = []

    def begin(self, first: int) -> None:
        """The number of its first line is of no use."""

    def piece(self) -> tuple[bytes, int]:
        return b"", 0

    def look(self) -> int:
        return 0

    def line(self, place: int) -> str | None:
        return None

    def cut(self, last: int) -> None:
        """Nobody looks at what was interrupted."""

    def explain(self, notes: Callable[[], Mapping[int, str]]) -> None:
        """Nothing is refused that somebody looks at."""


class Sending(Silence):
    """What is sent: a piece, how much of it is written, and the number of its last line. Of a single line it is the
    talk too, until more than one read is needed."""

    __slots__ = ("last", "text", "written")

    def __init__(self, text: bytes, last: int) -> None:
        self.text = text
        self.last = last
        self.written: list[int] = []
        self.inbox = []

    def rest(self) -> bytes | memoryview:
        done = sum(self.written)
        return memoryview(self.text)[done:] if done < len(self.text) else b""


def ends_with(inbox: list[bytes], begin: bytes) -> bool:
    """Whether the last line of what came in begins so, and is whole."""
    text = b""
    for data in reversed(inbox):
        text = data + text
        if len(text) >= _ANSWER:
            break
    return text.endswith(b"\n") and text[:-1].rpartition(b"\n")[2].startswith(begin)
