"""The live file of a segment: which of its numbers are live."""
from __future__ import annotations

from collections.abc import Iterator
from dataclasses import dataclass

from .cursor import Cursor, Malformed
from .pages import FileName, PagedFile, pages_for

_GREATEST = 1 << 24


@dataclass(frozen=True, slots=True)
class Live:
    """Number base + i is live where bit i mod 8 of byte i // 8 is 1; `count` of the `span` numbers are."""

    base: int
    span: int
    count: int
    bits: bytes

    def __contains__(self, number: int) -> bool:
        at = number - self.base
        return 0 <= at < self.span and bool(self.bits[at >> 3] >> (at & 7) & 1)

    def __iter__(self) -> Iterator[int]:
        """The live numbers, ascending."""
        for at, byte in enumerate(self.bits):
            if byte:
                first = self.base + 8 * at
                yield from (first + bit for bit in range(8) if byte >> bit & 1)


def _front(payload: bytes, segment: int, generation: int) -> tuple[int, int, int]:
    """Base, span and count, where the fixed fields are in their ranges."""
    cursor = Cursor(payload)
    if cursor.take(8) != b"BKDPLIV1" or cursor.number(8) != segment or cursor.number(8) != generation:
        raise Malformed("not this live file")
    base, span, count = cursor.number(4), cursor.number(4), cursor.number(4)
    if base + span > _GREATEST:
        raise Malformed("span")
    return base, span, count


def parse_live(segment: int, generation: int, body: bytes) -> Live:
    """The live numbers that a whole body spells; `Malformed` where it spells none."""
    base, span, count = _front(body, segment, generation)
    bits = body[36:]
    if len(bits) != (span + 7) // 8 or (span % 8 and bits[-1] >> span % 8):
        raise Malformed("bits")
    if int.from_bytes(bits, "big").bit_count() != count:
        raise Malformed("count")
    return Live(base, span, count, bits)


def read_live(folder: str, segment: int, generation: int) -> Live:
    """The live file of a segment. Raises `Damaged`."""
    with PagedFile(folder, FileName.live(segment, generation)) as file:
        first = file.payload(0)
        try:
            _, span, _ = _front(first, segment, generation)
        except Malformed:
            raise file.not_in_grammar() from None
        length = 36 + (span + 7) // 8
        file.need_pages(pages_for(length))
        body = file.body(length, first)
        try:
            if body is not None:
                return parse_live(segment, generation, body)
        except Malformed:
            pass
        raise file.not_in_grammar()
