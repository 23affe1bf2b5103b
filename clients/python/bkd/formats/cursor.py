"""Numbers in bytes: greatest byte first, and vints."""
from __future__ import annotations


class Malformed(Exception):
    """Bytes that are not in their grammar."""


class Cursor:
    """Reads bytes from the front. What isn't there, or is spelled in another way, raises `Malformed`."""

    def __init__(self, data: bytes, at: int = 0) -> None:
        self.data = data
        self.at = at

    def take(self, count: int) -> bytes:
        """The next bytes."""
        if self.at + count > len(self.data):
            raise Malformed(f"ends at byte {len(self.data)}")
        self.at += count
        return self.data[self.at - count:self.at]

    def number(self, width: int) -> int:
        """A number of so many bytes."""
        return int.from_bytes(self.take(width), "big")

    def vint(self) -> int:
        """A number below 2^32 in groups of seven bits, the least first, in its only spelling."""
        value = 0
        for place in range(5):
            byte = self.number(1)
            value |= (byte & 127) << 7 * place
            if byte < 128:
                if (byte == 0 and place > 0) or value >= 1 << 32:
                    break
                return value
        raise Malformed(f"no vint before byte {self.at}")

    def end(self) -> None:
        """Nothing is left."""
        if self.at != len(self.data):
            raise Malformed(f"goes on at byte {self.at}")


def key(coordinate: int) -> bytes:
    """A coordinate's sortable key."""
    return (coordinate + (1 << 31)).to_bytes(4, "big")


def coordinate(key_bytes: bytes) -> int:
    """The coordinate of a sortable key."""
    return int.from_bytes(key_bytes, "big") - (1 << 31)
