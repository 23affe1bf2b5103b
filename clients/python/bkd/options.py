"""The options of calls, checked before anything is started: what is wrong raises TypeError or ValueError."""
from __future__ import annotations

import math
import operator
from typing import SupportsIndex

# seconds that others are waited for where nothing is said, as long as sqlite3's `timeout`
WAIT = 5.0
MOST_CACHE = 65_536
MOST_FORKS = 6
MOST_DIMS = 8
MOST_WAIT = 3_600
MOST_LEAF = 500
_LEAF_BYTES = 4_000


def whole(name: str, value: SupportsIndex, least: int, most: int) -> int:
    """A whole number from `least` to `most`; `name` is what the error calls it."""
    try:
        number = operator.index(value)
    except TypeError:
        raise TypeError(f"{name} is a whole number, not {value!r}") from None
    if isinstance(value, bool) or not least <= number <= most:
        raise ValueError(f"{name} is {least:,} to {most:,}, not {value!r}")
    return number


def cache(value: SupportsIndex) -> int:
    """How many pages are kept."""
    return whole("cache", value, 1, MOST_CACHE)


def forks(value: SupportsIndex) -> int:
    """How many levels of a build or a batch run in two threads each."""
    return whole("forks", value, 0, MOST_FORKS)


def dims(value: SupportsIndex, most: int = MOST_DIMS) -> int:
    """How many dimensions an index has."""
    return whole("dims", value, 1, most)


def leaf(value: SupportsIndex, dimensions: int) -> int:
    """How many entries a leaf holds at most, in an index of so many dimensions."""
    return whole(f"leaf of {dimensions} dimensions", value, 2, _LEAF_BYTES // (4 + 4 * dimensions))


def timeout(value: float | None) -> float | None:
    """For how many seconds the program may stand still; None for ever."""
    if value is not None and not value > 0:
        raise ValueError(f"timeout is a number of seconds above 0, or None, not {value!r}")
    return value


def wait(value: float) -> float:
    """For how many seconds a folder is waited for that another run holds."""
    if not 0 <= value <= MOST_WAIT:
        raise ValueError(f"wait is 0 to {MOST_WAIT:,} seconds, not {value!r}")
    return value


def waiting(value: float) -> list[str]:
    """The words by which the program waits for so many seconds."""
    return ["--wait", str(math.ceil(wait(value)))]


def columns(names: object) -> str:
    """The names of 1 to 8 columns as the program's option has them."""
    if isinstance(names, (str, bytes)):
        raise TypeError(f"columns is a sequence of names, not the text {names!r}")
    found = list(names)  # type: ignore[call-overload]
    if not 1 <= len(found) <= MOST_DIMS:
        raise ValueError(f"columns has 1 to {MOST_DIMS} names, not {len(found)}")
    for name in found:
        if not isinstance(name, str):
            raise TypeError(f"a column's name is a text, not {name!r}")
        if not name or "," in name or "\0" in name:
            raise ValueError(f"no name that the program can be told: {name!r}")
    return ",".join(found)
