"""Coast lines, from a package that is installed beside the client and has them; nothing is fetched."""
from __future__ import annotations

import functools
import importlib.util
import struct
from collections import Counter
from collections.abc import Iterator
from pathlib import Path
from typing import Any

# the package that has them, by Debian's name and by Python's, and its file; whose they are
PACKAGE, _MODULE = "python3-geopandas", "geopandas"
_FILE = Path("datasets", "naturalearth_lowres", "naturalearth_lowres.shp")
_SOURCE = "Natural Earth, 1:110 million"
_POLYGON = 5
Place = tuple[float, float]


def told(file: Path | None = None) -> dict[str, Any]:
    """The lines as the page gets them: of each its longitudes and latitudes in turn, in degrees. Where there are none,
    `lacks` says why."""
    file = file or _found()
    if file is None:
        return {"lines": [], "lacks": f"the package {PACKAGE}, which has them, is not installed"}
    try:
        return {"lines": _lines(file), "source": f"{_SOURCE}, from the package {PACKAGE}"}
    except OSError as error:
        return {"lines": [], "lacks": f"the package {PACKAGE} is installed without them: {error.strerror}"}
    except (struct.error, ValueError):
        return {"lines": [], "lacks": f"{file.name} of the package {PACKAGE} can't be read"}


def _found() -> Path | None:
    """Where the package has its file. The package isn't imported: that would take a second."""
    spec = importlib.util.find_spec(_MODULE)
    places = spec.submodule_search_locations if spec else None
    return Path(next(iter(places)), _FILE) if places else None


@functools.cache
def _lines(file: Path) -> list[list[float]]:
    """Borders between two lands are in both rings, so the edges that only one ring has are coasts."""
    rings = list(_rings(file.read_bytes()))
    seen = Counter(_edge(*edge) for ring in rings for edge in zip(ring, ring[1:]))
    lines: list[list[float]] = []
    for ring in rings:
        is_open = False
        for begin, end in zip(ring, ring[1:]):
            if seen[_edge(begin, end)] > 1 or _is_of_the_map(begin, end):
                is_open = False
                continue
            if not is_open:
                lines.append([round(c, 2) for c in begin])
            lines[-1] += [round(c, 2) for c in end]
            is_open = True
    return lines


def _edge(begin: Place, end: Place) -> tuple[Place, Place]:
    return min(begin, end), max(begin, end)


def _is_of_the_map(begin: Place, end: Place) -> bool:
    """Whether an edge is where the map is cut, along the date line or the south pole."""
    (x, y), (x2, y2) = begin, end
    return abs(x) == abs(x2) == 180 or max(y, y2) <= -89.9


def _rings(data: bytes) -> Iterator[list[Place]]:
    """The rings of a shape file's polygons."""
    if len(data) < 100 or data[:4] != b"\x00\x00\x27\x0a":
        raise ValueError("no shape file")
    at = 100
    while at < len(data):
        _, words, kind = struct.unpack_from(">ii", data, at) + struct.unpack_from("<i", data, at + 8)
        if kind == _POLYGON:
            parts, points = struct.unpack_from("<ii", data, at + 44)
            begins = struct.unpack_from(f"<{parts}i", data, at + 52)
            places = list(struct.iter_unpack("<dd", data[at + 52 + 4 * parts:at + 52 + 4 * parts + 16 * points]))
            if len(places) != points or words < 1:
                raise ValueError("the shape file ends early")
            for begin, end in zip(begins, (*begins[1:], points)):
                yield [(x, y) for x, y in places[begin:end]]
        at += 8 + 2 * max(words, 1)
