"""What is damaged in a folder, and how the program says it.

The program and `bkd.formats` tell a damage in the same words, so one class reads and writes them.
"""
from __future__ import annotations

import re
from dataclasses import dataclass, fields
from typing import Any

_FORMS = (
    ("leaf", "{file} page {page} leaf at {offset}"),
    ("page", "{file} page {page}"),
    ("body", "{file} body"),
    ("missing", "{file} missing"),
    ("size", "{file} has {size} bytes, needs {needed}"),
    ("unequal", "{file} says {said}, found {found}"),
    ("beyond", "document {document} beyond {next}"),
    ("doubled", "document {document} twice"),
)
_FILE = r"(?P<file>commit\.bkd|commit\.new|seg-[0-9a-f]{16}\.bkd|live-[0-9a-f]{16}-[0-9a-f]{16}\.bkd)"


def _pattern(form: str) -> re.Pattern[str]:
    parts = (part if i % 2 == 0 else (_FILE if part == "file" else rf"(?P<{part}>[0-9]+)")
             for i, part in enumerate(re.split(r"\{(\w+)\}", form)))
    return re.compile("".join(parts))


_PATTERNS = tuple((kind, _pattern(form)) for kind, form in _FORMS)


@dataclass(frozen=True)
class Damage:
    """A damage of a folder's files.

    `kind` is one of
    - `page`: the bytes of `page` of `file` are no page for that place;
    - `leaf`: the leaf at byte `offset` of that page spells no entries of its count and cell;
    - `body`: what `file` holds is not in its grammar;
    - `missing`: the commit lists `file`, and it isn't there;
    - `size`: `file` has `size` bytes and needs `needed`;
    - `unequal`: two numbers that must agree are `said` and `found`;
    - `beyond`: the number `document` is live and not below `next`;
    - `doubled`: `document` is live in two segments, has a point twice, or more than 16 points.
    What a kind doesn't speak of is None.
    """

    kind: str
    file: str | None = None
    page: int | None = None
    offset: int | None = None
    size: int | None = None
    needed: int | None = None
    said: int | None = None
    found: int | None = None
    document: int | None = None
    next: int | None = None

    @classmethod
    def read(cls, text: str) -> Damage | None:
        """The damage that this text tells, or None where it tells none."""
        for kind, pattern in _PATTERNS:
            if match := pattern.fullmatch(text):
                found: dict[str, Any] = {name: value if name == "file" else int(value)
                                         for name, value in match.groupdict().items()}
                return cls(kind, **found)
        return None

    def __str__(self) -> str:
        values = {field.name: getattr(self, field.name) for field in fields(self)}
        return dict(_FORMS)[self.kind].format(**values)
