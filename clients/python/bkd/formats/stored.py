"""What a folder holds: the commit, its segments and live files, and the documents that they hold together."""
from __future__ import annotations

import os
from collections import Counter
from collections.abc import Iterator
from dataclasses import dataclass

from ..damage import Damage
from ..errors import Damaged, NoIndex
from .commit import Commit, Listed, read_commit
from .leaf import Leaf
from .live import Live, read_live
from .pages import COMMIT_FILE, FileName
from .segment import Segment, open_segment

_MOST_POINTS = 16


@dataclass(frozen=True, slots=True)
class Part:
    """A listed segment with its live numbers."""

    listed: Listed
    segment: Segment
    live: Live

    @property
    def live_name(self) -> str:
        return FileName.live(self.listed.segment, self.listed.generation).text


@dataclass(frozen=True, slots=True)
class Stored:
    """An index as its files have it, opened: no leaf has been read yet."""

    folder: str
    commit: Commit
    parts: tuple[Part, ...]

    def files(self) -> frozenset[str]:
        """The names of the files that the commit needs, its own among them."""
        segments = (FileName.segment(one.segment).text for one in self.commit.listed)
        lives = (FileName.live(one.segment, one.generation).text for one in self.commit.listed)
        return frozenset((COMMIT_FILE.text, *segments, *lives))

    def entries(self) -> Iterator[tuple[int, Leaf, list[int]]]:
        """Each leaf with the place of its part and the places of its live entries in the leaf. Raises `Damaged`."""
        for at, part in enumerate(self.parts):
            for leaf in part.segment.leaves():
                yield at, leaf, [i for i, number in enumerate(leaf.numbers) if number in part.live]

    def check(self) -> None:
        """Reads all that the commit needs, and raises the first `Damaged` in the order of the program's `check`."""
        self._check_numbers()
        found = [Counter[int]() for _ in self.parts]
        for at, leaf, places in self.entries():
            found[at].update(leaf.numbers[i] for i in places)
        for part, counts in zip(self.parts, found):
            if len(counts) != part.listed.live:
                raise Damaged(Damage("unequal", part.live_name, said=part.listed.live, found=len(counts)))
        crowded = {number for counts in found for number, count in counts.items() if count > _MOST_POINTS}
        crowded |= self._with_equal_points({number for counts in found for number, count in counts.items()
                                            if count > 1})
        if crowded:
            raise Damaged(Damage("doubled", document=min(crowded)))
        total = sum(counts.total() for counts in found)
        if total > self.commit.given:
            raise Damaged(Damage("unequal", COMMIT_FILE.text, said=self.commit.given, found=total))

    def _check_numbers(self) -> None:
        """Each live number is below the next one, and live in one segment."""
        seen = bytearray(self.commit.next)
        least: Damage | None = None
        for part in self.parts:
            for number in part.live:
                if least is not None and least.document is not None and number >= least.document:
                    break
                if number >= self.commit.next:
                    least = Damage("beyond", document=number, next=self.commit.next)
                elif seen[number]:
                    least = Damage("doubled", document=number)
                else:
                    seen[number] = 1
        if least is not None:
            raise Damaged(least)

    def _with_equal_points(self, numbers: set[int]) -> set[int]:
        """Those of these documents that have a point twice."""
        points: set[tuple[int, ...]] = set()
        found = set()
        for _, leaf, places in self.entries() if numbers else ():
            for i in places:
                if leaf.numbers[i] in numbers:
                    point = (leaf.numbers[i], *(column[i] for column in leaf.columns))
                    if point in points:
                        found.add(point[0])
                    points.add(point)
        return found


def open_stored(folder: str | os.PathLike[str]) -> Stored:
    """Opens all that the commit lists, leaf pages unread. Raises `NoIndex` where there is no commit, and `Damaged`."""
    path = os.fspath(folder)
    commit = read_commit(path)
    if commit is None:
        raise NoIndex(f"{path} holds no index")
    return Stored(path, commit, tuple(_part(path, commit, listed) for listed in commit.listed))


def _part(path: str, commit: Commit, listed: Listed) -> Part:
    segment = open_segment(path, listed, commit)
    live = read_live(path, listed.segment, listed.generation)
    if live.count != listed.live:
        name = FileName.live(listed.segment, listed.generation).text
        raise Damaged(Damage("unequal", name, said=listed.live, found=live.count))
    return Part(listed, segment, live)
