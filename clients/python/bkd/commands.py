"""The program's commands that run once over a folder.

Each takes `program` as `bkd.open` does. The program holds the folder meanwhile, and `Locked` is raised where it can't;
`held` says that it is held for it. A command that the program doesn't list raises `Unsupported`. `timeout` is for how
many seconds the program may run, or, where it reads lines, take and give nothing, before it is killed and `Hung`
raised; None for ever.
"""
from __future__ import annotations

import os
import re
from collections.abc import Iterable, Sequence
from dataclasses import dataclass
from typing import IO, Any

from . import kept, lock, options
from .answers import BUCKETS, HITS, NEAR, POINTS, TESTED, TOUCHED, Answer
from .errors import BadAnswer, NoIndex, Refused
from .formats.commit import Commit, read_commit
from .formats.pages import COMMIT_FILE, FileName
from .lock import Held
from .program import Program, find
from .requests import Point, Request, coordinates
from .talk import Asking

Folder = str | os.PathLike[str]
Which = str | os.PathLike[str] | Sequence[str] | Program | None
_EXPLAINED: dict[bytes, Answer] = {HITS.word: TESTED, NEAR.word: TOUCHED}


@dataclass(frozen=True, slots=True)
class Checked:
    """What a folder holds whose files are whole: dimensions, leaf size, next number, live documents, segments."""

    dims: int
    leaf: int
    next: int
    live: int
    segments: int


def load(folder: Folder, columns: Sequence[str], table: bytes | str | IO[bytes], forks: int = 1, *,
         wait: float = options.WAIT, program: Which = None, timeout: float | None = None) -> tuple[int, int]:
    """Adds a document for each record of a CSV table, its points the columns of these 1 to 8 names, and commits.

    Answers how many were loaded and the next number. All of the table is loaded, or nothing is and `Refused` says why.
    `table` is its text, or a file that the program then reads by itself, from where the file stands. The folder is made
    where it isn't there. Others that have it are waited for `wait` seconds.
    """
    words = ["load", "--columns", options.columns(columns), "--forks", str(options.forks(forks))]
    words += options.waiting(wait)
    os.makedirs(folder, exist_ok=True)
    lock.need_unopened(os.fspath(folder))
    source = table.encode() if isinstance(table, str) else table
    text = _told(find(program), folder, words, timeout, source)
    found = re.fullmatch(r"loaded (\d+)\nnext (\d+)\n", text)
    if found is None:
        raise BadAnswer(f"load answered {text[:100]!r}")
    return int(found[1]), int(found[2])


def generate(folder: Folder, docs: int, seed: int, forks: int = 1, *, program: Which = None,
             timeout: float | None = None) -> dict[str, int]:
    """Makes an index of drawn documents, and the folder where it isn't there. `Refused` where an index is there.

    Answers `docs`, `live`, `box hits` and `nearest sum`.
    """
    words = ["generate", "--docs", str(docs), "--seed", str(seed), "--forks", str(options.forks(forks))]
    os.makedirs(folder, exist_ok=True)
    text = _told(find(program), folder, words, timeout)
    found = re.fullmatch(r"docs (\d+) live (\d+)\nbox hits (\d+)\nnearest sum (\d+)\n", text)
    if found is None:
        raise BadAnswer(f"generate answered {text[:100]!r}")
    return dict(zip(("docs", "live", "box hits", "nearest sum"), map(int, found.groups())))


def _told(program: Program, folder: Folder, words: Sequence[str], timeout: float | None,
          source: bytes | IO[bytes] = b"", held: Held | None = None) -> str:
    """The text of a command that is refused as a whole or not at all."""
    status, text, cause = program.noted(os.fspath(folder), words, source, options.timeout(timeout), held)
    if status == 2:
        raise Refused(" ".join(words), text.decode().strip(), 1, cause=cause)
    return text.decode()


def check(folder: Folder, *, program: Which = None, timeout: float | None = None,
          held: Held | None = None) -> Checked | None:
    """Reads every page that the folder's commit needs. None where there is no index; `Damaged` where it isn't whole."""
    text = _told(find(program), folder, ["check"], timeout, held=held)
    if text == "no index\n":
        return None
    found = re.fullmatch(r"ok dims (\d+) leaf (\d+) next (\d+) live (\d+) segments (\d+)\n", text)
    if found is None:
        raise BadAnswer(f"check answered {text[:100]!r}")
    return Checked(*map(int, found.groups()))


def removed(folder: Folder, *, program: Which = None, timeout: float | None = None, held: Held | None = None) -> int:
    """Has the program remove the files that the folder's commit doesn't list, and answers how many they were. `NoIndex`
    where there is no commit; `Damaged` where what it lists isn't whole."""
    try:
        text = _told(find(program), folder, ["clean"], timeout, held=held)
    except Refused as refused:
        raise NoIndex(f"{os.fspath(folder)} holds no index") from refused
    found = re.fullmatch(r"removed (\d+) files \d+ bytes\n", text)
    if found is None:
        raise BadAnswer(f"clean answered {text[:100]!r}")
    return int(found.group(1))


@dataclass(frozen=True, slots=True)
class Info:
    """What is stored, as opening it finds: dimensions, leaf size, next number, points given, live documents, segments,
    and the bytes of the files that the commit lists and of the commit itself; and the decimals that this client keeps
    beside it, None of whole numbers."""

    dims: int
    leaf: int
    next: int
    points: int
    live: int
    segments: int
    bytes: int
    decimals: int | None = None


def info(folder: Folder, *, program: Which = None, timeout: float | None = None, held: Held | None = None) -> Info:
    """What is stored, by the program's `info`, or by the commit's file where the program hasn't that command.

    Raises `NoIndex`.
    """
    path, found = os.fspath(folder), find(program)
    if "info" not in found.commands:
        return _info_of(path, read_commit(path))
    _, text = found.output(path, ["info"], timeout=options.timeout(timeout), held=held)
    if text == b"no index\n":
        raise NoIndex(f"{path} holds no index")
    said = re.fullmatch(rb"dims (\d+) leaf (\d+) next (\d+) points (\d+) live (\d+) segments (\d+) bytes (\d+)\n", text)
    if said is None:
        raise BadAnswer(f"info answered {text[:100]!r}")
    dims, leaf, following, points, live, segments, size = map(int, said.groups())
    return Info(dims, leaf, following, points, live, segments, size, kept.read(path).decimals)


def _info_of(path: str, commit: Commit | None) -> Info:
    if commit is None:
        raise NoIndex(f"{path} holds no index")
    names = [COMMIT_FILE, *(FileName.segment(one.segment) for one in commit.listed),
             *(FileName.live(one.segment, one.generation) for one in commit.listed)]
    size = sum(os.path.getsize(os.path.join(path, name.text)) for name in names)
    live = sum(one.live for one in commit.listed)
    return Info(commit.dims, commit.leaf, commit.next, commit.given, live, len(commit.listed), size,
                kept.read(path).decimals)


def _asked(folder: Folder, words: Sequence[str], requests: Iterable[Request], program: Which, timeout: float | None,
           held: Held | None) -> list[Any]:
    talk = Asking(requests)
    find(program).run(os.fspath(folder), words, talk, options.timeout(timeout), held)
    return talk.values


def explain(folder: Folder, queries: Iterable[Request], cache: int = 1024, *, program: Which = None,
            timeout: float | None = None, held: Held | None = None) -> list[Any]:
    """What queries read in the stored segments: an `Explained` for each, or the `Refused` of one that is refused.

    `cache` is how many pages are kept, 1 to 65,536.
    """
    asked = (query._replace(answer=_EXPLAINED.get(query.answer.word, query.answer)) for query in queries)
    return _asked(folder, ["explain", "--cache", str(options.cache(cache))], asked, program, timeout, held)


def batch(folder: Folder, queries: Iterable[Request], forks: int = 1, merge: bool = False, *, program: Which = None,
          timeout: float | None = None, held: Held | None = None) -> list[Any]:
    """The answers to queries, in order, from a copy of the stored index in memory, by `forks` levels of two threads
    each.

    With `merge` the segments are merged beside the answering, and that is committed. The place of a query that is
    refused has its `Refused`.
    """
    words = ["batch", "--forks", str(options.forks(forks))] + (["--merge"] if merge else [])
    return _asked(folder, words, queries, program, timeout, held)


def points_in(lo: Point, hi: Point) -> Request:
    """Asks `count` how many live points lie in a box."""
    return Request("points" + _spelled(lo, hi), POINTS)


def grid_over(x: int, step_x: int, y: int, step_y: int, lo: Point, hi: Point) -> Request:
    """Asks `count` for the filled buckets of a grid over the dimensions `x` and `y` of a box,
    counted from its lower corner."""
    return Request(f"grid {x:d} {step_x:d} {y:d} {step_y:d}" + _spelled(lo, hi), BUCKETS)


def _spelled(lo: Point, hi: Point) -> str:
    return "".join(f" {c}" for c in coordinates(lo) + coordinates(hi))


def count(folder: Folder, asked: Iterable[Request], cache: int = 1024, *, program: Which = None,
          timeout: float | None = None, held: Held | None = None) -> list[Any]:
    """The answers to `points_in` (a number) and `grid_over` (triples x, y, points), or the `Refused` in their place."""
    return _asked(folder, ["count", "--cache", str(options.cache(cache))], asked, program, timeout, held)
