"""How an index is opened, or made where that is asked for."""
from __future__ import annotations

import contextlib
import os

from . import kept, options, requests
from .commands import Folder, Which
from .damage import Damage
from .errors import Damaged, NoIndex, unrefused
from .formats.commit import Commit, read_commit
from .formats.pages import COMMIT_FILE, is_own_name
from .index import Index
from .kept import Kept
from .options import WAIT
from .program import Program, find
from .requests import COMMIT
from .scale import MOST_DECIMALS, Scale
from .transport import Session


def open(folder: Folder, dims: int | None = None, leaf: int | None = None, cache: int = 1024, forks: int = 1, *,
         create: bool = False, read: bool = False, wait: float = WAIT, autocommit: bool = False,
         decimals: int | None = None, program: Which = None, timeout: float | None = 600.0,
         arrays: bool = False) -> Index:
    """Opens the index of a folder; with `create` folder and index are made where they aren't there, and stored at once.

    `dims`, 1 to 8, is 2 for a new index where it is left out, and must be that of an index that is there; so `leaf`,
    the greatest number of entries of a leaf. With `decimals`, 0 to 9, a new index holds values to so many decimals, and
    that is kept beside its files. `cache` is how many pages of 4,096 bytes are kept, 1 to 65,536, `forks` how many
    levels of a build run in two threads each, 0 to 6. With `read` it can only be asked, beside others who only ask.
    `wait` is for how many whole seconds, 0 to 3,600, another run is waited for that has the folder, when it is opened
    and when its first change is to be written. With `autocommit` each call that changes something is stored before it
    answers. `timeout` is for how many seconds beyond `wait` the program may take and give nothing before it is killed
    and `Hung` raised. `program` is a path, or words, else what `bkd.find` finds. With `arrays` numbers are answered as
    numpy arrays of uint32.

    Raises `NoIndex` where none is there, `Locked` where another run or this process works on the folder, `OtherKind`
    where it holds ranges or has another scale, `NotFound`, `Damaged` (also where the commit is gone and other files of
    an index are there), ValueError or TypeError for what can't be, and what `Index` raises. Then nothing was changed.
    """
    if create and read:
        raise ValueError("read=True makes no index")
    wanted = Kept(kept.POINTS, None if decimals is None else options.whole("decimals", decimals, 0, MOST_DECIMALS))
    opened = Opening(folder, dims, leaf, wanted, cache, forks, create=create, read=read, wait=wait, program=program,
                     timeout=timeout)
    with opened as session:
        scale = None if opened.kept.decimals is None else Scale(opened.kept.decimals)
        return Index(opened.program, opened.path, session, opened.dims, arrays=arrays, scale=scale,
                     autocommit=autocommit, read=read)


class Opening:
    """The opening of a folder: within the `with` there is a session over an index; an exception ends it.

    `dims` are those of the index's points. What was made is gone again where the opening fails.
    """

    def __init__(self, folder: Folder, dims: int | None, leaf: int | None, wanted: Kept, cache: int, forks: int, *,
                 create: bool, read: bool, wait: float, program: Which, timeout: float | None) -> None:
        self.path = os.path.abspath(os.fspath(folder))
        self._asked = None if dims is None else options.dims(dims)
        self.dims = self._asked or 2
        self._leaf = None if leaf is None else options.whole("leaf", leaf, 2, options.MOST_LEAF)
        self._words = ["--cache", str(options.cache(cache)), "--forks", str(options.forks(forks))]
        self._create = create
        self._read = read
        self._wait = options.wait(wait)
        self._timeout = options.timeout(timeout)
        self.kept = wanted
        if create and self._leaf is not None and read_commit(self.path) is None:
            options.leaf(self._leaf, self.dims)
        self.program: Program = find(program)

    def __enter__(self) -> Session:
        is_made = self._create and not os.path.isdir(self.path)
        if is_made:
            os.makedirs(self.path)
        elif not os.path.isdir(self.path):
            raise NoIndex(f"{self.path} is no folder; with create=True one is made")
        try:
            self._session = Session(self.program, self.path, self._words, self._timeout, self._wait, self._read)
            try:
                self._open(read_commit(self.path))
            except BaseException:
                self._session.abandon()
                raise
        except BaseException:
            if is_made:
                with contextlib.suppress(OSError):
                    os.rmdir(self.path)
            raise
        return self._session

    def __exit__(self, kind: type[BaseException] | None, *_: object) -> None:
        if kind is not None:
            self._session.abandon()

    def _open(self, there: Commit | None) -> None:
        if there is None:
            self._need_empty()
            self._make()
            return
        if self._create and there.next == 0 and kept.read(self.path) == Kept():
            with kept.written(self.path, self.kept):
                pass  # (whoever made the index may have been killed before it kept this)
        self.kept = kept.agreed(self.path, self.kept)
        if (self._asked or there.dims) != there.dims or (self._leaf or there.leaf) != there.leaf:
            raise ValueError(f"the index has {there.dims} dimensions and leaves of {there.leaf}")
        self.dims = there.dims

    def _need_empty(self) -> None:
        """Without a commit there is no index; where files of one are there they may be the only copy."""
        left = [name for name in os.listdir(self.path) if is_own_name(name) and not name.startswith("commit")]
        if left:
            raise Damaged(Damage("missing", COMMIT_FILE.text), cause=f"{len(left)} other files of an index are there")
        if not self._create:
            raise NoIndex(f"{self.path} holds no index; with create=True one is made")

    def _make(self) -> None:
        """Stores the index, which nobody else may have then, and after that the note beside it. (A note that is there
        is none of this index, nor of one that another process makes, which would have the folder alone by then.)"""
        kept.forget(self.path)
        with kept.written(self.path, self.kept):
            unrefused(self._session.ask((requests.create(self.dims, self._leaf), COMMIT)))
