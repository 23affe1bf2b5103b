"""Removes files that an index left behind."""
from __future__ import annotations

import os

from . import commands, lock
from .commands import Folder, Which
from .errors import BadAnswer, NoIndex, Unsupported
from .formats import open_stored
from .formats.pages import is_own_name
from .lock import Held
from .program import Program, find


def clean(folder: Folder, *, program: Which = None) -> list[str]:
    """Removes the files of an index's own names that its commit doesn't list, and answers their names, sorted.

    A run that was stopped or failed leaves such files. It is the program's `clean` that removes them, once it has read
    every page that the commit needs: `Damaged` is raised where one isn't whole, `NoIndex` where there is no commit, and
    then nothing was removed. A program without that command is asked for its `check`, and the files are read by
    `bkd.formats` too, before they are removed here. Files of other names stay. The folder's lock is held alone; who has
    it raises `Locked`.
    """
    path = os.fspath(folder)
    with lock.locked(path) as held:
        stored = open_stored(path)
        tool = find(program)
        left = sorted(name for name in os.listdir(path) if is_own_name(name) and name not in stored.files())
        if "clean" in tool.commands:
            removed = commands.removed(path, program=tool, held=held)
            if removed != len(left):
                raise BadAnswer(f"{path}: clean removed {removed} files, and {len(left)} weren't listed")
            return left
        stored.check()
        _ask_program(path, tool, held)
        for name in left:
            os.remove(os.path.join(path, name))
        return left


def _ask_program(path: str, program: Program, held: Held) -> None:
    """Has the program check the folder, where it has the command."""
    if "check" not in program.commands:
        return
    try:
        checked = commands.check(path, program=program, held=held)
    except Unsupported:
        return  # the command is listed before it works
    if checked is None:
        raise NoIndex(f"{path} holds no index")
