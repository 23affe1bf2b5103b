"""A terminal to work in: `bkd shell FOLDER`, over a session, with the system's readline.

Lines are those of a script, and coordinates whole numbers. Answers are shown as they come, long ones by pages. Ctrl-C
stops an answer and not the session; Ctrl-D commits, says what, and ends.
"""
from __future__ import annotations

import argparse
import os
import re
import sys
from collections.abc import Callable
from pathlib import Path
from typing import IO

from . import kept
from .errors import Error, NoIndex
from .kept import Kept
from .opening import Opening
from .options import WAIT
from .requests import COMMIT
from .transport import Session
from .typed import Enough, Pager, Typed, key

HELP = {
    "add": "add C1 .. CD: adds a document of 1 to 16 points, one after another",
    "delete": "delete N; delete box LO HI: deletes documents",
    "box": "box [@NAME] LO HI: the documents that have a point in a box",
    "polygon": "polygon [@NAME] JSON: those that have a point in a GeoJSON polygon",
    "nearest": "nearest [@NAME] K C1 .. CD: the K nearest, with squared distances",
    "snapshot": "snapshot NAME: keeps the documents as they are, for @NAME",
    "release": "release NAME: lets a snapshot go",
    "flush": "flush: writes waiting documents as a segment",
    "merge": "merge; merge begin POSITIONS; merge end: merges segments",
    "reopen": "reopen: commits and opens the folder anew",
    "begin": "begin: commits what is done; what follows can be abandoned",
    "commit": "commit: stores all that was done",
    "abandon": "abandon: undoes all since the last commit",
    "help": "help [COMMAND]: this list, or one line of it",
    "quit": "quit, or Ctrl-D: commits and ends",
}
_HISTORY = 1000
_CHANGING = ("add", "delete", "merge", "flush", "create", "reopen")
_DONE = re.compile(rb"doc [0-9]+|deleted ([0-9]+)")
_REFUSED = re.compile(rb"line ([0-9]+): ")


class Shell:
    """The lines that are typed, and what was done of them since the last commit."""

    def __init__(self, session: Session, name: str, read: bool, out: IO[str]) -> None:
        self._session = session
        self._name = name
        self._out = out
        self._pager = Pager(out)
        self._added = self._deleted = 0
        self._has_other = False
        self._read = read

    @property
    def prompt(self) -> str:
        """The folder's name, with a star where something isn't committed."""
        return f"{self._name}{'*' if self._is_dirty else ''}> "

    @property
    def _is_dirty(self) -> bool:
        return bool(self._added or self._deleted or self._has_other)

    def tell(self, text: str) -> None:
        self._out.write(text + "\n")
        self._out.flush()

    def run(self, read: Callable[[str], str]) -> None:
        """Reads lines and does them, until their end; then commits and says what."""
        while self._session.is_open:
            try:
                line = read(self.prompt).strip()
                if line in ("quit", "exit"):
                    break
                self.do(line)
            except EOFError:
                self.tell("")
                break
            except KeyboardInterrupt:
                self.tell("")
        self.commit()
        self._session.close()

    def do(self, line: str) -> None:
        """Does one line."""
        verb = line.split(" ", 1)[0]
        if verb in ("", "#") or line.startswith("#"):
            return
        does = {"help": lambda: self._help(line), "begin": self._begin, "commit": self.commit, "abandon": self._abandon}
        if verb in does and (verb == "help" or line == verb):
            does[verb]()
        else:
            self._send(line)

    def _send(self, line: str) -> None:
        is_changing = line.startswith(_CHANGING)
        if is_changing and self._read:
            self.tell("opened with --read: this would change it")
            return
        self._pager.begin()
        talk = Typed(line, self._pager.show)
        try:
            self._session.typed(talk)
        except (Enough, KeyboardInterrupt) as stop:
            self._has_other |= is_changing
            if isinstance(stop, KeyboardInterrupt):
                self.tell("")
            self.tell("(stopped; the session goes on)")
        finally:
            self._out.flush()
        refused = _REFUSED.match(talk.head)
        if refused is not None and (note := self._session.noted(int(refused[1]))) is not None:
            self.tell(f"  {note}")
        if talk.head == b"ok" and line.split()[0] == "reopen":
            self._forget()
        elif talk.head == b"ok" and is_changing:
            self._has_other = True
        elif (done := _DONE.fullmatch(talk.head)) is not None:
            self._added += done[1] is None
            self._deleted += int(done[1] or 0)

    def _forget(self) -> None:
        self._added = self._deleted = 0
        self._has_other = False

    def _what(self) -> str:
        said = [f"{count:,} {what}" for count, what in ((self._added, "added"), (self._deleted, "deleted")) if count]
        return ", ".join(said) or "no documents changed"

    def commit(self) -> None:
        """Commits, and says what."""
        if not self._session.is_open:
            return
        if not self._is_dirty:
            self.tell("nothing to commit")
            return
        self._session.ask((COMMIT,))
        self.tell(f"committed: {self._what()}")
        self._forget()

    def _begin(self) -> None:
        if self._is_dirty:
            self.commit()
        self.tell("begun: abandon undoes what follows, commit keeps it")

    def _abandon(self) -> None:
        """Asks before it throws away."""
        if not self._is_dirty:
            self.tell("nothing to abandon")
            return
        self._out.write(f"abandon {self._what()}? [y/N] ")
        self._out.flush()
        if (key() if sys.stdin.isatty() else sys.stdin.readline()[:1]) not in ("y", "Y"):
            self.tell("no")
            return
        self._session.restart()
        self._forget()
        self.tell("yes\nabandoned")

    def _help(self, line: str) -> None:
        words = line.split()[1:] or list(HELP)
        for word in words:
            self.tell(HELP.get(word, f"no command {word}; help lists them"))


def _prepared() -> Callable[[str], str]:
    """How a line is read: with history and completion on a terminal."""
    if not sys.stdin.isatty():
        return _plain
    import atexit
    import readline
    kept_at = Path(os.environ.get("XDG_STATE_HOME") or Path.home() / ".local" / "state") / "bkd" / "history"
    try:
        kept_at.parent.mkdir(parents=True, exist_ok=True)
        readline.read_history_file(kept_at)
    except OSError:
        pass  # there is none yet, or none can be kept
    readline.set_history_length(_HISTORY)
    atexit.register(_keep, readline.write_history_file, kept_at)
    readline.set_completer(lambda text, at: _completed(text, readline.get_begidx(), at))
    readline.set_completer_delims(" \t")
    readline.parse_and_bind("tab: complete")
    return input


def _keep(write: Callable[[Path], None], at: Path) -> None:
    try:
        write(at)
    except OSError:
        pass  # a history that can't be kept is no harm


def _completed(text: str, begin: int, at: int) -> str | None:
    """The word at this place among those that begin so, where one may stand."""
    import readline
    words = readline.get_line_buffer()[:begin].split()
    if not words or words == ["help"]:
        some = [word for word in HELP if word.startswith(text)]
    else:
        after = {"delete": ["box"], "merge": ["begin", "end"], "create": ["leaf"]}.get(words[0], [])
        some = [word for word in after if word.startswith(text)] if len(words) == 1 else []
    return some[at] + " " if at < len(some) else None


def _plain(prompt: str) -> str:
    line = sys.stdin.readline()
    if not line:
        raise EOFError
    return line.rstrip("\n")


def main(words: list[str] | None = None) -> int:
    """`bkd shell FOLDER`: the status is 0, or 1 where the folder can't be opened or the program ends."""
    parser = argparse.ArgumentParser(prog="bkd shell", description="a terminal to work in")
    parser.add_argument("folder")
    parser.add_argument("--create", type=int, metavar="D", help="make an index of D dimensions where there is none")
    parser.add_argument("--read", action="store_true", help="only ask, beside others who only read")
    parser.add_argument("--wait", type=float, default=WAIT, metavar="SECONDS", help="wait for other runs (5)")
    parser.add_argument("--program", help="the program, where it is not the usual one")
    said = parser.parse_args(words)
    try:
        opened = Opening(said.folder, said.create, None, Kept(kept.POINTS), 1024, 1, create=said.create is not None,
                         read=said.read, wait=said.wait, program=said.program, timeout=None)
        with opened as session:
            return _work(session, opened, said.folder, said.read)
    except NoIndex as error:
        print(f"bkd shell: {error} (here: --create D)".replace("with create=True one is made", "none is made"),
              file=sys.stderr)
    except (Error, OSError, ValueError) as error:
        print(f"bkd shell: {error}", file=sys.stderr)
    return 1


def _work(session: Session, opened: Opening, folder: str, read: bool) -> int:
    shell = Shell(session, os.path.basename(os.path.abspath(folder)), read, sys.stdout)
    scale = "" if opened.kept.decimals is None else f", whole numbers of 10^-{opened.kept.decimals}"
    shell.tell(f"{folder}: {opened.dims} dimensions{scale}, {session.live:,} documents; help lists the commands")
    shell.run(_prepared())
    return 0
