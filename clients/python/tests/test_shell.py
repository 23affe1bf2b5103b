"""`bkd shell FOLDER`, through a terminal: prompt, history, completion, pages, Ctrl-C, Ctrl-D."""
import fcntl
import os
import pty
import re
import select
import struct
import subprocess
import sys
import termios

import pytest

import bkd
from conftest import HERE

_WAIT = 60


class Terminal:
    """A shell in a terminal of 24 lines and 100 columns."""

    def __init__(self, tmp_path, program, *words):
        environment = os.environ | {"PYTHONPATH": str(HERE.parent), "TERM": "dumb", "XDG_STATE_HOME": str(tmp_path),
                                    "INPUTRC": "/dev/null"}
        pid, self.side = pty.fork()
        if pid == 0:
            os.execve(sys.executable, [sys.executable, "-m", "bkd", "shell", *map(str, words), "--program",
                                       program.words[0]], environment)
        self.pid = pid
        fcntl.ioctl(self.side, termios.TIOCSWINSZ, struct.pack("HHHH", 24, 100, 0, 0))
        self.text = ""

    def until(self, wanted):
        """What is shown until this comes, with it."""
        while (found := re.search(wanted, self.text)) is None:
            if not select.select([self.side], [], [], _WAIT)[0]:
                raise AssertionError(f"no {wanted!r} in {self.text[-2000:]!r}")
            try:
                data = os.read(self.side, 1 << 16)
            except OSError:
                data = b""
            assert data, f"no {wanted!r} in {self.text[-2000:]!r}"
            self.text += data.decode().replace("\r\n", "\n")
        shown, self.text = self.text[:found.end()], self.text[found.end():]
        return shown

    def type(self, text):
        os.write(self.side, text.encode())

    def done(self, line, prompt=r"\w+\*?> "):
        """What a line answers, up to the next prompt."""
        self.type(line + "\n")
        return self.until(prompt)

    def end(self):
        """The exit status."""
        while select.select([self.side], [], [], _WAIT)[0]:
            try:
                if not os.read(self.side, 1 << 16):
                    break
            except OSError:
                break
        os.close(self.side)
        return os.waitstatus_to_exitcode(os.waitpid(self.pid, 0)[1])


@pytest.fixture
def shell(real, tmp_path):
    """A shell over a new folder `places`."""
    terminal = Terminal(tmp_path, real, tmp_path / "places", "--create", "2")
    shown = terminal.until("places> ")
    assert "2 dimensions, 0 documents; help lists the commands" in shown
    return terminal


def live(tmp_path, real):
    with bkd.open(tmp_path / "places", read=True, program=real, wait=30) as index:
        return index.box((-10**9, -10**9), (10**9, 10**9))


def test_lines_and_the_end(shell, real, tmp_path):
    assert "doc 0\nplaces*> " in shell.done("add 1 2")
    assert "doc 1\nplaces*> " in shell.done("add 3 4")
    assert "deleted 1\nplaces*> " in shell.done("delete 0")
    assert "hits 1\n1\nplaces*> " in shell.done("box 0 0 9 9")
    assert "near 1\n1 25\nplaces*> " in shell.done("nearest 1 0 0")
    assert re.search(r"wrong words\n  expected: add C1 .. CD, D is 2 here, as in: add 1 2\n", shell.done("add 1 2 3"))
    assert "unknown command" in shell.done("frobnicate")
    shell.type("\x04")
    assert "committed: 2 added, 1 deleted" in shell.until("deleted\n")
    assert shell.end() == 0 and live(tmp_path, real) == [1]


def test_begin_commit_and_abandon(shell, real, tmp_path):
    shell.done("add 1 1")
    assert "committed: 1 added" in shell.done("begin") and "places> " not in shell.text
    shell.done("add 2 2")
    assert "abandon 1 added? [y/N] " in shell.done("abandon", r"\[y/N\] ")
    shell.type("n")
    assert "no\nplaces*> " in shell.until(r"places\*> ")
    shell.done("abandon", r"\[y/N\] ")
    shell.type("y")
    assert "abandoned\nplaces> " in shell.until("places> ")
    assert "hits 1\n0\n" in shell.done("box 0 0 9 9")
    assert "nothing to abandon" in shell.done("abandon") and "nothing to commit" in shell.done("commit")
    assert "doc 1" in shell.done("add 3 3")
    assert "committed: 1 added\nplaces> " in shell.done("commit")
    shell.type("quit\n")
    assert "nothing to commit" in shell.until("commit\n")
    assert shell.end() == 0 and live(tmp_path, real) == [0, 1]


def test_an_interrupt_stops_the_answer_and_not_the_session(shell, real, tmp_path):
    for i in range(40):
        shell.done(f"add {i} {i}")
    # at the prompt it lets the line go
    shell.type("box 0 0")
    shell.until("box 0 0")
    shell.type("\x03")
    shell.until(r"places\*> ")
    # in a page it stops the answer
    shell.done("box 0 0 50 50", "-- more: space, or q to stop --")
    shell.type("\x03")
    assert "(stopped; the session goes on)" in shell.until(r"places\*> ")
    assert "hits 1\n7\n" in shell.done("box 7 7 7 7")
    shell.type("\x04")
    assert "committed: 40 added" in shell.until("added\n")
    assert shell.end() == 0 and live(tmp_path, real) == list(range(40))


def test_long_answers_by_pages(shell):
    for i in range(60):
        shell.done(f"add {i} {i}")
    first = shell.done("box 0 0 90 90", "-- more: space, or q to stop --")
    assert "hits 60\n0\n" in first and "\n22\n" not in first
    shell.type(" ")
    assert "\n44\n" in shell.until("-- more: space, or q to stop --")
    shell.type("q")
    assert "(stopped; the session goes on)" in shell.until(r"places\*> ")
    assert "hits 2\n3\n4\n" in shell.done("box 3 3 4 4")
    shell.type("\x04")
    assert shell.end() == 0


def test_help_history_and_completion(shell, real, tmp_path):
    shown = shell.done("help")
    assert "nearest [@NAME] K C1 .. CD" in shown and "quit, or Ctrl-D" in shown
    assert "add C1 .. CD: adds" in shell.done("help add") and "no command x" in shell.done("help x")
    shell.type("ne\t1 0 0\n")
    assert "near 0\n" in shell.until("near 0\n")
    shell.until("places> ")
    # the line before comes again
    shell.type("\x1b[A\n")
    assert "near 0\n" in shell.until("near 0\n")
    shell.until("places> ")
    shell.type("\x04")
    assert shell.end() == 0
    assert "nearest 1 0 0" in (tmp_path / "bkd" / "history").read_text()
    again = Terminal(tmp_path, real, tmp_path / "places")
    again.until("places> ")
    again.type("\x1b[A\n")
    assert "near 0\n" in again.until("near 0\n")
    again.until("places> ")
    again.type("\x04")
    assert again.end() == 0


def run(real, *words, script=""):
    environment = os.environ | {"PYTHONPATH": str(HERE.parent)}
    return subprocess.run([sys.executable, "-m", "bkd", "shell", *map(str, words), "--program", real.words[0]],
                          input=script, capture_output=True, text=True, env=environment)


def test_without_a_terminal(real, tmp_path):
    done = run(real, tmp_path / "a", "--create", "2", script="add 1 1\nabandon\nn\nadd 2 2\n# a note\n\nbox 0 0 9 9")
    assert done.returncode == 0 and done.stderr == ""
    assert "doc 0\nabandon 1 added? [y/N] no\ndoc 1\nhits 2\n0\n1\n" in done.stdout
    assert done.stdout.endswith("committed: 2 added\n")


def test_what_it_refuses(real, tmp_path):
    done = run(real, tmp_path / "none")
    assert done.returncode == 1 and "is no folder" in done.stderr and "--create D" in done.stderr
    bkd.open_ranges(tmp_path / "r", create=True, program=real).close()
    done = run(real, tmp_path / "r")
    assert done.returncode == 1 and "holds ranges, not points" in done.stderr
    with bkd.open(tmp_path / "p", create=True, program=real):
        done = run(real, tmp_path / "p")
    assert done.returncode == 1 and "another process works on" in done.stderr
    done = run(real, tmp_path / "p", "--read", script="add 1 1\nbox 0 0 1 1\n")
    assert done.returncode == 0 and "opened with --read" in done.stdout and "hits 0" in done.stdout


def test_a_program_that_ends(shell, tmp_path):
    """It is told, and nothing is said to be committed."""
    shell.done("add 1 1")
    pids = subprocess.run(["ps", "--ppid", str(shell.pid), "-o", "pid=,args="], capture_output=True, text=True).stdout
    (program,) = [int(line.split()[0]) for line in pids.splitlines() if " session" in line]
    os.kill(program, 9)
    shell.type("add 2 2\n")
    assert "killed by signal 9" in shell.until("signal 9")
    assert shell.end() == 1
