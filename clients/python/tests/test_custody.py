"""Who may work in a folder beside whom: own openings, other processes, readers, those that make an index at once."""
import os
import subprocess
import sys
import threading

import pytest

import bkd
from bkd import kept, requests
from test_kept import EVERY, Caller


def test_a_second_opening_of_its_own_is_told_as_such(program, tmp_path):
    with bkd.open(tmp_path, create=True, program=program):
        for read in (False, True):
            with pytest.raises(bkd.Locked, match="this process has .* open already"):
                bkd.open(tmp_path, read=read, program=program)
        for use in (lambda: bkd.clean(tmp_path, program=program), lambda: bkd.load(tmp_path, ["a", "b"], "a,b\n",
                                                                                  program=program)):
            with pytest.raises((bkd.Locked, bkd.Unsupported)) as told:
                use()
            assert "this process has" in str(told.value) or told.type is bkd.Unsupported
    with bkd.open(tmp_path, program=program, read=True), bkd.open(tmp_path, program=program, read=True) as second:
        with pytest.raises(bkd.Locked, match="this process has"):
            bkd.open(tmp_path, program=program)
        assert len(second) == 0
    bkd.open(tmp_path, program=program).close()


def test_another_process_is_told_of(program, tmp_path):
    """It waits for as long as is said."""
    caller = Caller("killed_between", tmp_path / "a", program)
    caller.line()
    assert caller.line() == "ready"
    for read in (False, True):
        with pytest.raises(bkd.Locked, match="another process works on"):
            bkd.open(tmp_path / "a", read=read, wait=0, program=program)
    opened = []
    waiting = threading.Thread(target=lambda: opened.append(bkd.open(tmp_path / "a", wait=60, program=program)))
    waiting.start()
    caller.process.kill()
    caller.process.communicate()
    waiting.join()
    with opened[0] as index:
        assert index.box(*EVERY) == [0, 1]


def test_readers_beside_each_other(program, tmp_path):
    """Who only reads changes nothing, not even a file's time."""
    with bkd.open(tmp_path, create=True, program=program) as index:
        index.add_many([(1, 1), (2, 2)])
    before = {path.name: path.stat().st_mtime_ns for path in tmp_path.iterdir()}
    code = ("import sys; sys.path.insert(0, sys.argv[1]); import bkd\n"
            "print(bkd.open(sys.argv[2], read=True, program=sys.argv[3:]).box((0, 0), (9, 9)))")
    with bkd.open(tmp_path, read=True, program=program) as index:
        package = os.path.dirname(os.path.dirname(bkd.__file__))
        said = subprocess.run([sys.executable, "-c", code, package, tmp_path, *program.words], capture_output=True,
                              text=True)
        assert said.stdout == "[0, 1]\n"
        with index.snapshot("a") as kept_then:
            assert kept_then.box((0, 0), (9, 9)) == index.box((0, 0), (9, 9)) == [0, 1]
        for use in (lambda: index.add((1, 1)), lambda: index.delete(0), index.commit, index.rollback, index.merge,
                    index.begin, lambda: index.add_many([]), lambda: index.ask([requests.add((1, 1))]),
                    lambda: index.ask([requests.box(*EVERY), requests.COMMIT])):
            with pytest.raises(bkd.ReadOnly):
                use()
        assert index.ask([requests.box(*EVERY)]) == [[0, 1]] and len(index) == 2
        index.reopen()
        assert len(index) == 2
    assert {path.name: path.stat().st_mtime_ns for path in tmp_path.iterdir()} == before


class Beside:
    """A session of the program that another process has."""

    def __init__(self, program, folder):
        pipe = subprocess.PIPE
        self.run = subprocess.Popen([*program.words, folder, "session"], stdin=pipe, stdout=pipe, stderr=pipe,
                                    text=True)
        self.ask("box 0 0 -1 -1")  # (when it is answered the folder is open)

    def ask(self, line):
        self.run.stdin.write(line + "\n")
        self.run.stdin.flush()
        return self.run.stdout.readline().strip()

    def end(self):
        self.run.communicate()


def test_a_writer_has_the_folder_alone_from_its_first_change_on(program, tmp_path, monkeypatch):
    """Before it others ask and write; where one asks it waits, and what can't be stored is undone."""
    monkeypatch.setenv("STAND_IN_COMMANDS", "run|session|check")
    bkd.open(tmp_path, create=True, program=program).close()
    beside = Beside(program, tmp_path)
    index = bkd.open(tmp_path, wait=0, program=program)
    assert index.add((1, 1)) == 0 and beside.ask("box 0 0 9 9") == "hits 0"
    with pytest.raises(bkd.Locked, match="another run works in the folder; what wasn't committed is undone"):
        index.commit()
    with pytest.raises(bkd.Closed):
        index.add((1, 1))
    assert beside.ask("box 0 0 9 9") == "hits 0"
    index = bkd.open(tmp_path, wait=60, program=program)
    assert index.add((2, 2)) == 0
    ending = threading.Thread(target=beside.end)
    ending.start()
    index.commit()
    ending.join()
    # now it has the folder, for what it starts beside too
    assert index.check().live == 1
    with pytest.raises(bkd.Locked, match="this process has"):
        bkd.check(tmp_path, program=program)
    words = [*program.words, tmp_path, "check"]
    assert subprocess.run(words, capture_output=True, text=True).stderr.splitlines()[-1] == "folder fault"
    index.close()
    assert bkd.check(tmp_path, program=program).live == 1


def test_a_folder_that_another_has_changed_meanwhile(program, tmp_path):
    """Of two that change it at once one does; nothing is written over it, and the other is told."""
    bkd.open(tmp_path, create=True, program=program).close()
    index = bkd.open(tmp_path, wait=60, program=program)
    index.add((1, 1))
    beside = Beside(program, tmp_path)
    assert beside.ask("add 2 2") == "doc 0"
    told = []

    def close():
        try:
            index.close()
        except bkd.Locked as error:
            told.append(str(error))

    # it waits for the other one, which is first or is told itself, as they meet
    waiting = threading.Thread(target=close)
    waiting.start()
    is_first = beside.ask("commit") == "ok"
    beside.end()
    waiting.join()
    assert len(told) == is_first and all("another run has committed meanwhile" in text for text in told)
    with bkd.open(tmp_path, program=program) as index:
        assert index.box((0, 0), (9, 9)) == [0] and index.nearest(1, (2, 2)) == [(0, 0 if is_first else 2)]


def test_two_that_make_an_index_of_one_folder(program, tmp_path):
    """One of them does, and its scale is the one that is kept; the other is told."""
    made, told = [], []

    def make(decimals):
        code = ("import sys; sys.path.insert(0, sys.argv[1]); import bkd\n"
                "sys.stdin.read(1)\n"
                "bkd.open(sys.argv[2], create=True, decimals=int(sys.argv[3]), wait=0, program=sys.argv[4:]).close()")
        package = os.path.dirname(os.path.dirname(bkd.__file__))
        return subprocess.Popen([sys.executable, "-c", code, package, tmp_path / str(turn), str(decimals),
                                 *program.words], stdin=subprocess.PIPE, stderr=subprocess.PIPE)

    for turn in range(2):
        (tmp_path / str(turn)).mkdir()
        both = [make(decimals) for decimals in (6, 7)]
        for one in both:
            one.stdin.write(b"x")
            one.stdin.flush()
        said = [one.communicate()[1].decode() for one in both]
        made.append([6 + at for at, one in enumerate(both) if one.returncode == 0])
        told += [text for text in said if text]
        with bkd.open(tmp_path / str(turn), create=True, decimals=(made[-1] or [6])[0], program=program) as index:
            assert index.decimals in (6, 7) and len(index) == 0
    assert all(len(found) <= 1 for found in made) and len(told) >= 2
    assert all("Locked" in text or "OtherKind" in text for text in told)


def test_an_index_whose_maker_was_killed_before_its_note(program, tmp_path):
    """It is empty, and takes the scale that it is asked for; one with documents doesn't."""
    bkd.open(tmp_path, create=True, program=program).close()
    (tmp_path / kept.NAME).unlink()
    with pytest.raises(bkd.OtherKind, match="has no scale"):
        bkd.open(tmp_path, decimals=6, program=program)
    with bkd.open(tmp_path, create=True, decimals=6, program=program) as index:
        assert index.decimals == 6 and index.add((0.5, 0.25)) == 0
    (tmp_path / kept.NAME).unlink()
    with pytest.raises(bkd.OtherKind, match="has no scale"):
        bkd.open(tmp_path, create=True, decimals=6, program=program)


def test_a_table_is_loaded_when_the_others_are_gone(real, tmp_path):
    bkd.open(tmp_path, create=True, program=real).close()
    beside = Beside(real, tmp_path)
    with pytest.raises(bkd.Locked, match="another process works on"):
        bkd.load(tmp_path, ["x", "y"], "x,y\n1,1\n", wait=0, program=real)
    ending = threading.Thread(target=beside.end)
    ending.start()
    assert bkd.load(tmp_path, ["x", "y"], "x,y\n1,1\n", wait=60, program=real) == (1, 1)
    ending.join()
