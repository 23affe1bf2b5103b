"""What was done is kept, or undone, as a table says: interrupts, forks, threads, exceptions, killed callers."""
import os
import signal
import subprocess
import sys
import threading
import warnings

import pytest

import bkd
from bkd import requests
from conftest import HERE

EVERY = ((-(1 << 31),) * 2, ((1 << 31) - 1,) * 2)


def is_gone(pid):
    """Waits until a process has ended that is no child of this one."""
    try:
        descriptor = os.pidfd_open(pid)
    except ProcessLookupError:
        return True
    with os.fdopen(descriptor):
        import select
        return bool(select.select([descriptor], [], [], 30)[0])


class Caller:
    """A process of callers.py."""

    def __init__(self, task, folder, program, **options):
        words = [sys.executable, "-X", "dev", str(HERE / "callers.py"), task, str(folder), *program.words]
        self.process = subprocess.Popen(words, stdin=subprocess.PIPE, stdout=subprocess.PIPE, stderr=subprocess.PIPE,
                                        text=True, **options)

    def line(self):
        said = self.process.stdout.readline().strip()
        assert said, self.process.stderr.read()
        return said

    def ended(self):
        """What it still says, when it has ended; nothing went wrong."""
        out, err = self.process.communicate()
        assert "Error" not in err and "Traceback" not in err, err
        return out.split("\n")[:-1]


def numbers(folder, program):
    with bkd.open(folder, program=program, read=True, wait=30) as index:
        return index.box(*EVERY)


@pytest.mark.parametrize("task, kept", [("killed_between", [0, 1]), ("killed_within", []), ("killed_in_a_with", []),
                                        ("killed_in_a_load", [])])
@pytest.mark.parametrize("by", [signal.SIGKILL, signal.SIGTERM])
def test_a_killed_caller_commits_nothing(program, tmp_path, task, kept, by):
    caller = Caller(task, tmp_path / "a", program)
    pid = int(caller.line())
    assert caller.line() == "ready"
    os.kill(caller.process.pid, by)
    caller.process.communicate()
    assert caller.process.returncode == -by
    assert pid == 0 or is_gone(pid)
    assert numbers(tmp_path / "a", program) == kept


def test_a_caller_that_ends_without_closing(program, tmp_path):
    """It is warned, and the program is ended; what wasn't committed is gone."""
    caller = Caller("left_open", tmp_path / "a", program)
    pid = int(caller.line())
    out, err = caller.process.communicate()
    assert "ResourceWarning: an index wasn't closed" in err and caller.process.returncode == 0
    assert is_gone(pid) and numbers(tmp_path / "a", program) == []


def test_an_index_that_nobody_has(program, tmp_path):
    index = bkd.open(tmp_path, create=True, program=program)
    index.add((1, 1))
    pid = index._session.pid
    with warnings.catch_warnings(record=True) as told:
        warnings.simplefilter("always")
        del index
    assert [str(one.message) for one in told] == ["an index wasn't closed: what it hadn't committed is gone"]
    assert is_gone(pid) and numbers(tmp_path, program) == []


def hit(caller):
    """Ctrl-C as a terminal sends it: to all of the caller's group."""
    os.killpg(caller.process.pid, signal.SIGINT)


def test_an_interrupt_in_many_documents(program, tmp_path):
    caller = Caller("interrupted_within", tmp_path / "a", program, process_group=0)
    caller.line()
    assert caller.line() == "ready"
    hit(caller)
    told, kept = caller.ended()
    assert told.startswith("interrupted") and "Index.given has its numbers" in told
    assert len(numbers(tmp_path / "a", program)) == int(kept)


def test_an_interrupt_in_an_answer(program, tmp_path):
    caller = Caller("interrupted_in_an_answer", tmp_path / "a", program, process_group=0)
    caller.line()
    assert caller.line() == "ready"
    hit(caller)
    assert caller.ended() == ["interrupted", "20001"]
    assert len(numbers(tmp_path / "a", program)) == 20_001


def test_an_interrupt_that_leaves_the_with(program, tmp_path):
    caller = Caller("interrupted_in_a_with", tmp_path / "a", program, process_group=0)
    pid = int(caller.line())
    assert caller.line() == "ready"
    hit(caller)
    assert caller.ended() == ["interrupted"]
    assert is_gone(pid) and numbers(tmp_path / "a", program) == [0]


def test_interrupts_at_any_moment(program, tmp_path):
    caller = Caller("many_interrupts", tmp_path / "a", program)
    last = caller.ended()[-1].split()
    assert last[:2] == ["done", "100"] and int(last[2]) >= 9 * 5 + 25 * 5
    assert len(numbers(tmp_path / "a", program)) == int(last[2]) + 1


@pytest.mark.parametrize("task, kept", [("forked", ["2"]), ("forked_in_a_call", ["200000"])])
def test_a_fork(program, tmp_path, task, kept):
    assert Caller(task, tmp_path / "a", program).ended() == kept


def test_threads(program, tmp_path):
    """Calls of several threads are done whole, one after the other."""
    wrong = []
    with bkd.open(tmp_path, create=True, program=program) as index:
        def work(at):
            try:
                for i in range(60):
                    place = (at, i)
                    first = index.add(place)
                    assert index.box(place, place) == [first]
                    values = index.ask([requests.add(place), requests.box(place, place), requests.add((1, 2, 3))])
                    assert values[1] == [first, values[0]] and values[2].reason == "wrong words"
                    found = index.add_many([place] * 30)
                    assert index.box(place, place) == [first, values[0], *found]
                    assert index.delete_many(list(found)[:29]) == 29 and index.nearest(1, place) == [(first, 0)]
                    if i % 20 == at:
                        index.commit()
            except BaseException as error:
                wrong.append(error)

        threads = [threading.Thread(target=work, args=(at,)) for at in range(4)]
        for thread in threads:
            thread.start()
        for thread in threads:
            thread.join()
        assert wrong == [] and len(index) == len(index.box(*EVERY)) == 4 * 60 * 3
    assert len(numbers(tmp_path, program)) == 720


def test_abandoned_by_another_thread(program, tmp_path):
    """A call that is under way ends by what it is told."""
    begun, told = threading.Event(), []
    index = bkd.open(tmp_path, create=True, program=program)

    def documents():
        for i in range(1 << 30):
            if i == 20_000:
                begun.set()
            yield (i, i)

    def work():
        try:
            index.add_many(documents())
        except bkd.Error as error:
            told.append(type(error))

    thread = threading.Thread(target=work)
    thread.start()
    begun.wait()
    index.abandon()
    thread.join()
    assert told == [bkd.Died] and numbers(tmp_path, program) == []


def test_with_commits_at_its_end(program, tmp_path):
    with bkd.open(tmp_path, create=True, program=program) as index:
        index.add((1, 1))
    assert numbers(tmp_path, program) == [0]


def test_with_undoes_what_an_exception_cuts_short(program, tmp_path):
    with pytest.raises(KeyError):
        with bkd.open(tmp_path, create=True, program=program) as index:
            index.add((1, 1))
            index.commit()
            index.add((2, 2))
            raise KeyError("mine")
    assert numbers(tmp_path, program) == [0]
    with pytest.raises(bkd.Refused):
        with bkd.open(tmp_path, program=program) as index:
            index.add((2, 2))
            index.add((1, 2, 3))
    assert numbers(tmp_path, program) == [0]


def test_close_commits(program, tmp_path):
    index = bkd.open(tmp_path, create=True, program=program)
    index.add((1, 1))
    index.close()
    assert numbers(tmp_path, program) == [0]


def test_rollback(program, tmp_path):
    with bkd.open(tmp_path, create=True, program=program) as index:
        index.add_many([(1, 1), (2, 2)])
        index.commit()
        kept = index.snapshot("a")
        index.add((3, 3))
        index.delete(0)
        assert len(index) == 2
        index.rollback()
        assert index.box(*EVERY) == [0, 1] and len(index) == 2
        with pytest.raises(bkd.Closed, match="ended with a rollback"):
            kept.box((0, 0), (9, 9))
        assert index.add((4, 4)) == 2
    assert numbers(tmp_path, program) == [0, 1, 2]


def test_autocommit(program, tmp_path):
    index = bkd.open(tmp_path, create=True, program=program, autocommit=True)
    index.add((1, 1))
    index.add_many([(2, 2), (3, 3)])
    index.delete(0)
    index.ask([requests.add((4, 4)), requests.add((5, 5))])
    assert index.count(*EVERY) == 4
    os.kill(index._session.pid, signal.SIGKILL)
    with pytest.raises(bkd.Died):
        index.add((6, 6))
    assert numbers(tmp_path, program) == [1, 2, 3, 4]


def test_a_transaction_within_autocommit(program, tmp_path):
    with bkd.open(tmp_path, create=True, program=program, autocommit=True) as index:
        index.begin()
        index.add((1, 1))
        with pytest.raises(bkd.Uncommitted):
            index.begin()
        index.rollback()
        assert index.add((2, 2)) == 0
        index.begin()
        index.add((3, 3))
        index.commit()
        index.add((4, 4))
        assert index.count(*EVERY) == 3


def failing(count):
    yield from ((i, i) for i in range(count))
    raise KeyError("mine")


@pytest.mark.parametrize("count", [0, 10, 20_000])
def test_an_iterator_that_raises(program, tmp_path, count):
    """Those that were sent before are added, and their numbers are told."""
    with bkd.open(tmp_path, create=True, program=program) as index:
        with pytest.raises(KeyError) as told:
            index.add_many(failing(count))
        assert "Index.given has its numbers" in told.value.__notes__[0]
        # (what is spelled goes in pieces)
        assert index.given == range(count - count % 8192)
        assert index.box(*EVERY) == list(index.given)
        assert index.add((0, 0)) == len(index.given)


def test_an_iterator_that_raises_with_autocommit(program, tmp_path):
    with bkd.open(tmp_path, create=True, program=program, autocommit=True) as index:
        index.add((1, 1))
        with pytest.raises(KeyError) as told:
            index.add_many(failing(20_000))
        assert told.value.__notes__ == ["bkd: nothing of this call was done"]
        assert index.given == range(0) and index.box(*EVERY) == [0] and index.add((2, 2)) == 1


def test_an_iterator_that_uses_the_index(program, tmp_path):
    with bkd.open(tmp_path, create=True, program=program) as index:
        with pytest.raises(bkd.Reentered):
            index.add_many((index.add((1, 1)), i) for i in range(3))
        assert index.add((2, 2)) == 0
