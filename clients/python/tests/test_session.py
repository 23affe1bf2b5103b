"""One program that stays: full pipes, death, silence, other text."""
import os
import signal

import pytest

import bkd
from bkd import requests


def alive(pid):
    try:
        os.kill(pid, 0)
        return True
    except ProcessLookupError:
        return False


def pid_of(index):
    return index._session.pid


def test_full_pipes_block_nobody(staying, tmp_path):
    """Lines and answers are each much longer than the pipes together, and a single line is longer than one."""
    with bkd.open(tmp_path, create=True, program=staying) as index:
        numbers = list(index.add_many((i, i) for i in range(3000)))
        every = requests.box((0, 0), (3000, 3000))
        values = index.ask([every] * 150 + [requests.delete(1 << 24)] * 30_000 + [every] * 150)
        assert values == [numbers] * 150 + [0] * 30_000 + [numbers] * 150
        index.delete_box((0, 0), (2990, 2990))
        ring = [(i, 0) for i in range(3001)] + [(3000, i) for i in range(1, 3001)] + [(0, 3000), (0, 0)]
        assert index.ask([requests.polygon([ring])] * 3) == [numbers[2991:]] * 3


def test_a_line_is_answered_before_the_next(staying, tmp_path):
    with bkd.open(tmp_path, create=True, program=staying) as index:
        pid = pid_of(index)
        for i in range(100):
            assert index.add((i, i)) == i
        assert pid_of(index) == pid
    assert not alive(pid)


@pytest.mark.parametrize("what, error", [
    ("3", bkd.SourceFault), ("4", bkd.FolderFault), ("5", bkd.SinkFault), ("7", bkd.OutOfMemory), ("8", bkd.TooLarge),
    ("damaged", bkd.Damaged), ("die", bkd.Died), ("77", bkd.Died), ("0", bkd.Died), ("garbage", bkd.BadAnswer),
])
def test_a_program_that_fails(tmp_path, monkeypatch, stand_in, what, error):
    bkd.open(tmp_path, create=True, program=stand_in).close()
    # (the first line is the one by which the client sees that the folder is open)
    monkeypatch.setenv("STAND_IN_AT", f"4:{what}")
    index = bkd.open(tmp_path, program=stand_in, timeout=20)
    with pytest.raises(error) as told:
        index.ask([requests.add((1, 1)), requests.add((2, 2)), requests.add((3, 3)), requests.add((4, 4))])
    if error is not bkd.BadAnswer:
        assert told.value.done == 3 and told.value.last == "add 2 2"
    if error is bkd.Damaged:
        assert (told.value.kind, told.value.page, told.value.damage.offset) == ("leaf", 2, 352)
        assert told.value.file == "seg-0000000000000000.bkd"
    monkeypatch.delenv("STAND_IN_AT")
    assert not alive(pid_of(index))
    with pytest.raises(bkd.Closed):
        index.add((1, 1))
    index.close()


def test_many_lines_of_a_program_that_dies(tmp_path, monkeypatch, stand_in):
    monkeypatch.setenv("STAND_IN_AT", "70001:die")
    with bkd.open(tmp_path, create=True, program=stand_in) as index:
        with pytest.raises(bkd.Died) as told:
            index.add_many((i, i) for i in range(1_000_000))
        # what was written before the death was told; three lines saw the folder open, made the index and stored it
        assert 0 < told.value.done <= 70_000
        assert told.value.last == f"add {told.value.done - 4} {told.value.done - 4}"


def test_a_program_that_hangs(tmp_path, monkeypatch, stand_in):
    monkeypatch.setenv("STAND_IN_AT", "5:hang")
    index = bkd.open(tmp_path, create=True, program=stand_in)
    index.add((1, 1))
    pid = pid_of(index)
    index._session._run.allow(0.3)
    with pytest.raises(bkd.Hung) as told:
        index.add((2, 2))
    assert told.value.last == "add 1 1" and told.value.done == 4
    assert not alive(pid)
    index.close()


def test_stopped(tmp_path, staying):
    """A program that takes and gives nothing is killed, and the last line that was done is told."""
    index = bkd.open(tmp_path, create=True, program=staying)
    assert index.add((1, 1)) == 0
    pid = pid_of(index)
    os.kill(pid, signal.SIGSTOP)
    index._session._run.allow(0.3)
    with pytest.raises(bkd.Hung) as told:
        index.add((2, 2))
    assert (told.value.done, told.value.last) == (4, "add 1 1") and not alive(pid)
    with pytest.raises(bkd.Closed):
        index.add((2, 2))


def test_what_is_said_at_the_end(tmp_path, stand_in, monkeypatch):
    """A program that writes what nobody asked for when it is closed is told."""
    monkeypatch.setenv("STAND_IN_LAST", "and another thing")
    index = bkd.open(tmp_path, create=True, program=stand_in)
    pid = pid_of(index)
    with pytest.raises(bkd.BadAnswer, match="and another thing"):
        index.close()
    assert not alive(pid)


def test_killed_between_two_calls(tmp_path, staying):
    index = bkd.open(tmp_path, create=True, program=staying)
    index.add((1, 1))
    os.kill(pid_of(index), signal.SIGKILL)
    with pytest.raises(bkd.Died, match="signal 9"):
        index.add((2, 2))
    with bkd.open(tmp_path, create=True, program=staying) as index:
        assert index.add((1, 1)) == 0


def test_killed_before_it_is_closed(tmp_path, staying):
    index = bkd.open(tmp_path, create=True, program=staying)
    index.add((1, 1))
    os.kill(pid_of(index), signal.SIGKILL)
    with pytest.raises(bkd.Died):
        index.close()
    index.close()


def test_abandoned(tmp_path, staying):
    with bkd.open(tmp_path, create=True, program=staying) as index:
        index.add((1, 1))
        index.commit()
        index.add((2, 2))
        index.abandon()
    with bkd.open(tmp_path, create=True, program=staying) as index:
        assert index.box((0, 0), (9, 9)) == [0]
