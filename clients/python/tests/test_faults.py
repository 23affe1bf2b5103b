"""The program is killed in the middle, or its disk is full: what was committed stays, and the client tells."""
import os
import random
import signal
import subprocess
import threading

import pytest

import bkd
from bkd import requests
from bkd.formats import open_stored


@pytest.fixture
def small_disk(tmp_path):
    """A folder of 256 KiB, where this process may make one."""
    folder = tmp_path / "disk"
    folder.mkdir()
    made = subprocess.run(["mount", "-t", "tmpfs", "-o", "size=256k", "tmpfs", folder], capture_output=True)
    if made.returncode != 0:
        pytest.skip(f"no small disk: {made.stderr.decode().strip()}")
    yield folder
    subprocess.run(["umount", folder], check=True)


def test_a_full_disk(real, small_disk):
    with bkd.open(small_disk, create=True, program=real) as index:
        numbers = index.add_many((i, i) for i in range(1000))
        index.commit()
        with pytest.raises(bkd.FolderFault) as told:
            index.add_many((i * 7919 % 1_000_003, -i) for i in range(100_000))
            index.commit()
        assert told.value.done is not None
    # the files of what failed take the room, and cleaning gives it back
    left = bkd.clean(small_disk, program=real)
    assert [name for name in left if not name.startswith(("seg-", "live-", "commit.new"))] == []
    with bkd.open(small_disk, create=True, program=real) as index:
        assert index.box((0, 0), (1000, 1000)) == list(numbers)
        assert index.add((5, 5)) == 1000


def test_a_full_disk_at_the_end(real, small_disk):
    """A commit at the end that fails is told by closing."""
    ballast = small_disk / "ballast"
    index = bkd.open(small_disk, create=True, program=real)
    index.add((1, 1))
    with pytest.raises(OSError):
        ballast.write_bytes(bytes(1 << 19))
    with pytest.raises(bkd.FolderFault):
        index.close()


@pytest.mark.parametrize("seed", range(8))
def test_killed_in_the_middle(program, tmp_path, seed):
    """Whenever it is killed, the folder has the documents of the last commit done, or of the one in flight."""
    begun = threading.Semaphore(0)
    index = bkd.open(tmp_path, create=True, program=program)

    def kill():
        for _ in range(1 + seed):
            begun.acquire()
        # (somewhere within the lines of that round)
        for _ in range(random.Random(seed).randrange(20_000)):
            pass
        os.kill(index._session.pid, signal.SIGKILL)

    killer = threading.Thread(target=kill)
    killer.start()
    done = 0
    with pytest.raises((bkd.Died, bkd.Closed)):
        while True:
            begun.release()
            index.ask([requests.add((i, done)) for i in range(500)] + [requests.COMMIT])
            done += 1
    killer.join()
    index.close()
    with bkd.open(tmp_path, program=program) as index:
        found = index.box((0, 0), (500, 1 << 30))
        assert found in (list(range(500 * done)), list(range(500 * (done + 1))))


def test_killed_files_can_be_read_and_cleaned(real, tmp_path):
    """What a killed program leaves behind is no part of the index, and goes by cleaning."""
    bkd.open(tmp_path, create=True, program=real).close()
    for name in ("seg-00000000000000ff.bkd", "live-00000000000000ff-0000000000000001.bkd", "commit.new"):
        (tmp_path / name).write_bytes(b"half")
    (tmp_path / "mine.txt").write_text("mine")
    open_stored(tmp_path).check()
    assert len(bkd.clean(tmp_path, program=real)) == 3
    assert sorted(os.listdir(tmp_path)) == ["client.json", "commit.bkd", "mine.txt"]
