"""The programs that the tests talk with, the stand-in of `stand_in.py` and the real one; the time that tests have."""
from __future__ import annotations

import contextlib
import functools
import os
import signal
import subprocess
import sys
import tempfile
import time
from pathlib import Path

import pytest
from hypothesis import settings

HERE = Path(__file__).resolve().parent
TOP = HERE.parents[2]
sys.path[:0] = [str(HERE), str(HERE.parent)]
sys.path.append(str(TOP / "bench"))

import bkd  # noqa: E402

# Machines are busy, and a process is started for many an example. The gate draws the same examples each time, so that
# what fails comes of the change; --hypothesis-profile=drawn draws others.
settings.register_profile("drawn", deadline=None)
settings.register_profile("same", deadline=None, derandomize=True, database=None)
settings.load_profile("same")

STAND_IN = (sys.executable, "-S", str(HERE / "stand_in.py"))
# what the stand-in can do
EVERY = "run|load|explain|check|generate|session|ranges|count|batch|export|info"
BUILT = TOP / "crates" / "bkd" / "out" / "bkd"
RELEASED = TOP / "release" / "bkd"
# seconds for all tests, for one of them, and for its end: what isn't reached by then fails. Who gives much time for all
# has a slow machine, and so each gets more too
ALL = float(os.environ.get("BKD_TEST_SECONDS", 330))
EACH = max(120, ALL / 8)
END = EACH / 4
BEGUN = time.monotonic()


class TooLong(BaseException):
    """A test took longer than it may. (No Exception, so that nothing takes it for a failure to be tried again.)"""


@contextlib.contextmanager
def limited(seconds):
    """Ends what is done within it by `TooLong` when its time is over."""
    def over(number, frame):
        raise TooLong(f"longer than {seconds:.0f} seconds")

    signal.signal(signal.SIGALRM, over)
    signal.setitimer(signal.ITIMER_REAL, seconds)
    try:
        yield
    finally:
        signal.setitimer(signal.ITIMER_REAL, 0)


def left():
    """The seconds that a test may take now."""
    return max(1, min(EACH, BEGUN + ALL - time.monotonic()))


def hook_within(seconds):
    """A hook of pytest's round a part of a test that ends when its time is over."""
    @pytest.hookimpl(hookwrapper=True)
    def hook():
        with limited(seconds()):
            yield

    return hook


pytest_runtest_setup = hook_within(left)
pytest_pyfunc_call = hook_within(left)
pytest_runtest_teardown = hook_within(lambda: END)


@pytest.hookimpl(tryfirst=True)
def pytest_runtest_call(item):
    if time.monotonic() > BEGUN + ALL:
        pytest.fail(f"not reached within {ALL:.0f} seconds for all tests", pytrace=False)


def real_program() -> bkd.Program | None:
    """BKD's program, or the gate's, or the released one; the launcher would prove and build it first."""
    for path in [os.environ["BKD"]] if "BKD" in os.environ else map(str, (BUILT, RELEASED)):
        if os.path.isfile(path):
            return bkd.find(path)
    return None


REAL = real_program()


@functools.cache
def works(command: str) -> bool:
    """Whether the real program has a command: it is listed, and its words aren't answered as wrong ones."""
    if REAL is None or command not in REAL.commands:
        return False
    with tempfile.TemporaryDirectory() as folder:
        run = subprocess.run([*REAL.words, folder, command], stdin=subprocess.DEVNULL, capture_output=True)
    return run.returncode != 1


def pytest_terminal_summary(terminalreporter) -> None:
    told = f"{REAL} with {', '.join(sorted(REAL.commands))}" if REAL else "none is built; set BKD"
    terminalreporter.write_line(f"program: {told}")


def need(program: bkd.Program, command: str) -> None:
    """Skips the test where the real program lacks a command."""
    if not works(command):
        pytest.skip(f"{program} has no {command}")


@pytest.fixture
def real() -> bkd.Program:
    if REAL is None:
        pytest.skip("no program is built; set BKD")
    return REAL


@pytest.fixture
def stand_in(monkeypatch) -> bkd.Program:
    """The stand-in with `session`."""
    monkeypatch.delenv("STAND_IN_COMMANDS", raising=False)
    return bkd.find(STAND_IN)


# The other fixtures are of the real program, and of the stand-in only where that is not there or lacks a command.

@pytest.fixture
def filed(monkeypatch) -> bkd.Program:
    """A program with files that hold what it answers."""
    monkeypatch.setenv("STAND_IN_FILES", "1")
    monkeypatch.setenv("STAND_IN_COMMANDS", "run|session|explain|check")
    return REAL or bkd.find(STAND_IN)


@pytest.fixture
def staying(stand_in) -> bkd.Program:
    """A program that has `session`."""
    return REAL if works("session") else stand_in


@pytest.fixture(params=["program", "stand-in"])
def has(request, monkeypatch):
    """Gives the program where it has a command, without which the test is skipped; and the stand-in, which has all."""
    monkeypatch.setenv("STAND_IN_COMMANDS", EVERY)

    def found(command):
        if request.param == "stand-in":
            return bkd.find(STAND_IN)
        need(request.getfixturevalue("real"), command)
        return REAL

    return found


@pytest.fixture
def program(staying) -> bkd.Program:
    """The program, by its `session`."""
    return staying
