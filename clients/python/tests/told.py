"""Tells how a run of the tests ended, whose parts left their logs and numbers in a directory. What failed is run again,
each test alone, since a machine may have been too busy: what fails twice has failed.

usage: told.py DIRECTORY SECONDS PART ..
"""
from __future__ import annotations

import os
import subprocess
import sys
import time
import xml.etree.ElementTree as tree
from dataclasses import dataclass, field

# more than so many failures aren't a busy machine's
MOST = 12


@dataclass
class Run:
    """How many tests there were, how many were skipped, the names of those that failed, and what has no end."""

    total: int = 0
    skipped: int = 0
    failed: list[str] = field(default_factory=list)
    broken: int = 0

    def read(self, path: str) -> bool:
        """Adds what a part says; False where it didn't come to its end."""
        try:
            suite = tree.parse(path).getroot().find("testsuite")
        except (OSError, tree.ParseError):
            suite = None
        if suite is None:
            self.total, self.broken = self.total + 1, self.broken + 1
            return False
        self.total += int(suite.get("tests", 0))
        self.skipped += int(suite.get("skipped", 0))
        cases = [case for case in suite.iter("testcase") if case.find("failure") is not None
                 or case.find("error") is not None]
        # (without a file there is nothing to run again)
        self.failed += [f"{case.get('file')}::{case.get('name')}" for case in cases if case.get("file")]
        self.broken += sum(case.get("file") is None for case in cases)
        return True


def is_passed(name: str, until: float) -> bool:
    """Runs one test alone, and shows what it says where it fails."""
    seconds = max(1.0, until - time.monotonic())
    words = [sys.executable, "-m", "pytest", "-q", "-rs", name]
    try:
        run = subprocess.run(words, env=os.environ | {"BKD_TEST_SECONDS": f"{seconds:.0f}"}, stdin=subprocess.DEVNULL,
                             stdout=subprocess.PIPE, stderr=subprocess.STDOUT, text=True, timeout=seconds + 60)
    except subprocess.TimeoutExpired:
        return False
    if run.returncode:
        print(run.stdout, end="")
    return run.returncode == 0


def again(failed: list[str], seconds: float) -> list[str]:
    """Those that fail again."""
    if len(failed) > MOST:
        print(f"{len(failed)} failed: too many to be run again")
        return failed
    until, left = time.monotonic() + seconds, []
    for name in failed:
        passed = is_passed(name, until)
        print(f"{name} failed, and again, alone, it {'passed' if passed else 'failed'}", flush=True)
        left += [] if passed else [name]
    return left


def main(room: str, seconds: str, *parts: str) -> int:
    run = Run()
    for name in parts:
        if not run.read(os.path.join(room, f"{name}.xml")):
            print(f"the {name} part of the tests didn't come to its end")
    failed = run.broken + len(again(run.failed, float(seconds)))
    if run.skipped:
        print(f"{run.skipped} skipped, for the causes above")
    print(f"{run.total - failed - run.skipped} passed, {failed} failed")
    return int(failed > 0 or run.total == run.skipped)


if __name__ == "__main__":
    sys.exit(main(*sys.argv[1:]))
