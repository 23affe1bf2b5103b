"""What fails is run again, alone, and fails where it fails twice."""
import subprocess
import sys

import told

TESTS = """
import os
import pytest

@pytest.mark.parametrize("name", ["once", "two words", "at[]"])
def test_once(name):
    if not os.path.exists(name):
        open(name, "w").close()
        assert False

def test_never():
    assert False

def test_always():
    pass

@pytest.mark.skip
def test_skipped():
    pass

@pytest.fixture
def wrong():
    assert False

def test_of_an_error(wrong):
    pass
"""


def ran(folder, name):
    words = [sys.executable, "-m", "pytest", "-q", "-p", "no:cacheprovider", "-o", "junit_family=xunit1",
             f"--junitxml={folder}/{name}.xml", f"test_{name}.py"]
    subprocess.run(words, cwd=folder, stdin=subprocess.DEVNULL, stdout=subprocess.DEVNULL)


def test_what_fails_twice_has_failed(tmp_path, monkeypatch, capsys):
    monkeypatch.chdir(tmp_path)
    (tmp_path / "test_some.py").write_text(TESTS)
    (tmp_path / "test_other.py").write_text("import no_such_module")
    ran(tmp_path, "some")
    assert told.main(str(tmp_path), "60", "some") == 1
    said = capsys.readouterr().out.splitlines()
    assert said[-1] == "4 passed, 2 failed" and said[-2] == "1 skipped, for the causes above"
    for name, how in (("once[once]", "passed"), ("once[two words]", "passed"), ("once[at[]]", "passed"),
                      ("never", "failed"), ("of_an_error", "failed")):
        assert f"test_some.py::test_{name} failed, and again, alone, it {how}" in said
    ran(tmp_path, "other")
    assert told.main(str(tmp_path), "60", "other", "gone") == 1
    said = capsys.readouterr().out.splitlines()
    assert said[0] == "the gone part of the tests didn't come to its end" and said[-1] == "0 passed, 2 failed"


def test_too_many_are_not_run_again(monkeypatch, capsys):
    monkeypatch.setattr(told, "is_passed", lambda *words: True)
    names = [f"test_{i}" for i in range(told.MOST + 1)]
    assert told.again(names, 60) == names and told.again(names[1:], 60) == []
    assert capsys.readouterr().out.startswith(f"{len(names)} failed: too many to be run again\n")
