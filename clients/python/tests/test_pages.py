"""The man page has no warnings and names every command, status and text; the completion completes."""
import re
import shutil
import subprocess

import pytest

from conftest import HERE, REAL, TOP

PAGE = TOP / "docs" / "bkd.1"
COMPLETION = TOP / "docs" / "completion" / "bkd.bash"

# the options that stand with every command
COMMON = ["--wait", "--no-lock"]


@pytest.fixture(scope="module")
def shown():
    if shutil.which("man") is None:
        pytest.skip("no man")
    run = subprocess.run(["man", "--warnings", "-E", "UTF-8", "-l", str(PAGE)], capture_output=True, text=True,
                         env={"MANWIDTH": "200", "PATH": "/usr/bin:/bin", "LC_ALL": "C.UTF-8"})
    assert (run.returncode, run.stderr) == (0, "")
    return re.sub(r"\s+", " ", re.sub(".\b", "", run.stdout).replace("\u2010", "-").replace("−", "-"))


@pytest.mark.parametrize("text", [
    "run", "load", "explain", "generate", "check", "session", "--cache", "--forks", "--columns", "--docs", "--seed",
    "create D", "add C1 .. CD", "delete N", "delete box LO HI", "box [@NAME] LO HI", "polygon [@NAME] JSON",
    "nearest [@NAME] K",
    "snapshot NAME", "release NAME", "flush", "merge begin", "merge end", "commit", "reopen",
    "too long", "not utf-8", "no index", "unknown command", "bad name", "not two dimensions", "wrong words",
    "bad number in word W", "dims", "leaf size", "bad k", "polygon is not json", "not a polygon",
    "polygon has too many positions",
    "polygon ring R position P is not whole", "polygon ring R has too few positions", "polygon ring R is not closed",
    "index exists", "full", "merge begun", "no merge begun", "unknown snapshot", "name taken", "too many snapshots",
    "not a query",
    "no column C", "record N has another length", "record N column C is not a whole number",
    "columns do not match dims D",
    "refused N", "source fault", "folder fault", "sink fault", "damaged:", "out of memory", "input too large",
    "FILE page N", "FILE page N leaf at O", "FILE body", "FILE missing", "FILE has S bytes, needs N",
    "FILE says A, found B",
    "document D beyond N", "document D twice", "commit.bkd", "commit.new", "seg-X.bkd", "live-X-G.bkd",
])
def test_the_man_page_has(shown, text):
    assert text in shown


def test_it_has_every_command(shown, real):
    assert all(command in shown for command in real.commands)


def completed(*words):
    line = " ".join(repr(word) for word in words)
    code = (f"source {COMPLETION}; COMP_WORDS=({line}); COMP_CWORD={len(words) - 1}; _bkd; "
            f"printf '%s\\n' \"${{COMPREPLY[@]}}\"")
    run = subprocess.run(["bash", "-c", code], capture_output=True, text=True, cwd=TOP)
    assert run.stderr == ""
    return run.stdout.split()


@pytest.mark.parametrize("words, wanted", [
    (("bkd", "doc"), ["docs"]),
    (("bkd", ".", ""), ["run", "load", "explain", "check", "generate", "session", "count",
                      "ranges", "batch", "export", "info", "clean"]),
    (("bkd", ".", "ge"), ["generate"]),
    (("bkd", ".", "run", "--"), ["--cache", "--forks", *COMMON]),
    (("bkd", ".", "session", "--"), ["--cache", "--forks", *COMMON]),
    (("bkd", ".", "batch", "--"), ["--forks", "--merge", *COMMON]),
    (("bkd", ".", "run", "--cache", "5", "--"), ["--forks", *COMMON]),
    (("bkd", ".", "run", "--forks", ""), ["0", "1", "2", "3", "4", "5", "6"]),
    (("bkd", ".", "generate", "--d"), ["--docs"]),
    (("bkd", ".", "check", ""), COMMON),
    (("bkd", ".", "load", "--columns", ""), []),
])
def test_completion(words, wanted):
    assert completed(*words) == wanted


def test_the_readme(tmp_path, monkeypatch):
    """Its example runs, and says in its comments what it answers."""
    import ast
    text = (HERE.parent / "README.md").read_text()
    block = text.split("    import bkd", 1)[1].split("\n|", 1)[0]
    code = "import bkd\n" + "\n".join(line[4:] for line in block.splitlines() if line.startswith("    "))
    told = dict(re.findall(r"(index\.\w+)\(.*\)\s+# (\[.*\])", code))
    monkeypatch.setenv("BKD", REAL.words[0] if REAL else str(HERE / "stand_in.py"))
    monkeypatch.chdir(tmp_path)
    kept = {"squared distance": 0}
    lines = re.sub(r"(?m)^    (index\.\w+)(\(.*\))(\s+#.*)?$", r"    answers['\1'] = \1\2", code)
    answers = {}
    exec(compile(lines, "README", "exec"), {"answers": answers} | kept)
    assert ast.literal_eval(told["index.box"]) == answers["index.box"] and answers["index.polygon"] == [1, 2]
    assert answers["index.nearest"][0][0] == 2
