"""The runs of bench/failures.py: what each does where nothing fails, and what comes of it where something does."""
import os
import subprocess
import tempfile

HERE = os.path.dirname(os.path.abspath(__file__))
PROGRAM = os.path.abspath(os.environ.get("BKD", os.path.join(HERE, "..", "crates", "bkd", "out", "bkd")))

# the lines of the script with their answers, and behind a line that commits the documents that are then stored
SCRIPT = [
    ("create 1", "ok", None), ("add 1", "doc 0", None), ("add 2", "doc 1", None), ("commit", "ok", [0, 1]),
    ("delete 0", "deleted 1", None), ("add 3", "doc 2", None), ("flush", "ok", None), ("merge", "ok", None),
    ("reopen", "ok", [1, 2]), ("add 4", "doc 3", None),
]
AT_END = [1, 2, 3]
LINES = "".join(line + "\n" for line, _, _ in SCRIPT)
QUESTION = "box -2147483648 2147483647\n"
TABLE = "a\n0\n1\n2\n"


class Work:
    """A run of the program: its words and its input, what it writes where nothing fails, and which documents may be
    stored when it has written so many lines of that. `made`: over a folder that the script made before."""

    def __init__(self, name, words, source, text, stored, made=False):
        self.name, self.words, self.source, self.text, self.stored = name, words, source, text, stored
        self.made = made


def stored_by_script(lines):
    """The last commit of the lines that were answered, and the one in flight. (None is no index.)"""
    done = [numbers for _, _, numbers in SCRIPT[:lines] if numbers is not None]
    flight = [numbers for _, _, numbers in SCRIPT[lines:lines + 1] if numbers is not None]
    return (done[-1:] or [None]) + (flight if lines < len(SCRIPT) else [AT_END])


def works():
    alone = ["--forks", "0"]
    yield Work("run", ["run", *alone], LINES, "".join(a + "\n" for _, a, _ in SCRIPT), stored_by_script)
    yield Work("load", ["load", "--columns", "a", *alone], TABLE, "loaded 3\nnext 3\n", lambda _: [None, [0, 1, 2]])
    words = ["generate", "--docs", "9", "--seed", "1", *alone]
    with tempfile.TemporaryDirectory() as folder:
        whole = started(words, "", folder).stdout.decode()
    yield Work("generate", words, "", whole, lambda _: [None, list(range(1, 9))])
    yield Work("explain", ["explain"], QUESTION, "tested 0 touched 2 hits 3\n", lambda _: [AT_END], made=True)
    yield Work("a query", ["run", *alone], QUESTION, answer(AT_END), lambda _: [AT_END], made=True)
    yield Work("a deletion", ["run", *alone], "delete 1\n", "deleted 1\n", lambda _: [AT_END, [2, 3]], made=True)
    yield Work("a merge", ["run", *alone], "merge\n", "ok\n", lambda _: [AT_END], made=True)


def started(words, source, folder, before=(), **how):
    """A run of the program; `before` are words that start it."""
    words = [*before, PROGRAM, folder, *words]
    return subprocess.run(words, input=source.encode(), capture_output=True, check=False, **how)


def made(work, room):
    """A new folder for a run."""
    folder = tempfile.mkdtemp(dir=room)
    if work.made and started(["run"], LINES, folder).returncode != 0:
        raise SystemExit("the script doesn't run where nothing fails")
    return folder


def own_files(work, room):
    """How many KB the files have that a run writes where nothing fails, the new commit among them, in blocks of 4."""
    folder = made(work, room)
    before = files_of(folder)
    started(work.words, work.source, folder)
    written = [data for name, data in files_of(folder).items() if before.get(name) != data]
    return sum(4 * -(-len(data) // 4096) for data in written)


def files_of(folder):
    found = {}
    for name in os.listdir(folder):
        with open(os.path.join(folder, name), "rb") as file:
            found[name] = file.read()
    return found


def answer(numbers):
    if numbers is None:
        return "line 1: no index\n"
    return "hits %d\n%s" % (len(numbers), "".join("%d\n" % n for n in numbers))


def asked(folder):
    """The documents that are stored in a folder, None for no index. (generate's index has two dimensions.)"""
    for question in (QUESTION, "box -2147483648 -2147483648 2147483647 2147483647\n"):
        text = started(["run"], question, folder).stdout.decode()
        if text == answer(None):
            return None
        if text.startswith("hits "):
            return [int(line) for line in text.splitlines()[1:]]
    return text


def left_over(folder):
    """How many files of the folder its commit doesn't list."""
    try:
        with open(os.path.join(folder, "commit.bkd"), "rb") as file:
            segments = int.from_bytes(file.read(29)[27:], "big")
    except FileNotFoundError:
        return len(os.listdir(folder))
    return len(os.listdir(folder)) - 1 - 2 * segments


def goes_on(folder, stored):
    """What is wrong with a further run that adds a document and commits."""
    dims = 2 if stored is not None and started(["run"], QUESTION, folder).returncode == 2 else 1
    source = ("create 1\n" if stored is None else "") + "add" + " 5" * dims + "\ncommit\n"
    run = started(["run"], source, folder)
    found = asked(folder)
    if run.returncode != 0 or not isinstance(found, list) or found[:-1] != (stored or []):
        return ["the next run ends with status %d and leaves %r: %s" % (run.returncode, found, run.stderr)]
    return []


class Seen:
    """What came of runs of one kind, as a line of a table. What isn't as it must be is among the faults."""

    HEAD = ("| What fails | Runs | Stopped | Lines out | Stored afterwards | Left over | After the next run |\n"
            "|---|---|---|---|---|---|---|")
    faults = []

    def __init__(self, name, status=4):
        self.name, self.status = name, status
        self.runs, self.stopped, self.left, self.later = 0, 0, 0, 0
        self.lines, self.stored = set(), set()

    def count(self, run):
        self.runs += 1
        self.stopped += run.returncode == self.status
        self.lines.add(run.stdout.count(b"\n"))

    def look(self, work, where, run, folder):
        """Takes a run, and the folder that it left, over which nothing fails now."""
        text, stored = run.stdout.decode(), asked(folder)
        self.count(run)
        self.stored.add("no index" if stored is None else "%d documents" % len(stored))
        self.left = max(self.left, left_over(folder))
        wrong = []
        if run.returncode not in (0, self.status) or (run.returncode == 0 and text != work.text):
            wrong.append("status %d, it said %r" % (run.returncode, run.stderr))
        if not work.text.startswith(text) or (text and not text.endswith("\n")):
            wrong.append("it wrote %r" % text)
        if stored not in work.stored(text.count("\n")):
            wrong.append("%r is stored, where it wrote %r" % (stored, text))
        wrong += goes_on(folder, stored)
        self.later = max(self.later, left_over(folder))
        self.faults.extend("%s, %s: %s" % (work.name, where, it) for it in wrong)

    def tell(self):
        lines = " to ".join(map(str, sorted({min(self.lines), max(self.lines)})))
        row = (self.name, self.runs, self.stopped, lines, ", ".join(sorted(self.stored)), self.left, self.later)
        print("| %s |" % " | ".join(map(str, row)), flush=True)
