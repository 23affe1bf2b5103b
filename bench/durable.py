#!/usr/bin/env python3
"""Shows what a power cut leaves of the program bkd, which has to be built (rt run in crates/bkd).

usage: bench/durable.py order | synced | cuts [FOLDERS] | cost [COMMITS]

order    the calls on files that a script with some commits makes, as strace (Debian's strace) tells them
synced   looks through these calls, in a second: before a rename all that was written is synced, and the directory
         behind the files that are new in it, and the directory again before the commit is answered. Status 3 where
         there is no strace, or it may not look
cuts     these calls cut off at every point: what was synced is there, of the rest any part is; each folder that can be
         left so is opened, and its answer has to be that of the last commit that was answered, or of the one in flight.
         Where more than FOLDERS (1000) could be left by a cut a tenth as many are drawn, beside those where one call
         alone is missing, or alone was done
cost     what each of COMMITS commits (200) takes with its syncs, without them, and beside SQLite's (Python's sqlite3)
BKD names the program where it is not crates/bkd/out/bkd.
"""
import itertools
import os
import random
import shutil
import sqlite3
import subprocess
import sys
import tempfile
import time

# the checkout stays as it is
sys.dont_write_bytecode = True

from durable_calls import TRACED, Trace

HERE = os.path.dirname(os.path.abspath(__file__))
PROGRAM = os.environ.get("BKD", os.path.join(HERE, "..", "crates", "bkd", "out", "bkd"))
# the lines of the script, and after a commit the numbers of the documents that a box over everything finds
SCRIPT = [
    ("create 1", None), ("add 5", None), ("add 7", None), ("commit", [0, 1]),
    ("add 9", None), ("delete 0", None), ("commit", [1, 2]),
    ("flush", None), ("add 11 12", None), ("flush", None), ("commit", [1, 2, 3]),
    ("merge", None), ("delete 1", None), ("commit", [2, 3]),
    ("delete 2", None), ("add 1", None), ("commit", [3, 4]),
]
QUESTION = "box -2147483648 2147483647\n"


def answer(numbers):
    """What the question is answered: no index is there before the first commit."""
    if numbers is None:
        return "line 1: no index\n"
    return "hits %d\n%s" % (len(numbers), "".join("%d\n" % n for n in numbers))


def run(folder, text):
    """The answers of the program to a script over a folder."""
    return subprocess.run([PROGRAM, folder, "run", "--forks", "0"], input=text.encode(), stdout=subprocess.PIPE,
                          stderr=subprocess.DEVNULL).stdout.decode()


def traced(folder):
    """The calls that the script makes over an empty folder, and its text out."""
    text = "".join(line + "\n" for line, _ in SCRIPT)
    with tempfile.NamedTemporaryFile("r") as log:
        words = ["strace", "-o", log.name, "-xx", "-s", str(1 << 24), "-e", "trace=" + TRACED]
        words += [PROGRAM, folder, "run", "--forks", "0"]
        said = subprocess.run(words, input=text.encode(), capture_output=True, check=True).stdout
        trace = Trace(os.path.abspath(folder))
        for line in log:
            trace.line(line)
    return trace.calls, said


def is_change(call):
    return call.kind not in ("sync", "answer")


def is_sure(calls, at, cut):
    """Whether what the call at this place did is on the disk when the power goes before the call `cut`: a file's bytes
    are where the file was synced behind them, its name is where the directory was."""
    call = calls[at]
    file = call.file if call.kind in ("write", "truncate") else None
    return any(later.kind == "sync" and later.file == file for later in calls[at + 1:cut])


def left(calls, parts):
    """The files that are left of these calls, each done whole (2), done by half (1) or not at all (0)."""
    names, files = {}, {}
    for call, part in zip(calls, parts):
        if not part or not is_change(call):
            continue
        body = files.setdefault(call.file, bytearray())
        if call.kind == "create":
            names[call.names[0]] = call.file
        elif call.kind == "remove":
            names.pop(call.names[0], None)
        elif call.kind == "rename":
            names.pop(call.names[0], None)
            names[call.names[1]] = call.file
        elif call.kind == "truncate":
            del body[:]
        else:
            data = call.data if part == 2 else call.data[:len(call.data) // 2]
            body.extend(bytes(max(0, call.at + len(data) - len(body))))
            body[call.at:call.at + len(data)] = data
    return {name: bytes(files.get(file, b"")) for name, file in names.items()}


def choices(calls, cut, most):
    """What may have been done of each call before the cut: all combinations, or where they are too many none, all, each
    alone, all but each, and a sample."""
    ranges = [(2,) if not is_change(calls[i]) or is_sure(calls, i, cut) else (0, 2, 1) if calls[i].kind == "write"
              else (0, 2) for i in range(cut)]
    count = 1
    for options in ranges:
        count *= len(options)
    if count <= most:
        yield from itertools.product(*ranges)
        return
    none, whole = [r[0] for r in ranges], [2] * cut
    yield from (none, whole)
    for i in range(cut):
        if len(ranges[i]) > 1:
            yield whole[:i] + [0] + whole[i + 1:]
            yield none[:i] + [2] + none[i + 1:]
    draw = random.Random(cut)
    for _ in range(most // 10):
        yield [draw.choice(options) for options in ranges]


def allowed(calls, cut):
    """The answers that a folder may give after a cut: of the last commit answered, and of the one in flight."""
    lines = b"".join(call.data for call in calls[:cut] if call.kind == "answer").count(b"\n")
    done = [numbers for _, numbers in SCRIPT[:lines] if numbers is not None]
    coming = [numbers for _, numbers in SCRIPT[lines:] if numbers is not None]
    return {answer(done[-1] if done else None), answer(coming[0] if coming else done[-1])}


def cuts(most):
    work = tempfile.mkdtemp(prefix="durable-")
    folder = os.path.join(work, "traced")
    os.mkdir(folder)
    calls, _ = traced(folder)
    asked, wrong, copy = {}, 0, os.path.join(work, "left")
    for cut in range(len(calls) + 1):
        if sys.stderr.isatty():
            print("cut %d of %d, %d folders" % (cut, len(calls), len(asked)), end="\r", file=sys.stderr)
        wanted = allowed(calls, cut)
        for parts in choices(calls, cut, most):
            files = left(calls[:cut], parts)
            key = tuple(sorted(files.items()))
            if key not in asked:
                shutil.rmtree(copy, ignore_errors=True)
                os.mkdir(copy)
                for name, body in files.items():
                    with open(os.path.join(copy, name), "wb") as file:
                        file.write(body)
                asked[key] = run(copy, QUESTION)
            if asked[key] not in wanted:
                wrong += 1
                if wrong <= 5:
                    at = calls[cut] if cut < len(calls) else "end"
                    print("wrong: cut before call %d (%s): %r, where %r may be" % (cut, at, asked[key], sorted(wanted)))
    shutil.rmtree(work)
    print("cuts: %d calls, %d different folders opened, %d wrong" % (len(calls), len(asked), wrong))
    return wrong == 0


def order():
    with tempfile.TemporaryDirectory(prefix="durable-") as folder:
        calls, _ = traced(folder)
    lines = iter(line for line, _ in SCRIPT)
    for call in calls:
        if call.kind == "answer":
            for said in call.data.decode().splitlines():
                print("  %-12s -> %s" % (next(lines, "?"), said))
        else:
            print(call)
    return True


def unsynced(calls):
    """What these calls leave to chance: a rename over bytes or names that are not on the disk, an answer to a commit
    whose own name isn't."""
    written, created, renamed = set(), False, False
    for at, call in enumerate(calls):
        if call.kind == "rename":
            if written:
                yield "call %d (%s): not all bytes before it are synced" % (at, call)
            if created:
                yield "call %d (%s): the directory isn't synced behind the new files" % (at, call)
            renamed = True
        elif call.kind in ("create", "truncate", "write"):
            written.add(call.file)
            created |= call.kind == "create"
        elif call.kind == "remove":
            written.discard(call.file)
        elif call.kind == "sync" and call.file is None:
            created = renamed = False
        elif call.kind == "sync":
            written.discard(call.file)
        elif call.kind == "answer" and renamed:
            yield "call %d (an answer): the name of the commit isn't synced" % at


def synced():
    with tempfile.TemporaryDirectory(prefix="durable-") as folder:
        try:
            calls, _ = traced(folder)
        except (OSError, subprocess.CalledProcessError) as fault:
            print("not tried: strace can't look at the program: %s" % fault)
            sys.exit(3)
    wrong = list(unsynced(calls))
    for it in wrong:
        print("wrong:", it)
    counts = [sum(call.kind == kind for call in calls) for kind in ("rename", "sync")]
    print("synced: %d commits, %d syncs, %d wrong" % (*counts, len(wrong)))
    return not wrong and counts[0] > 0


NO_SYNC = "int fsync(int f) { return 0; }\nint fdatasync(int f) { return 0; }\n"


def timed(commits, library=None):
    """Seconds a commit, of a script that adds a document and commits, again and again."""
    text = ("create 2\n" + "".join("add %d %d\ncommit\n" % (i, i) for i in range(commits))).encode()
    environment = dict(os.environ, **({"LD_PRELOAD": library} if library else {}))
    with tempfile.TemporaryDirectory(prefix="durable-", dir=os.getcwd()) as folder:
        begun = time.perf_counter()
        subprocess.run([PROGRAM, folder, "run"], input=text, stdout=subprocess.DEVNULL, env=environment, check=True)
        return (time.perf_counter() - begun) / commits


def timed_sqlite(commits, mode):
    with tempfile.TemporaryDirectory(prefix="durable-", dir=os.getcwd()) as folder:
        base = sqlite3.connect(os.path.join(folder, "base"), isolation_level=None)
        base.execute("pragma journal_mode=" + mode)
        base.execute("pragma synchronous=full")
        base.execute("create virtual table points using rtree_i32(id, x0, x1, y0, y1)")
        begun = time.perf_counter()
        for i in range(commits):
            base.execute("insert into points values (?, ?, ?, ?, ?)", (i, i, i, i, i))
        spent = (time.perf_counter() - begun) / commits
        base.close()
    return spent


def cost(commits):
    with tempfile.TemporaryDirectory() as folder:
        library = os.path.join(folder, "no_sync.so")
        subprocess.run(["cc", "-shared", "-fPIC", "-x", "c", "-o", library, "-"], input=NO_SYNC.encode(), check=True)
        rows = [("with syncs", timed(commits)), ("without syncs", timed(commits, library))]
        rows += [(f"SQLite, journal {it}, synchronous full", timed_sqlite(commits, it)) for it in ("delete", "wal")]
    for name, spent in rows:
        print("%-42s %8.3f ms a commit" % (name, spent * 1000))
    return True


if __name__ == "__main__":
    words = sys.argv[1:]
    if not words or words[0] not in ("order", "synced", "cuts", "cost"):
        raise SystemExit(__doc__)
    count = int(words[1]) if len(words) > 1 else {"cuts": 1000, "cost": 200}.get(words[0])
    good = {"order": order, "synced": synced, "cuts": lambda: cuts(count), "cost": lambda: cost(count)}[words[0]]()
    sys.exit(0 if good else 1)
