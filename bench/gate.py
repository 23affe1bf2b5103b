#!/usr/bin/env python3
"""Measures what the gate costs, crate by crate, in processor seconds, and writes it as a Markdown table.

usage: bench/gate.py [--out FILE]                       clones HEAD into a temporary folder and runs rt ci there, from
                                                        nothing
       bench/gate.py --follow PID|FOLDER [--out FILE]   watches a gate that runs already: rt ci itself or what started
                                                        it, or the clone it runs in

FILE (gate.md in the folder for temporary files, where it is left out) is written anew each minute, and once more at the
end; the end's goes to standard output too. What rt ci of the clone says is kept beside it, in FILE.log.

Nothing of the kit is changed: once a second this reads from /proc which checks rt has started and what each has used.
The last bit of each, between the last look and its end, is in what the system has counted for rt's ended children, so
that no sum lacks it.
"""
import argparse
import os
import subprocess
import sys
import tempfile
import time

sys.dont_write_bytecode = True
import gate_table  # noqa: E402
from gate_watch import Gate  # noqa: E402

HERE = os.path.dirname(os.path.abspath(__file__))
EACH, WRITTEN = 1.0, 60.0


def is_gate(pid):
    """Returns whether the process is rt ci, and nothing that has started it."""
    words = read_words(pid)
    if words and os.path.basename(words[0]).startswith("python"):
        words = words[1:]
    return len(words) > 1 and os.path.basename(words[0]) == "rt" and words[1] == "ci"


def read_words(pid):
    try:
        with open(f"/proc/{pid}/cmdline", "rb") as it:
            return it.read().decode(errors="replace").split("\0")[:-1]
    except OSError:
        return []


def parent_of(pid):
    try:
        with open(f"/proc/{pid}/stat", "rb") as it:
            return int(it.read().rpartition(b")")[2].split()[1])
    except (OSError, IndexError):
        return 0


def folder_of(pid):
    try:
        return os.readlink(f"/proc/{pid}/cwd")
    except OSError:
        return ""


def stands_below(pid, above):
    while pid > 1 and pid != above:
        pid = parent_of(pid)
    return pid == above


def find_gate(said, seconds=120):
    """Finds the process rt ci by its id, by that of a process above it, or by the folder that it runs in."""
    above = int(said) if said.isdigit() else None
    folder = None if above else os.path.realpath(said)
    until = time.monotonic() + seconds
    while True:
        for pid in (int(it) for it in os.listdir("/proc") if it.isdigit()):
            if is_gate(pid) and (stands_below(pid, above) if above else folder_of(pid) == folder):
                return pid
        if time.monotonic() > until or above and not os.path.exists(f"/proc/{above}"):
            sys.exit(f"gate.py: no rt ci was found by {said}")
        time.sleep(EACH)


def write(file, text):
    with open(f"{file}.new", "w", encoding="utf-8") as it:
        it.write(text)
    os.replace(f"{file}.new", file)


def follow(pid, file, wait=lambda: None):
    """Watches the gate to its end and returns its table."""
    gate, folder = Gate(pid), folder_of(pid)
    rows = gate_table.crates_in(folder)
    written = time.monotonic()
    while gate.look():
        wait()
        if time.monotonic() - written >= WRITTEN:
            write(file, gate_table.table(rows, gate, is_done=False))
            written = time.monotonic()
        time.sleep(EACH)
    text = gate_table.table(rows, gate, is_done=True)
    write(file, text)
    return text


def run_anew(file):
    """Runs rt ci in a clone of HEAD and watches it."""
    with tempfile.TemporaryDirectory(prefix="gate-") as room, open(f"{file}.log", "w", encoding="utf-8") as log:
        clone = f"{room}/clone"
        subprocess.run(["git", "clone", "-q", os.path.dirname(HERE), clone], check=True)
        begun = subprocess.Popen(["rt", "ci"], cwd=clone, stdin=subprocess.DEVNULL, stdout=log,
                                 stderr=subprocess.STDOUT)
        try:
            # (asking for its end takes it off the list of processes)
            text = follow(begun.pid, file, begun.poll)
        finally:
            begun.terminate()
            status = begun.wait()
    return text, status


def main():
    asked = argparse.ArgumentParser(usage=__doc__.partition("usage: ")[2].partition("\n\n")[0])
    asked.add_argument("--follow")
    asked.add_argument("--out", default=f"{tempfile.gettempdir()}/gate.md")
    given = asked.parse_args()
    print(f"gate.py: the table goes to {given.out}", file=sys.stderr)
    if given.follow:
        text, status = follow(find_gate(given.follow), given.out), 0
    else:
        text, status = run_anew(given.out)
        with open(f"{given.out}.log", encoding="utf-8") as it:
            print("".join(it.readlines()[-3:]), file=sys.stderr, end="")
    print(text, end="")
    return 1 if status else 0


if __name__ == "__main__":
    sys.exit(main())
