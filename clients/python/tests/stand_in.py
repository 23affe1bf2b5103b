#!/usr/bin/python3
"""A program that talks as `bkd` does, over the model of its language: `session`, `run`, and what else it is told to
have.

It keeps its documents in `model.json`, and writes a commit file that lists no segments, so that a client finds the
dimensions; with STAND_IN_FILES there are segments too, which hold the documents. The environment tells how it differs:
STAND_IN_COMMANDS is the list of its commands, with STAND_IN_NOTES it notes why it refuses a line, and STAND_IN_AT, as
`LINE:WHAT`, tells what it does in place of that line: `die` (by SIGKILL), `hang`, `damaged`, `noted` (a folder fault
and why), `garbage`, or a status. STAND_IN_LAST is what a script says when all is done. It holds its folder as the
program does.
"""
from __future__ import annotations

import fcntl
import json
import os
import signal
import sys
import time

from model import Model, State, in_box
from writer import write_index

STATUS = {3: "source fault", 4: "folder fault", 5: "sink fault", 7: "out of memory", 8: "input too large"}


# what is stored, as it was read or written last
stored: list[str] = []


def read(folder: str) -> list[str]:
    try:
        with open(os.path.join(folder, "model.json")) as file:
            return [file.read()]
    except FileNotFoundError:
        return []


def load(folder: str) -> State | None:
    stored[:] = read(folder)
    if not stored:
        return None
    found = json.loads(stored[0])
    docs = {int(n): [tuple(p) for p in points] for n, points in found.pop("docs").items()}
    return State(docs=docs, **found)


def store(folder: str, state: State | None) -> None:
    if state is None:
        return
    kept = {"dims": state.dims, "leaf": state.leaf, "next": state.next, "given": state.given, "docs": state.docs}
    text = json.dumps(kept)
    if stored == [text]:
        return
    hold(folder, fcntl.LOCK_EX)
    if read(folder) != stored:
        end(4, "bkd: another run has committed meanwhile: run this again\nfolder fault")
    aside = os.path.join(folder, "model.aside")
    with open(aside, "w") as file:
        file.write(text)
    os.rename(aside, os.path.join(folder, "model.json"))
    stored[:] = [text]
    write_files(folder, state)


def write_files(folder: str, state: State) -> None:
    """The documents in up to four segments of form 3."""
    numbers = list(state.docs) if os.environ.get("STAND_IN_FILES") else []
    quarter = max(1000, -(-len(numbers) // 4))
    generation = len(os.listdir(folder))
    parts = [{n: state.docs[n] for n in numbers[i:i + quarter]} for i in range(0, len(numbers), quarter)]
    segments = [(i, generation, 3, part, list(part)) for i, part in enumerate(parts)]
    write_index(folder, state.dims, state.leaf, segments, state.next, state.given)


def end(status: int, said: str = "") -> None:
    sys.stdout.flush()
    if said:
        print(said, file=sys.stderr, flush=True)
    os._exit(status)


def fail(what: str) -> None:
    sys.stdout.flush()
    if what == "die":
        os.kill(os.getpid(), signal.SIGKILL)
    elif what == "hang":
        time.sleep(3600)
    elif what == "garbage":
        print("what?", flush=True)
        time.sleep(3600)
    elif what == "noted":
        end(4, "bkd: writing seg-0000000000000003.bkd: no space left on device\nfolder fault")
    elif what == "damaged":
        end(6, "damaged: seg-0000000000000000.bkd page 2 leaf at 352")
    end(int(what), STATUS.get(int(what), ""))


def note_on(line: int) -> None:
    print(f"bkd: line {line}: expected: add C1 .. CD, as in: add 1 2", file=sys.stderr, flush=True)


def script(folder: str, stays: bool) -> None:
    model = Model(load(folder))
    at, _, what = os.environ.get("STAND_IN_AT", "0:").partition(":")
    lines = sys.stdin.buffer if stays else sys.stdin.buffer.read().splitlines(keepends=True)
    for raw in lines:
        if model.lines + 1 == int(at):
            fail(what)
        refused = model.count
        answer = model.line(raw.removesuffix(b"\n"))
        if model.count > refused and os.environ.get("STAND_IN_NOTES"):
            note_on(model.lines)
        if model.committed:
            store(folder, model.state)
            model.committed = False
        sys.stdout.write(answer)
        if stays:
            sys.stdout.flush()
    store(folder, model.state)
    sys.stdout.write(os.environ.get("STAND_IN_LAST", ""))
    end(2 if model.count else 0, f"refused {model.count}" if model.count else "")


def load_table(folder: str) -> None:
    """A table whose columns are all named, in an index that is there."""
    model = Model(load(folder))
    next(sys.stdin.buffer)
    for count, raw in enumerate(sys.stdin.buffer, 1):
        model.line(b"add " + raw.removesuffix(b"\n").replace(b",", b" "))
    store(folder, model.state)
    print(f"loaded {count}\nnext {model.state.next}")
    end(0)


def check(folder: str) -> None:
    state = load(folder)
    if state is None:
        print("no index")
    else:
        print(f"ok dims {state.dims} leaf {state.leaf} next {state.next} live {len(state.docs)} segments 0")
    end(0)


def count(folder: str) -> None:
    """`points LO HI` and `grid X STEPX Y STEPY LO HI`, of an index that is there and lines that are well formed."""
    state = load(folder)
    points = [p for document in state.docs.values() for p in document]
    for line in sys.stdin:
        numbers = list(map(int, line.split()[1:]))
        low, high = numbers[-2 * state.dims:-state.dims], numbers[-state.dims:]
        inside = [p for p in points if in_box(p, low, high)]
        if line.startswith("points"):
            print(f"points {len(inside)}")
            continue
        x, step_x, y, step_y = numbers[:4]
        buckets: dict[tuple[int, int], int] = {}
        for p in inside:
            place = ((p[x] - low[x]) // step_x, (p[y] - low[y]) // step_y)
            buckets[place] = buckets.get(place, 0) + 1
        print(f"buckets {len(buckets)}")
        for (i, j), n in sorted(buckets.items()):
            print(i, j, n)
    end(0)


def explain(folder: str) -> None:
    """What queries find, in segments of which nothing is told."""
    model = Model(load(folder))
    for raw in sys.stdin.buffer:
        words = model.line(raw.removesuffix(b"\n")).split()
        print(f"touched 0 near {words[1]}" if words[0] == "near" else f"tested 0 touched 0 hits {words[1]}")
    end(0)


def batch(folder: str) -> None:
    if os.environ.get("STAND_IN_AT", "").endswith("noted"):
        fail("noted")
    model = Model(load(folder))
    for raw in sys.stdin.buffer:
        refused = model.count
        sys.stdout.write(model.line(raw.removesuffix(b"\n")))
        if model.count > refused and os.environ.get("STAND_IN_NOTES"):
            note_on(model.lines)
    end(2 if model.count else 0, f"refused {model.count}" if model.count else "")


def ranges(folder: str) -> None:
    """Lines of ranges as boxes over points of twice the dimensions; only well-formed lines."""
    model = Model(load(folder))
    for raw in sys.stdin:
        verb, *words = raw.split()
        r = model.state.dims // 2 if model.state else 0
        low, high = words[:r], words[r:]
        least, greatest = [str(-(1 << 31))] * r, [str((1 << 31) - 1)] * r
        boxes = {
            "intersects": least + low + high + greatest,
            "within": low + low + high + high,
            "contains": least + high + low + greatest,
        }
        if verb == "create":
            words[0] = str(2 * int(words[0]))
        if verb in boxes:
            verb, words = "box", boxes[verb]
        sys.stdout.write(model.line(" ".join([verb, *words]).encode()))
    store(folder, model.state)
    end(2 if model.count else 0, f"refused {model.count}" if model.count else "")


held: list[int] = []


def hold(folder: str, how: int) -> None:
    """Holds the folder until the program ends, and waits for others for so long as is said."""
    if "--no-lock" in sys.argv:
        return
    if not held:
        held.append(os.open(folder, os.O_RDONLY))
    until = time.monotonic() + (int(sys.argv[sys.argv.index("--wait") + 1]) if "--wait" in sys.argv else 0)
    while True:
        try:
            fcntl.flock(held[0], how | fcntl.LOCK_NB)
            return
        except BlockingIOError:
            if time.monotonic() >= until:
                end(4, "bkd: another run works in the folder\nfolder fault")
            time.sleep(0.02)


def export(folder: str) -> None:
    state = load(folder)
    if state is None:
        print("no index", flush=True)
        end(2, "refused 1")
    half, is_ranges = state.dims // 2, "--as-ranges" in sys.argv
    if is_ranges and state.dims % 2:
        print("not ranges", flush=True)
        end(2, "refused 1")
    names = [f"{'lh'[d // half]}{d % half + 1}" if is_ranges else f"c{d + 1}" for d in range(state.dims)]
    print("doc", *names, sep=",")
    for number, points in state.docs.items():
        for point in sorted(points):
            print(number, *point, sep=",")
    end(0)


def info(folder: str) -> None:
    state = load(folder)
    if state is None:
        print("no index")
    else:
        print(f"dims {state.dims} leaf {state.leaf} next {state.next} points {state.given} live {len(state.docs)} "
              f"segments 0 bytes {os.path.getsize(os.path.join(folder, 'commit.bkd'))}")
    end(0)


def main() -> None:
    commands = os.environ.get("STAND_IN_COMMANDS", "run|load|explain|check|generate|session").split("|")
    does = {"session": lambda f: script(f, True), "run": lambda f: script(f, False),
            "load": load_table, "explain": explain, "check": check, "count": count, "batch": batch, "ranges": ranges,
            "export": export, "info": info}
    if len(sys.argv) < 3 or sys.argv[2] not in commands or sys.argv[2] not in does:
        end(1, f"usage: bkd FOLDER {'|'.join(commands)} [options]")
    folder = sys.argv[1]
    if not os.path.isdir(folder):
        end(4, "folder fault")
    hold(folder, fcntl.LOCK_SH)
    does[sys.argv[2]](folder)


if __name__ == "__main__":
    main()
