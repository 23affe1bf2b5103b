"""Processes that use an index and are interrupted, killed, or end: each is this file with a task's name and a folder.

usage: callers.py TASK FOLDER WORDS..    WORDS start the program
A task says `ready` where it is to be hit, and what came of it.
"""
import os
import random
import signal
import sys
import threading
import time
from pathlib import Path

sys.path.insert(0, str(Path(__file__).resolve().parents[1]))

import bkd
from bkd import requests


def say(*words):
    print(*words, flush=True)


def points():
    i = 0
    while True:
        yield (i, i)
        i += 1


def told_often(every=20_000):
    """Points without end, which tell where they are."""
    for i, point in enumerate(points()):
        if i == every:
            say("ready")
        yield point


def killed_between(folder, words):
    """Two documents are committed, one isn't; then it waits to be killed."""
    index = bkd.open(folder, create=True, program=words)
    index.add_many([(1, 1), (2, 2)])
    index.commit()
    index.add((3, 3))
    say(index._session.pid)
    say("ready")
    sys.stdin.read()


def killed_within(folder, words):
    """It is killed in the midst of many documents."""
    index = bkd.open(folder, create=True, program=words)
    say(index._session.pid)
    index.add_many(told_often())


def killed_in_a_with(folder, words):
    with bkd.open(folder, create=True, program=words) as index:
        say(index._session.pid)
        index.add_many(told_often())


def killed_in_a_load(folder, words):
    """A table that is read from a pipe is whole before the program starts, so it is killed before that."""
    bkd.open(folder, create=True, program=words).close()
    source, sink = os.pipe()
    os.write(sink, b"x,y\n1,1\n")
    say("0")
    say("ready")
    with open(source) as table:
        bkd.load(folder, ["x", "y"], table.read(), program=words)


def left_open(folder, words):
    """It ends without closing the index."""
    index = bkd.open(folder, create=True, program=words)
    index.add((1, 1))
    say(index._session.pid)


def interrupted_within(folder, words):
    """Ctrl-C in many documents: what was sent is done, the index goes on, and closing commits it."""
    index = bkd.open(folder, create=True, program=words)
    say(index._session.pid)
    try:
        index.add_many(told_often())
    except KeyboardInterrupt as error:
        say("interrupted", " ".join(error.__notes__))
    given = index.given
    assert given.start == 0 and len(given) >= 8192 and index.add((7, 7)) == len(given)
    assert index.box((0, 0), (1 << 30, 1 << 30)) == list(range(len(given) + 1))
    index.close()
    say(len(given) + 1)


def interrupted_in_an_answer(folder, words):
    """Ctrl-C while a long answer comes: it is dropped, and the next one is right."""
    with bkd.open(folder, create=True, program=words) as index:
        index.add_many((i, i) for i in range(20_000))
        say(index._session.pid)
        try:
            say("ready")
            while True:
                index.ask([requests.box((0, 0), (20_000, 20_000))] * 20)
        except KeyboardInterrupt:
            say("interrupted")
        assert index.box((5, 5), (7, 7)) == [5, 6, 7]
        assert index.add((5, 5)) == 20_000
        say(len(index))


def interrupted_in_a_with(folder, words):
    """Ctrl-C that leaves the `with` undoes what isn't committed."""
    try:
        with bkd.open(folder, create=True, program=words) as index:
            index.add((1, 1))
            index.commit()
            say(index._session.pid)
            index.add_many(told_often())
    except KeyboardInterrupt:
        say("interrupted")


def many_interrupts(folder, words):
    """Interrupts wherever they come, and calls that none comes to after them; nothing is lost, doubled or mixed up."""
    index = bkd.open(folder, create=True, program=words)
    interrupts = 0

    def interrupt(number, frame):
        while frame is not None:
            if frame.f_code is grown.__code__:
                raise KeyboardInterrupt
            frame = frame.f_back

    signal.signal(signal.SIGALRM, interrupt)
    draw, usual = random.Random(1), seconds_of(grown, index)
    while interrupts < 100:
        signal.setitimer(signal.ITIMER_REAL, 0.00001 + draw.random() * usual)
        try:
            grown(index)
        except KeyboardInterrupt:
            interrupts += 1
            signal.setitimer(signal.ITIMER_REAL, 0)
            if interrupts % 4 == 0:
                grown(index)
    signal.setitimer(signal.ITIMER_REAL, 0)
    found = index.box((-1 << 31, -1 << 31), ((1 << 31) - 1,) * 2)
    assert found == list(range(len(found))) and len(index) == len(found) and index.add((0, 0)) == len(found)
    # each document is where its number says
    for number in range(0, len(found), 1 + len(found) // 50):
        assert number in index.box((number, number), (number, number))
    index.close()
    say("done", interrupts, len(found))


def seconds_of(work, *words):
    """How long it takes, usually."""
    taken = []
    for _ in range(9):
        begun = time.perf_counter()
        work(*words)
        taken.append(time.perf_counter() - begun)
    return sorted(taken)[4]


def grown(index):
    """Adds documents at places that their numbers are, and asks for some of them."""
    first = len(index)
    index.ask([requests.add((first + i, first + i)) for i in range(5)])
    assert first in index.box((first, first), (first, first))


def forked(folder, words):
    """A child of a fork can't use the index, and doesn't disturb it, whatever it does and however it ends."""
    index = bkd.open(folder, create=True, program=words)
    index.add((1, 1))
    child = os.fork()
    if child == 0:
        for use in (lambda: index.add((2, 2)), index.commit, index.close, index.abandon, index.rollback,
                    lambda: len(index)):
            try:
                use()
            except bkd.Closed:
                pass
        sys.exit(0)
    assert os.waitpid(child, 0)[1] == 0
    # one that lives on keeps nothing open
    source, sink = os.pipe()
    living = os.fork()
    if living == 0:
        os.close(sink)
        os.read(source, 1)
        os._exit(0)
    assert index.add((2, 2)) == 1
    index.close()
    with bkd.open(folder, program=words) as again:
        say(len(again))
    os.close(sink)
    os.waitpid(living, 0)


def forked_in_a_call(folder, words):
    """A fork by another thread, in the middle of a call."""
    index = bkd.open(folder, create=True, program=words)
    begun = threading.Event()

    def documents():
        for i in range(200_000):
            if i == 50_000:
                begun.set()
            yield (i, i)

    adding = threading.Thread(target=index.add_many, args=(documents(),))
    adding.start()
    begun.wait()
    child = os.fork()
    if child == 0:
        try:
            index.add((1, 1))
        except bkd.Closed:
            os._exit(0)
        os._exit(1)
    assert os.waitpid(child, 0)[1] == 0
    adding.join()
    say(len(index))
    index.close()


if __name__ == "__main__":
    globals()[sys.argv[1]](sys.argv[2], sys.argv[3:])
