"""Documents and counts of what isn't committed, beside a plain list; what isn't known where a call was cut short."""
import os
import random
import signal
import threading
import time

import pytest

import bkd
from bkd import requests
from bkd.answers import DOC
from bkd.many import Many
from bkd.unstored import Going, Piece, Unstored

EVERY = ((-(1 << 31),) * 2, ((1 << 31) - 1,) * 2)
SPAN = 30


def in_box(point, low, high):
    return all(a <= c <= b for a, c, b in zip(low, point, high))


class Plain:
    """The documents, as they are and as they were stored."""

    def __init__(self):
        self.docs, self.next = {}, 0
        self.stored = {}, 0

    def add(self, documents):
        for document in documents:
            self.docs[self.next] = tuple(sorted(set(document)))
            self.next += 1

    def count(self, low, high):
        return sum(in_box(point, low, high) for points in self.docs.values() for point in points)

    def grid(self, x, step_x, y, step_y, low, high):
        found = {}
        for points in self.docs.values():
            for point in points:
                if in_box(point, low, high):
                    at = (point[x] - low[x]) // step_x, (point[y] - low[y]) // step_y
                    found[at] = found.get(at, 0) + 1
        return [(*at, n) for at, n in sorted(found.items())]


def box_of(draw):
    corners = [sorted(draw.choices(range(-SPAN, SPAN), k=2)) for _ in range(2)]
    return tuple(c[0] for c in corners), tuple(c[1] for c in corners)


def compare(index, plain, draw):
    low, high = box_of(draw)
    assert index.count(low, high) == plain.count(low, high)
    x, steps = draw.randint(0, 1), (draw.randint(1, 9), draw.randint(1, 9))
    asked = (x, steps[0], 1 - x, steps[1], low, high)
    assert index.grid(*asked) == plain.grid(*asked)
    assert list(index.items(low, high)) == [(n, points) for n, points in plain.docs.items()
                                            if any(in_box(point, low, high) for point in points)]
    number = draw.randint(0, plain.next)
    assert index.get(number) == plain.docs.get(number)


def step(index, plain, draw, most):
    """One thing that changes something, done to both."""
    def document():
        return [(draw.randint(-SPAN, SPAN), draw.randint(-SPAN, SPAN)) for _ in range(draw.randint(1, most))]

    what = draw.choice("add many array ask delete gone box commit rollback refused flush merge reopen".split())
    if what == "add":
        plain.add([one := document()])
        index.add(one)
    elif what in ("many", "array"):
        some = [document()[:1 if what == "array" else None] for _ in range(draw.randint(1, 20))]
        plain.add(some)
        index.add_many(pytest.importorskip("numpy").array([one[0] for one in some]) if what == "array" else iter(some))
    elif what == "ask":
        some = [document(), document()]
        index.ask([requests.add(some[0]), requests.COMMIT, requests.box(*EVERY), requests.add(some[1])])
        plain.add(some[:1])
        plain.stored = dict(plain.docs), plain.next
        plain.add(some[1:])
    elif what in ("delete", "gone"):
        number = draw.randint(0, plain.next)
        index.delete(number) if what == "delete" else index.delete_many([number])
        plain.docs.pop(number, None)
    elif what == "box":
        low, high = box_of(draw)
        index.delete_box(low, high)
        plain.docs = {n: points for n, points in plain.docs.items() if not any(in_box(p, low, high) for p in points)}
    elif what == "refused":
        some = [document() for _ in range(4)]
        with pytest.raises(bkd.Refused):
            index.add_many([some[0], (1, 2, 3), some[1], (1,), some[2], some[3]])
        plain.add(some)
    elif what in ("flush", "merge"):
        getattr(index, what)()
    elif what == "rollback":
        index.rollback()
        plain.docs, plain.next = dict(plain.stored[0]), plain.stored[1]
    else:
        getattr(index, what)()
        plain.stored = dict(plain.docs), plain.next


@pytest.mark.parametrize("most", [1, 3])
@pytest.mark.parametrize("seed", range(6))
def test_beside_a_plain_list(real, tmp_path, most, seed):
    """Of documents of one point, and of several."""
    draw, plain = random.Random(f"{seed} {most}"), Plain()
    with bkd.open(tmp_path, leaf=5, create=True, program=real) as index:
        for _ in range(40):
            step(index, plain, draw, most)
            compare(index, plain, draw)
        assert dict(index.export()) == plain.docs
        numbers, points = index.to_arrays()
        assert [(n, tuple(p)) for n, p in zip(numbers.tolist(), points.tolist())] == \
            [(n, point) for n, document in plain.docs.items() for point in document]
    assert dict(bkd.export(tmp_path, program=real)) == plain.docs


def test_a_count_costs_no_process(real, tmp_path, monkeypatch):
    """Where each document has one point, but for large counts of what is stored; and it is told in the same words where
    it is refused."""
    with bkd.open(tmp_path, create=True, program=real) as index:
        index.add_many((i, i) for i in range(1000))
        index.commit()
        index.add((5, 5))
        asked, commands = [], bkd.stored.commands
        monkeypatch.setattr(commands, "count", lambda *words, **options: asked.append(words) or [0])
        assert index.count((0, 0), (9, 9)) == 11 and index.count(*EVERY) == 1001
        index.commit()
        assert index.count((0, 0), (9, 9)) == 11 and not asked
        monkeypatch.setattr(bkd.stored, "_FEW", 10)
        assert index.count((0, 0), (9, 9)) == 0 and len(asked) == 1
        assert index.count((0, 0), (9, 9)) == 11 and len(asked) == 1  # (as the last one was small)
        monkeypatch.undo()
        with pytest.raises(bkd.Refused) as told:
            index.count((0,), (9,))
        assert told.value.line == "points 0 9"


def test_what_an_iterator_gave_that_raised(program, tmp_path):
    def some():
        yield from (((i, i), (i, -i)) for i in range(1, 10_001))
        raise KeyError

    with bkd.open(tmp_path, create=True, program=program) as index:
        with pytest.raises(KeyError):
            index.add_many(some())
        assert index.given == range(8192) and index.count((1, -9), (9, 9)) == 18
        assert index.grid(0, 5, 1, 20, (1, -9), (9, 10)) == [(0, 0, 10), (1, 0, 8)]
        assert index.get(8191) == ((8192, -8192), (8192, 8192))


def test_an_interrupt_at_any_moment(program, tmp_path):
    """What isn't known is told as such, and never left out; nothing is doubled."""
    draw, told = random.Random(7), set()
    with bkd.open(tmp_path, create=True, program=program) as index:
        def documents(count):
            return [[(i, 0), (i, 1)] for i in range(count)]

        for turn in range(15):
            timer = threading.Timer(draw.random() * .02, os.kill, (os.getpid(), signal.SIGINT))
            try:
                timer.start()
                if turn % 3:
                    index.add_many(documents(1500))
                else:
                    some = [requests.add(document) for document in documents(1000)]
                    index.ask([*some, requests.COMMIT, *some])
                timer.join()
                time.sleep(0)  # (by now the signal is there)
            except KeyboardInterrupt:
                timer.join()
            live = index.box(*EVERY)
            try:
                assert index.count((0, 0), (9999, 1)) == 2 * len(live)
                assert [number for number, _ in index] == live
                told.add("known")
            except bkd.Uncommitted as error:
                assert "isn't known here any more" in str(error)
                told.add("unknown")
                index.commit()
                assert index.count((0, 0), (9999, 1)) == 2 * len(live)
    assert "known" in told


def test_no_room_for_lines(program, tmp_path, monkeypatch):
    """The documents are added all the same; what needs their points is told."""
    def full(*words):
        raise OSError(28, "no space left on device")

    with bkd.open(tmp_path, create=True, program=program) as index:
        index.add((1, 1))
        monkeypatch.setattr(os, "pwrite", full)
        assert list(index.add_many([(2, 2), (3, 3)])) == [1, 2] and index.add([(4, 4), (5, 5)]) == 3
        assert index.box(*EVERY) == [0, 1, 2, 3] and len(index) == 4 and index.get(0) == ((1, 1),)
        for use in (lambda: index.get(1), lambda: list(index), lambda: index.count(*EVERY),
                    lambda: index.grid(0, 1, 1, 1, (0, 0), (9, 9)), lambda: index.items((2, 2), (9, 9))):
            with pytest.raises(bkd.Uncommitted, match="document [123] isn't committed"):
                use()
        index.commit()
        assert index.count(*EVERY) == 5 and index.get(3) == ((4, 4), (5, 5))


def test_a_piece_that_was_taken_and_not_sent():
    """An interrupt between the two leaves lines that no document has."""
    talk, unstored = Many([(b"add 1 1\n", 1)], DOC), Unstored()
    going = Going(unstored, talk)
    talk.sent(b"add 1 1\n", 1)
    going.end()
    with pytest.raises(bkd.Uncommitted):
        unstored.documents([0], 2)
    assert unstored.lacks and not unstored.is_single(2)
    unstored = Unstored()
    unstored.note(0, "add 2 2")
    assert list(unstored.documents([0], 2)) == [(0, ((2, 2),))] and unstored.is_single(2)
    unstored.add([Piece(1, 1, 8, 8)])
    unstored.note(2, "add 2 2 1 1")
    assert not unstored.is_single(2)
    assert list(unstored.documents([2], 2)) == [(2, ((1, 1), (2, 2)))]
