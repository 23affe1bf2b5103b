"""Lines of many documents, spelled at once, and answers to many, compared at once: as one by one."""
import random

import pytest
from hypothesis import given, strategies as st

from bkd import BadAnswer, spelling
from bkd.answers import DELETED, DOC
from bkd.many import Many
from bkd.talk import take

numpy = pytest.importorskip("numpy")

WHOLE = st.integers(-(1 << 31), (1 << 31) - 1)
# where the number of digits changes, and where a group of four does
EDGES = sorted({sign * (10 ** d + step) for d in range(10) for step in (-1, 0, 1) for sign in (1, -1)}
               | {-(1 << 31), (1 << 31) - 1})


def words(table, dims):
    text = b"".join(text for text, _ in spelling.added(table, dims))
    assert text.endswith(b"\n")
    return [line.split() for line in text.decode().splitlines()]


def plain(table):
    return [["add", *map(str, row)] for row in table.tolist()]


@given(st.integers(1, 8).flatmap(lambda dims: st.lists(st.lists(WHOLE, min_size=dims, max_size=dims), min_size=1)))
def test_arrays_as_lines(rows):
    table = numpy.array(rows, dtype=numpy.int32)
    assert words(table, table.shape[1]) == plain(table)


@pytest.mark.parametrize("kind", [numpy.int32, numpy.int64])
def test_each_number_of_digits(kind):
    table = numpy.array([(a, b) for a in EDGES for b in EDGES], dtype=kind)
    assert words(table, 2) == plain(table)


def test_kinds_of_arrays():
    for kind in (numpy.uint8, numpy.int16, numpy.uint32, numpy.uint64):
        table = numpy.array([[0, 7], [255, 1]], dtype=kind)
        assert words(table, 2) == words(table[:, ::-1].copy()[:, ::-1], 2) == plain(table)
    # what is beyond is for the program to refuse
    table = numpy.array([[1 << 31, 0], [-(1 << 31) - 1, 5]], dtype=numpy.int64)
    assert words(table, 2) == plain(table)
    assert words(numpy.arange(-3, 9), 1) == plain(numpy.arange(-3, 9).reshape(-1, 1))


@pytest.mark.parametrize("first", [0, 1, 997, 999, 1000, 99_999, 4_000_000])
def test_numbers_that_follow(first):
    """Cut anywhere, with refusals among them."""
    draw, count = random.Random(first), 5000
    lines, following = [], first
    for place in range(count):
        is_refused = place in (17, 2000, 4999)
        lines.append(b"line %d: full\n" % (place + 1) if is_refused else b"doc %d\n" % following)
        following += not is_refused
    talk, text = Many([(b"add 1\n" * count, count)], DOC), b"".join(lines)
    talk.piece()
    while text:
        at = draw.randint(1, 20_000)
        take(talk, text[:at])
        text = text[at:]
    assert talk.look() == count and talk.numbers == range(first, following)
    assert [refused.number for refused in talk.refusals] == [18, 2001, 5000]


@pytest.mark.parametrize("wrong", [b"doc 1\ndoc 3\n", b"doc 1\ndoc 1\n", b"doc 01\ndoc 3\n", b"doc 1\ndoc x\n",
                                   b"doc 1\ndeleted 1\n", b"doc -1\ndoc 0\n", b"doc 1\n\n"])
def test_numbers_that_do_not_follow(wrong):
    talk = Many([(b"add 1\n" * 2, 2)], DOC)
    talk.piece()
    with pytest.raises(BadAnswer):
        take(talk, wrong)


def test_deletions():
    draw = random.Random(1)
    gone = [draw.randint(0, 1) for _ in range(3000)]
    talk = Many([(b"delete 1\n" * 3000, 3000)], DELETED)
    talk.piece()
    text = b"".join(b"deleted %d\n" % one for one in gone)
    take(talk, text[:12_345])
    take(talk, text[12_345:])
    assert talk.deleted == sum(gone) and talk.look() == 3000
    with pytest.raises(BadAnswer):
        take(talk, b"deleted 1\n")
