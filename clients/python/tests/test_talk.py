"""Answers are read whole, wherever the pipes cut them, and what is no answer is told."""
import pytest
from hypothesis import given, strategies as st

from bkd import BadAnswer, Refused, requests
from bkd.answers import DELETED, DOC
from bkd.many import Many
from bkd.talk import Asking, take

ASKED = [
    (requests.add((1, 2)), b"doc 7\n", 7),
    (requests.FLUSH, b"ok\n", None),
    (requests.box((0, 0), (5, 5)), b"hits 2\n3\n16777215\n", [3, 16777215]),
    (requests.box((0, 0), (5, 5), of="a"), b"hits 0\n", []),
    (requests.nearest(2, (0, 0)), b"near 2\n4 0\n1 147573952520956936200\n", [(4, 0), (1, 147573952520956936200)]),
    (requests.delete_box((0, 0), (1, 1)), b"deleted 12\n", 12),
]


@given(st.lists(st.integers(1, 30), max_size=20))
def test_answers_cut_anywhere(cuts):
    talk = Asking(request for request, _, _ in ASKED)
    assert talk.piece()[0].decode().splitlines() == [request.line for request, _, _ in ASKED]
    assert talk.piece() == (b"", 0)
    text = b"".join(answer for _, answer, _ in ASKED)
    for cut in cuts:
        take(talk, text[:cut])
        text = text[cut:]
    take(talk, text)
    assert talk.values == [value for _, _, value in ASKED]
    assert talk.look() == len(ASKED)


@given(st.lists(st.integers(1, 9), max_size=20))
def test_many_cut_anywhere(cuts):
    talk = Many([(b"add 1\nadd 2\n", 2), (b"add x\nadd 3\n", 2)], DOC, first=11)
    while talk.piece()[1]:
        pass
    text = b"doc 4\ndoc 5\nline 13: bad number in word 2\ndoc 6\n"
    for cut in cuts:
        take(talk, text[:cut])
        text = text[cut:]
    take(talk, text)
    numbers, refusals = talk.values()
    assert numbers == [4, 5, 6]
    assert [(r.line, r.reason, r.number) for r in refusals] == [("add x", "bad number in word 2", 13)]


def test_a_refusal_stands_in_its_place():
    talk = Asking([requests.MERGE_END, requests.FLUSH], first=4)
    talk.piece()
    take(talk, b"line 4: no merge begun\nok\n")
    assert isinstance(talk.values[0], Refused) and talk.values[0].reason == "no merge begun"
    assert talk.values[0].line == "merge end" and talk.values[1] is None


@pytest.mark.parametrize("text", [
    b"doc 1\n", b"hits x\n", b"line 2: no index\n", b"hits 1\nx\n", b"hits 0\nok\n", b"hits 0\n1", b"\n",
])
def test_what_is_no_answer(text):
    talk = Asking([requests.box((0, 0), (1, 1))])
    talk.piece()
    with pytest.raises(BadAnswer):
        take(talk, text)


@pytest.mark.parametrize("text", [b"deleted 1\n", b"doc x\n", b"doc 1\nok\n"])
def test_what_is_no_answer_to_many(text):
    talk = Many([(b"add 1\nadd 2\n"[:6 * text.count(b"\n")], text.count(b"\n"))], DOC)
    talk.piece()
    with pytest.raises(BadAnswer):
        take(talk, text)
        talk.values()


def test_many_takes_no_more_than_it_asked():
    talk = Many([(b"delete 1\n", 1)], DELETED)
    talk.piece()
    with pytest.raises(BadAnswer):
        take(talk, b"deleted 1\ndeleted 1\n")
