"""Random operations beside a list: what the program answers is what the model of the language answers."""
import contextlib
import tempfile

import pytest
from hypothesis import HealthCheck, given, settings, strategies as st

import bkd
from bkd import Refused, requests
from model import Model

SLOW = settings(max_examples=25, suppress_health_check=[HealthCheck.function_scoped_fixture, HealthCheck.too_slow])
# few values, so that points fall together and on the sides of boxes; and the ends
COORDINATE = st.one_of(st.integers(-4, 4), st.sampled_from([-(1 << 31), (1 << 31) - 1, 1 << 31, 100_000]))
NAME = st.one_of(st.none(), st.sampled_from(["a", "b", "c"]))


def point(dims):
    return st.lists(COORDINATE, min_size=dims, max_size=dims)


@st.composite
def ring(draw):
    positions = draw(st.lists(point(2), min_size=3, max_size=7))
    return positions + draw(st.sampled_from([positions[:1], []]))


def request(dims):
    """A request; now and then one that is refused."""
    documents = st.lists(point(dims), min_size=1, max_size=3)
    return st.one_of(
        st.builds(requests.add, documents),
        st.builds(requests.add, st.one_of(documents, point(dims + 1))),
        st.builds(requests.delete, st.integers(0, 30)),
        st.builds(requests.delete_box, point(dims), point(dims)),
        st.builds(requests.box, point(dims), point(dims), NAME),
        st.builds(requests.polygon, st.lists(ring(), max_size=2), NAME),
        st.builds(requests.nearest, st.sampled_from([0, 1, 2, 5, 10_000, 10_001]), point(dims), NAME),
        st.builds(requests.snapshot, st.sampled_from(["a", "b", "c"])),
        st.builds(requests.release, st.sampled_from(["a", "b", "c"])),
        st.builds(requests.merge_begin, st.lists(st.integers(0, 3), max_size=2)),
        st.sampled_from([requests.FLUSH, requests.MERGE, requests.MERGE_END, requests.COMMIT, requests.REOPEN]),
        st.builds(requests.create, st.integers(0, 9)),
    )


@st.composite
def scripts(draw):
    """Dimensions, leaf size and some batches of requests."""
    dims = draw(st.sampled_from([1, 2, 2, 2, 3, 8]))
    leaf = draw(st.sampled_from([None, 2, 3]))
    return dims, leaf, draw(st.lists(st.lists(request(dims), max_size=25), min_size=1, max_size=3))


def wanted(model, asked):
    """What the model answers, in the form that the client gives it; the text of a refusal."""
    values = []
    for one in asked:
        rows = model.line(one.line.encode()).splitlines()
        if rows[0].startswith("line "):
            values.append(rows[0].split(": ", 1)[1])
        else:
            text = "".join(row + "\n" for row in rows[1:])
            values.append(one.answer.read([w.encode() for w in rows[0].split()], text.encode()))
    return values


@SLOW
@given(scripts())
def test_as_a_list(program, script):
    dims, leaf, batches = script
    model = Model()
    model.line(requests.create(dims, leaf).line.encode())
    with tempfile.TemporaryDirectory() as folder:
        with bkd.open(folder, dims, leaf, create=True, program=program) as index:
            for asked in batches:
                found = [value.reason if isinstance(value, Refused) else value for value in index.ask(asked)]
                assert found == wanted(model, asked)
        model.state.snapshots.clear()
        model.state.begun = False
        with bkd.open(folder, create=True, program=program) as index:
            every = requests.box([-(1 << 31)] * dims, [(1 << 31) - 1] * dims)
            assert index.ask([every]) == wanted(model, [every])


@settings(SLOW, max_examples=8)
@given(st.lists(point(2).filter(lambda p: max(map(abs, p)) < 1 << 31), max_size=200), st.data())
def test_methods_as_a_list(program, points, data):
    with tempfile.TemporaryDirectory() as folder, bkd.open(folder, leaf=2, create=True, program=program) as index:
        kept = dict(zip(index.add_many(points), points))
        gone = data.draw(st.lists(st.integers(0, 250), max_size=30))
        assert index.delete_many(gone) == len(kept.keys() & set(gone))
        for number in gone:
            kept.pop(number, None)
        low, high = data.draw(point(2)), data.draw(point(2))
        with contextlib.suppress(Refused):  # an end beyond 32 bits
            inside = [n for n, p in kept.items() if all(a <= c <= b for a, c, b in zip(low, p, high))]
            assert index.box(low, high) == inside
        with contextlib.suppress(Refused):
            near = sorted((sum((a - b) ** 2 for a, b in zip(p, low)), n) for n, p in kept.items())[:5]
            assert index.nearest(5, low) == [(n, d) for d, n in near]


def test_the_model_itself():
    """Rows whose answers were worked out by hand."""
    rows = [
        ("box 0 0 5 5", "line 1: no index"), ("create 2 leaf 334", "line 2: leaf size"), ("create 9", "line 3: dims"),
        ("create 2\r", "ok"), ("# a note", ""), ("", ""), ("create 2", "line 7: index exists"),
        ("add 1", "line 8: wrong words"),
        ("add 1 x", "line 9: bad number in word 3"), ("add 1 2147483648", "line 10: bad number in word 3"),
        ("near 1 0 0", "line 11: unknown command"), ("nearest 0 0 0", "line 12: bad k"),
        ("snapshot a.b", "line 13: bad name"),
        ("add 0 0 10 10", "doc 0"), ("box 9 9 11 11", "hits 1\n0"), ("nearest 1 1 1", "near 1\n0 2"),
        ("add 1 2 3", "line 17: wrong words"), ("box @a 0 0 1 1", "line 18: unknown snapshot"),
        ("delete 0", "deleted 1"),
        ("merge end", "line 20: no merge begun"), ("polygon {", "line 21: polygon is not json"),
        ('polygon {"type":"Polygon","coordinates":[[[0,0],[4,0],[0,0]]]}',
         "line 22: polygon ring 0 has too few positions"),
    ]
    model = Model()
    for line, answer in rows:
        assert model.line(line.encode()).strip("\n") == answer
    model = Model()
    for line in ("create 2", "add 5 5", "add 4 5", "add 1 1", "add 11 5"):
        model.line(line.encode())
    squares = '{"type":"Polygon","coordinates":[[[0,0],[10,0],[10,10],[0,10],[0,0]],[[4,4],[6,4],[6,6],[4,6],[4,4]]]}'
    assert model.line(b"polygon " + squares.encode()) == "hits 2\n1\n2\n"
    assert model.line(b"add " + b"1" * 5_000_000) == "line 7: too long\n"
    assert model.line(b"\xff") == "line 8: not utf-8\n"


def test_a_line_that_is_too_long(program, tmp_path):
    with bkd.open(tmp_path, create=True, program=program) as index:
        ring = [(i, 0) for i in range(400_000)]
        found = index.ask([requests.polygon([ring]), requests.add((1, 1))])
        assert found[0].reason in ("too long", "line too long") and found[1] == 0


@pytest.mark.parametrize("dims, leaf", [(1, 2), (2, 2), (3, 5)])
def test_many_segments(real, tmp_path, dims, leaf):
    """Enough flushes that levels are merged, with deletions between them."""
    model = Model()
    model.line(f"create {dims} leaf {leaf}".encode())
    asked = []
    for i in range(400):
        asked.append(requests.add([((i * 37 + d) % 101, *[i % (d + 2) for d in range(dims - 1)])
                                   for d in range(1 + i % 3)]))
        asked += [requests.FLUSH] * (i % 7 == 0) + [requests.delete(i * 13 % 300)] * (i % 5 == 0)
        asked += [requests.nearest(7, [i % 50] * dims),
                  requests.box([i % 40] * dims, [i % 40 + 9] * dims)] * (i % 11 == 0)
    with bkd.open(tmp_path, dims, leaf, create=True, program=real) as index:
        assert index.ask(asked) == wanted(model, asked)
